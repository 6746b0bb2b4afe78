"""What is wrong with a scene text and how to mend it: of one scene, of several, or of one before a report."""

from collections import defaultdict
from dataclasses import dataclass

from ..batches import MOST_SCENES, parts_of, read_batch
from ..reports import START_BLOCKED
from ..scene_text import MOST_TEXT_BYTES, Fault, lines_of, read, statements
from .scene_faults import findings_of
from .spelling import shown
from .text_faults import Part, explain_fault
from .wording import counted

CLEAR, REFUSED, BLOCKED = 0, 3, 4


@dataclass
class Answer:
    """The line with which the program refuses a text, if it does; its status; and the lines that explain the text."""

    verdict: str
    status: int
    said: list

    def text(self):
        """All of it as a text."""
        return "".join(line + "\n" for line in [self.verdict, *self.said] if line)


def answer_for(text):
    """What is said of the bytes of a text."""
    if len(text) > MOST_TEXT_BYTES:
        return Answer("text too long", REFUSED, [too_long(text)])
    lines = lines_of(text)
    separator = next((i for i, line in enumerate(lines) if line in (b"next", b"report")), None)
    if separator is None:
        return answer_for_part(Part(lines))
    if lines[separator] == b"next":
        return answer_for_batch(text)
    answer = answer_for_part(Part(lines[:separator], end=f"line {separator + 1}, `report`"))
    answer.said.append(f"The report after line {separator + 1} was not looked at: `check` judges it.")
    return answer


def too_long(text):
    """What is said of a text with too many bytes."""
    size = f"The text has {len(text)} bytes, and may have {MOST_TEXT_BYTES}: {len(text) - MOST_TEXT_BYTES} too many."
    return (
        f"{size} Leave out comments, or some marks, or have them drawn by one line `marks`. For a longer report there"
        " is tools/judge.py."
    )


def answer_for_part(part):
    """What is said of one scene text."""
    try:
        scene = read(b"".join(line + b"\n" for line in part.lines))
    except Fault as fault:
        return Answer(str(Fault(part.before + fault.line, fault.kind)), REFUSED, refusal(part, fault))
    found = findings_of(scene, line_numbers(part))
    if not found.is_start_clear:
        return Answer(START_BLOCKED, BLOCKED, found.said)
    if not found.said:
        said = f"No fault was found in this scene: {numbers_of(scene)}. Whether it has a path is not decided here."
        return Answer("", CLEAR, [said])
    return Answer("", CLEAR, [f"The start is clear. This is the scene: {numbers_of(scene)}.", *found.said])


def refusal(part, fault):
    """What is said of the first fault of a part."""
    explanation = explain_fault(part, fault)
    line = part.lines[fault.line - 1 : fault.line]
    said = [f"Line {part.before + fault.line} is: {shown(own)}" for own in line] + [" ".join(explanation.sentences)]
    mended = [f"    {shown(own, len(own))}" for own in explanation.mended]
    return said + (["Write in its place:", *mended] if mended else [])


def line_numbers(part):
    """The numbers of the lines of each key, in the whole text."""
    numbers = defaultdict(list)
    for number, words in statements(part.lines):
        numbers[words[0]].append(part.before + number)
    return numbers


def numbers_of(scene):
    """The numbers of a scene."""
    listed, drawn = counted(len(scene.marks), "listed mark"), counted(scene.drawn or 0, "drawn mark")
    marks = listed if scene.drawn is None else drawn
    said = [
        f"version {scene.version}, room {scene.room[0]} by {scene.room[1]}",
        f"body of {counted(len(scene.body), 'corner')}",
        f"{counted(len(scene.obstacles), 'obstacle')}, {counted(len(scene.goals), 'goal')}, {marks}",
        f"step {scene.step}, gamma {scene.gamma}",
    ]
    said += [f"clearance {scene.clearance}"] * (scene.version == 2) + ["informed"] * scene.informed
    return ", ".join(said)


def answer_for_batch(text):
    """What is said of several scenes: of each part by itself."""
    parts = parts_of(text)
    ends = [f"line {first}, `next`" for first, _ in parts[1:]] + ["the end of the text"]
    own = [Part(lines_of(part), first, end, True) for (first, part), end in zip(parts, ends)]
    answers = [answer_for_part(part) for part in own[:MOST_SCENES]]
    said = []
    for number, (part, answer) in enumerate(zip(own, answers)):
        said += [f"Scene {number}, from line {part.before + 1} on:", *filter(None, [answer.verdict]), *answer.said]
    if len(parts) > MOST_SCENES:
        last = f"Line {parts[MOST_SCENES][0]} is line `next` number {MOST_SCENES}"
        said.append(f"{last}: a batch has {MOST_SCENES} scenes at most.")
    try:
        read_batch(text)
    except Fault as fault:
        return Answer(str(fault), REFUSED, said)
    is_blocked = any(answer.status == BLOCKED for answer in answers)
    return Answer(START_BLOCKED, BLOCKED, said) if is_blocked else Answer("", CLEAR, said)
