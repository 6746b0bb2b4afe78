"""Why a text is refused, in sentences, and lines to write in place of the refused one.

Which line is refused, and by which check of docs/scene-format.md, `scene.read` alone says. Here the line is looked at
again to say more, and only lines are proposed that `scene.read` takes.
"""

from collections import defaultdict
from dataclasses import dataclass, field

from ..geometry import hull
from ..scene_text import KEYS, KINDS, MOST_CORNERS, NEEDED, NUMBER, RIVALS, Fault
from ..scene_text import bounded, flat, pairs, read, statements, version_in
from .corner_faults import convex_polygons, corner_faults
from .spelling import in_plain_characters, in_plain_words, oddities, shown, why_no_number, wide_encoding
from .wording import counted, listed

FORMS = {
    b"room": "w h",
    b"start": "x y",
    b"goal": "x0 y0 x1 y1",
    b"step": "s",
    b"mark": "x y",
    b"seed": "n",
    b"strips": "g",
    b"clearance": "c",
    b"gamma": "g",
    b"marks": "n",
    b"informed": "n",
}
LENGTHS = (b"room", b"start", b"goal", b"step", b"mark", b"body", b"clearance")
REPORT_KEYS = (b"path", b"no", b"nodes", b"node", b"better", b"lawful")
MOST_WORDS_SHOWN = 5
# The longest line that is mended; the longest one of a scene without needless spaces and zeros has some thousand bytes.
MOST_MENDED = 10_000
BEGIN = "A scene begins with the line `prrt 1` or `prrt 2`, and only comments and empty lines come before it."


@dataclass
class Part:
    """A scene text in what was read: its lines, the number of lines before it, and what comes after its last line."""

    lines: list
    before: int = 0
    end: str = "the end of the text"
    is_one_of_several: bool = False


@dataclass
class Explanation:
    """What is wrong and how to mend it, in sentences, and the lines to write in place of the refused one, if any."""

    sentences: list
    mended: list = field(default_factory=list)


class Place:
    """The refused line of a part, and what the lines before it have given."""

    def __init__(self, part, fault):
        self.part, self.number = part, fault.line
        self.line = part.lines[fault.line - 1] if fault.line <= len(part.lines) else b""
        self.words = [word for word in self.line.split(b" ") if word]
        self.key, self.values = (self.words or [b""])[0], self.words[1:]
        first, *others = [*statements(part.lines[: fault.line - 1])] or [(0, [])]
        self.version = version_in(first[1])
        self.earlier = defaultdict(list)
        for number, words in others:
            self.earlier[words[0]].append(part.before + number)

    @property
    def row(self):
        """How many numbers the key takes (None: pairs), their range, and how many lines may have it."""
        return KEYS[self.version][self.key]


def quoted(word):
    """A word or a line as it stands in a sentence."""
    return f"`{shown(word)}`"


def explain_fault(part, fault):
    """The explanation of the first fault of a part, whose line is counted in the part."""
    place = Place(part, fault)
    encoding = wide_encoding(b"\n".join(part.lines[:8]))
    if encoding and KINDS[fault.kind] == "Version":
        return Explanation(encoding_fault(encoding))
    odd, plain = oddities(place.line), in_plain_characters(place.line)
    if odd and is_taken(place, [plain]):
        return Explanation(odd, [plain] * bool(plain))
    return Explanation(odd + EXPLAINED[KINDS[fault.kind]](place), mended_lines(place))


def encoding_fault(encoding):
    """What to say of a text with more than a byte for each character."""
    orders = {"LE": "the lower byte first", "BE": "the higher byte first"}
    return [
        f"The text is in {encoding[:6]}, {orders.get(encoding[-2:], 'by its byte order mark')}: each character has"
        " more than one byte, and each byte belongs to a word.",
        f"Save it in ASCII, or in UTF-8 without a byte order mark: `iconv -f {encoding} -t UTF-8` converts it.",
    ]


def version_fault(place):
    """What to say of a first line that is no version."""
    if not place.words:
        between = "A line `next` stands between two scenes: leave it out before the first and after the last."
        said = [f"There is no line before {place.part.end} but comments and empty ones.", BEGIN]
        return said + [between] * place.part.is_one_of_several
    said = [f"This line comes first, and has not just the two words of a version. {BEGIN}"]
    later = next((n for n, words in statements(place.part.lines) if version_in(words)), None)
    if later:
        said.append(f"Line {place.part.before + later} has a version: move it to the top.")
    if place.key == b"prrt" and len(place.words) == 2:
        said.append(f"There is no version {quoted(place.words[1])}.")
    if place.key == b"prrt" and len(place.words) > 2:
        said.append("Nothing else may stand in that line.")
    if place.key != b"prrt" and place.key.lower() == b"prrt":
        said.append("It is written in lower case.")
    return said


def key_fault(place):
    """What to say of a line whose first word is no key of the version."""
    key, keys = place.key, KEYS[place.version]
    if key in KEYS[2]:
        return [f"{quoted(key)} is a key of version 2, and the text begins with `prrt 1`: begin it with `prrt 2`."]
    known = f"The keys of version {place.version} are {listed(map(bytes.decode, keys))}."
    if key.lower() in KEYS[2]:
        return [f"Keys are in lower case (small letters): {quoted(key.lower())} in place of {quoted(key)}.", known]
    if key == b"prrt":
        return ["A version stands in the first line alone. Between two scenes for `batch` stands a line `next`."]
    if place.words in ([b"next"], [b"report"]):
        return separator_fault(place)
    if key in REPORT_KEYS:
        return [f"{quoted(key)} begins a line of a report. For `check`, a line that is exactly `report` stands before."]
    if NUMBER.fullmatch(key):
        return ["The line begins with a number. All numbers of a key stand in one line, after it."]
    if key[:1] in b"/;%!":
        return [f"{quoted(key)} is no key. A comment begins with `#`.", known]
    return [f"{quoted(key)} is no key: look for a misspelt one.", known, "They are in lower case; a space follows."]


def separator_fault(place):
    """What to say of a line with the word that separates two scenes, or a scene and a report."""
    reader = {b"next": "`batch`, between two scenes", b"report": "`check`, between a scene and a report"}[place.key]
    if place.line == place.key:
        return [f"{quoted(place.key)} is for {reader}, and a text has lines of one of the two kinds."]
    return [f"For {reader}, the line is exactly {quoted(place.key)}, without a space before or after it."]


def repeat_fault(place):
    """What to say of a key that may not stand again."""
    key, rival = place.key, RIVALS.get(place.key)
    own, others = place.earlier[key], place.earlier[rival]
    if others:
        return [
            f"{quoted(key)} may not stand beside {quoted(rival)}, which stands in line {others[0]}: marks are either"
            " drawn, by one line `marks`, or listed, by lines `mark`. Keep one of the two kinds."
        ]
    said = f"{quoted(key)} stands in line {own[0]} already, and may stand once. Keep one of the two lines."
    return [said] + ["To have several goals, begin with `prrt 2`."] * (key == b"goal")


def words_fault(place):
    """What to say of the wrong number of words after a key."""
    said = [miscount(place)]
    if any(value.startswith(b"#") for value in place.values):
        said.append("A comment needs a line of its own: after a key, `#` is a word like any other. Move it there.")
    if any(b"," in value for value in place.values):
        said.append("Only spaces separate words: leave the commas out.")
    if any(value in KEYS[2] for value in place.values):
        said.append("A line has one key: begin a new line at the next.")
    return said


def miscount(place):
    """How many numbers a key takes, and how many words stand there."""
    key, count = place.key, len(place.values)
    wanted = place.row[0]
    if wanted is not None:
        form = f"`{key.decode()} {FORMS[key]}`"
        return f"{quoted(key)} takes {counted(wanted, 'number')}, {form}, and here stand {count}."
    if count % 2:
        return f"{quoted(key)} takes two numbers for each corner, x and y, and here stand {count}: half a corner."
    stand = "1 corner stands" if count == 2 else f"{count // 2} corners stand"
    if key == b"body":
        rod = "a rod is a thin rectangle or triangle, such as `body 0 0 9 0 9 1 0 1`"
        return f"A body has one corner, or three to {MOST_CORNERS[key]}, and here {stand}: {rod}."
    small = "a point is a small triangle, such as `obstacle 5 5 6 5 5 6`"
    return f"An obstacle has three corners at least, and here {stand}: {small}."


def many_fault(place):
    """What to say of more corners or lines than there may be."""
    key, corners = place.key, len(place.values) // 2
    most = MOST_CORNERS.get(key, corners)
    if corners > most:
        mend = {
            b"body": "draw a simpler polygon around it",
            b"obstacle": "draw a simpler polygon around it, or cut it into several obstacles, which may overlap",
        }[key]
        return [f"{quoted(key)} has {corners} corners, and may have {most}: {mend}."]
    mend = {
        b"obstacle": "leave out those outside the room, and draw one polygon around several small ones",
        b"goal": "leave some out, or draw one box around several",
        b"mark": "leave some out",
    }[key]
    return [f"This is line {len(place.earlier[key]) + 1} with {quoted(key)}, and there may be {place.row[2]}: {mend}."]


def number_fault(place):
    """What to say of words that are no numbers."""
    comment = next((i for i, value in enumerate(place.values) if value.startswith(b"#")), len(place.values))
    wrong = [(i, value) for i, value in enumerate(place.values[: comment + 1]) if not NUMBER.fullmatch(value)]
    said = [f"{quoted(value)} ({name_of(place, i)}) {why_no_number(value)}." for i, value in wrong[:MOST_WORDS_SHOWN]]
    more = len(wrong) - len(said)
    return said + [f"{counted(more, 'more word')} of this line {'is' if more == 1 else 'are'} no number."] * (more > 0)


def name_of(place, i):
    """The name of the number at a place after the key."""
    form = FORMS.get(place.key)
    return form.split()[i] if form else f"{'xy'[i % 2]} of corner {i // 2 + 1}"


def range_fault(place):
    """What to say of numbers out of their range, or of the corners of a goal in the wrong order."""
    low, high = place.row[1]
    numbers = [bounded(value) for value in place.values]
    wrong = [i for i, number in enumerate(numbers) if not low <= number <= high]
    said = [out_of_range(place, i, numbers[i]) for i in wrong[:MOST_WORDS_SHOWN]]
    more = len(wrong) - len(said)
    said += [f"{counted(more, 'more number')} of this line {'is' if more == 1 else 'are'} out of range."] * (more > 0)
    if place.key == b"goal":
        turned = [(axis, numbers[i], numbers[i + 2]) for i, axis in enumerate("xy") if numbers[i] > numbers[i + 2]]
        said += [f"{axis}0 is {a} and {axis}1 is {b}: the lower left corner comes first." for axis, a, b in turned]
    return said


def out_of_range(place, i, number):
    """What to say of one number out of its range."""
    (low, high), (lower, higher) = place.row[1], KEYS[2][place.key][1]
    word = f"{quoted(place.values[i])} ({name_of(place, i)})"
    what = f"{word} is out of range: {low} to {high} in version {place.version}"
    if place.version == 1 and (lower, higher) != (low, high):
        what += f", {lower} to {higher} in version 2"
    if place.version == 1 and lower <= number <= higher:
        return f"{what}. Begin with `prrt 2`."
    return f"{what}. {mend_range(place.key, number < low)}"


def mend_range(key, is_too_small):
    """How to mend a number that is out of the range of each version."""
    if key == b"obstacle":
        return "Cut the obstacle at the room: what lies outside blocks nothing."
    if is_too_small and key == b"step":
        return "Choose a smaller unit, so that a step is more lattice steps."
    if is_too_small and key in (b"start", b"goal", b"mark"):
        return "The lower left corner of the room is 0 0: move the whole scene to the right or up."
    if not is_too_small and key in LENGTHS or key == b"body":
        return "Choose a larger unit, so that all lengths are fewer lattice steps."
    return "Write a number of this range."


def corners_fault(place):
    """What to say of a polygon that is not strictly convex and counterclockwise."""
    corners = corners_of(place)
    said, around = corner_faults(corners), hull(corners)
    if len(around) < 3 or convex_polygons(corners, place.key == b"obstacle"):
        return said
    if place.key == b"obstacle":
        said.append("Cut the obstacle into convex ones, one in each line; they may overlap.")
    return [*said, f"The convex polygon around all corners is `{polygon_line(place.key, around).decode()}`."]


def corners_of(place):
    """The corners that the numbers of a line give."""
    return pairs([bounded(value) for value in place.values])


def polygon_line(key, corners):
    """The line of a polygon."""
    return b" ".join([key, *(b"%d" % coordinate for coordinate in flat(corners))])


def missing_fault(place):
    """What to say of a text without a key that it needs."""
    missing = [key for key in NEEDED if not place.earlier[key]]
    lines = listed((f"`{key.decode()} {FORMS[key]}`" for key in missing), "or")
    return [f"There is no line {lines} before {place.part.end}: add what is missing."]


EXPLAINED = {
    "Version": version_fault,
    "Key": key_fault,
    "Words": words_fault,
    "Number": number_fault,
    "Range": range_fault,
    "Repeat": repeat_fault,
    "Corners": corners_fault,
    "Many": many_fault,
    "Missing": missing_fault,
}


def mended_lines(place):
    """The lines to write in place of the refused one, as its writer may have meant it; none if they are refused too."""
    words = in_plain_words(place.line) if len(place.line) <= MOST_MENDED else []
    line = b" ".join(words)
    candidates = [[line], [line.replace(b",", b" ")], in_order(*words)] if words else []
    return next((lines for lines in candidates if lines not in ([], [place.line]) and is_taken(place, lines)), [])


def in_order(key, *values):
    """Lines with the corners of a goal or a polygon in their order, if the words after the key are numbers; or none."""
    if len(values) % 2 or not all(map(NUMBER.fullmatch, values)):
        return []
    corners = pairs(list(map(bounded, values)))
    if key == b"goal" and len(corners) == 2:
        return [polygon_line(key, [tuple(map(choose, *corners)) for choose in (min, max)])]
    if key in MOST_CORNERS and corners:
        return [polygon_line(key, polygon) for polygon in convex_polygons(corners, key == b"obstacle")]
    return []


def is_taken(place, lines):
    """Whether these lines in place of the refused one pass all checks of a line."""
    before = place.part.lines[: place.number - 1]
    try:
        read(b"".join(line + b"\n" for line in [*before, *lines]))
    except Fault as fault:
        return fault.line > len(before) + len(lines)
    return True
