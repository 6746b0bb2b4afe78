"""Calls of the library with what each is to answer, which is what a built program answers to the same bytes."""

import random
import re
import subprocess

from checks import CHANGES, lines_of
from kimorefo.scene_text import MOST_TEXT_BYTES, read
from library_runs import HERE, Answer, Case
from make_scenes import scene_of, with_faults

EXAMPLES = HERE.parent / "examples"
WORDS = {"plan": "plan 1", "full": "plan 1 full", "smooth": "smooth 1"}
REFUSED = re.compile(rb"line (\d+) kind (\d+) [A-Z][a-z]+\n")
BROKEN = re.compile(rb"broken line (\d+) law (\d+)\n")
NO_ROOM = 9
MOST_REPORT_BYTES = 2**32 - 2
LONG = b"#" * (MOST_TEXT_BYTES + 1)


def refusal(status, written):
    """The answer of a call that the program refuses."""
    found = REFUSED.fullmatch(written)
    return Answer(3, 0, *map(int, found.groups())) if found else Answer(status)


class Cases:
    """The cases that a built program decides."""

    def __init__(self, program):
        self.program = program

    def run(self, words, text):
        """The status of the program, and what it writes."""
        done = subprocess.run([self.program, *words.split()], input=text, capture_output=True, check=False)
        return done.returncode, done.stdout

    def planned(self, name, call, text, rooms, fails=False):
        """Cases of one that plans, with rooms so much larger than the report; None is no room at all."""
        status, written = self.run(WORDS[call], text)
        if status > 1:
            yield Case(name, call, refusal(status, written), text, room=1000, fails=fails)
            return
        count = len(written)
        for more in rooms:
            room = None if more is None else max(0, count + more)
            is_enough = room is not None and room >= count
            wanted = Answer(status, count, text=written) if is_enough else Answer(NO_ROOM, count)
            yield Case(name, call, wanted, text, room=room, fails=fails)

    def judged(self, name, text, report, fails=False):
        """A case of a report that is judged."""
        status, written = self.run("check", text + b"report\n" + report)
        found = BROKEN.fullmatch(written)
        wanted = Answer(1, 0, int(found[1]), 0, int(found[2])) if found else refusal(status, written)
        return Case(name, "check", wanted, text, report, fails=fails)

    def of_scene(self, name, text, rooms, fails=False):
        """The cases of the text of a scene: planned, and its report judged as it is and changed."""
        for call in WORDS:
            yield from self.planned(name, call, text, rooms, fails)
        report = self.run("plan 1 full", text)[1]
        yield self.judged(name, text, report, fails)
        yield self.judged(f"{name}, cut", text, report[:-1], fails)

    def of_examples(self):
        """The scenes of examples/, with rooms around the size of the report, and with each allocation failing in turn."""
        for path in sorted(EXAMPLES.glob("*.scene")):
            yield from self.of_scene(path.stem, path.read_bytes(), [0, -1, 1000, -(2**40), None])
            yield from self.of_scene(path.stem, path.read_bytes(), [0], fails=True)

    def of_numbers(self, count):
        """Random scenes, texts with faults, and changed reports."""
        for number in range(count):
            for version in (1, 2):
                text = scene_of(number, version).text().encode()
                yield from self.of_scene(f"scene {number} {version}", text, [0, -1])
                faulty = with_faults(number, version)
                yield from self.planned(f"faults {number} {version}", "plan", faulty, [0])
                yield self.judged(f"faults {number} {version}", faulty.rstrip(b"\n") + b"\n", b"path 1 cost 0\n")
                yield from self.changed(number, version, text)

    def changed(self, number, version, text):
        """The reports of a random scene, changed."""
        status, report = self.run("plan 1 full", text)
        rng = random.Random(f"library {number} {version}")
        for what, change in CHANGES.items() if status <= 1 else ():
            changed = change(rng, lines_of(report.decode()), read(text)).encode("latin-1")
            yield self.judged(f"scene {number} {version}, {what}", text, changed)

    def hostile(self):
        """Texts, reports and rooms of no bytes and of too many."""
        small, blocked = (EXAMPLES / f"{name}.scene" for name in ("first", "start-touches"))
        for text in (b"", None, b"\n", b"\xff\x00", b"prrt 2", LONG[1:], LONG):
            name = "NULL" if text is None else f"a text of {len(text)} bytes"
            for call in WORDS:
                wanted = next(self.planned("", call, text or b"", [0])).wanted
                yield from (Case(name, call, wanted, text, room=room) for room in (None, 0, 1, 5000))
            yield Case(name, "check", wanted, text)
        yield Case("a long text and report", "check", Answer(3), LONG, LONG)
        for scene, (line, status) in {small: (1, 1), blocked: (0, 4)}.items():
            text = scene.read_bytes()
            for report in (None, b"", b"\n", b"\x00"):
                yield self.judged(f"{scene.stem}, a report of {report!r}", text, report or b"")
                yield Case(f"{scene.stem}, {report!r}", "check", self.judged("", text, report or b"").wanted, text, report)
            yield Case(f"{scene.stem}, a long report", "check", Answer(3), text, MOST_REPORT_BYTES + 1)
            wanted = Answer(status, 0, line, 0, line)
            yield Case(f"{scene.stem}, one byte less", "check", wanted, text, MOST_REPORT_BYTES)

    def named(self, version, logic):
        """What the library says of itself."""
        yield Case("", "version", Answer(version))
        count = len(logic)
        yield from (Case("", "logic", Answer(0, count, text=logic), room=count + more) for more in (0, 9))
        yield from (Case("", "logic", Answer(NO_ROOM, count), room=room) for room in (None, 0, count - 1))

    def telling(self, version, logic):
        """A few cases, in which each of the planted faults shows, first those that take little time."""
        yield from self.named(version, logic)
        clockwise = (EXAMPLES / "pillar.scene").read_bytes() + b"obstacle 1 1 1 2 2 1\n"
        yield from self.planned("a clockwise obstacle", "plan", clockwise, [0])
        yield self.judged("a clockwise obstacle", clockwise, b"")
        scenes = {name: (EXAMPLES / f"{name}.scene").read_bytes() for name in ("rewired", "no-path", "start-touches")}
        for name, text in scenes.items():
            yield from self.of_scene(name, text, [0, -1, 9])
        yield Case("a long text", "plan", Answer(3), LONG, room=9)
        yield Case("a long report", "check", Answer(3), scenes["rewired"], MOST_REPORT_BYTES + 1)
        yield from self.of_scene("rewired", scenes["rewired"], [0], fails=True)
