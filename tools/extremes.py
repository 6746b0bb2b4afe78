#!/usr/bin/env python3
"""Runs a built program on the longest texts that it takes, and on the greatest scene of each version, and prints a table of both.

Usage: extremes.py PROGRAM [texts | scene]; without a second word it does both. Each text has 16,777,216 bytes, the most that a text
may have, or one more. What is written of it and the status are worked out here, from the rules of docs/scene-format.md. A run that
takes more than a second is tried twice more, and the least time counts; it is not to be longer.

The greatest scene has the most of everything at once: bytes, obstacles and their corners, corners of the body, marks, strips, and
workers, in the greatest room, in version 2 with as many goals and as great a clearance as there may be. `show` writes its canonical
text, and `convert` that in version 2. It is planned by 1, 4 and 64 workers, whose reports are held to judge.py: a short one as far as
it shows, and a full one at 500 of its nodes and of its marks.

Each line has the time, the processor time and the most memory of a run. It ends with 1 if anything was wrong.
"""

import os
import random
import subprocess
import sys
import tempfile
from dataclasses import dataclass
from math import atan2, gcd

from judge import verdict
from kimorefo.scene_text import KEYS, KINDS, MOST_CORNERS, MOST_TEXT_BYTES, SceneText
from usage import words_or_usage

MOST_MARKS = KEYS[2][b"mark"][2]
MOST_OBSTACLES = KEYS[2][b"obstacle"][2]
MOST_GOALS = KEYS[2][b"goal"][2]
MOST_CLEARANCE = KEYS[2][b"clearance"][1][1]
MOST_WORKERS = MOST_STRIPS = 64
ROOMS = {1: 65_535, 2: 1_048_575}
FIRST = b"prrt 1\n"
SECOND = b"prrt 2\n"
NEEDED = b"room 9 9\nstart 0 0\ngoal 1 1 2 2\nstep 4\n"
MOST_SECONDS = 1
TRIES = 3
# How the greatest scene is planned, and how many nodes and marks of a full report are judged.
COMMANDS = ("plan 1", "plan 4", "plan 64", "plan 64 full")
LOOKED_AT = 500


@dataclass
class Run:
    """How a run ended, and what it took: seconds of the clock and of the processors, and megabytes of memory."""

    status: int
    output: bytes
    seconds: float
    used: float
    megabytes: float

    def __str__(self):
        return f"{self.status:6} {self.seconds:8.2f} {self.used:8.2f} {self.megabytes:8.0f}"


def run(program, words, text):
    """Runs the program with these words on this text."""
    measure = [sys.executable, "-SB", os.path.join(os.path.dirname(os.path.abspath(__file__)), "measure.py")]
    with tempfile.TemporaryFile() as given, tempfile.TemporaryFile() as written:
        given.write(text)
        given.seek(0)
        done = subprocess.run([*measure, program, *words.split()], stdin=given, stdout=written, stderr=subprocess.PIPE, check=True)
        written.seek(0)
        status, seconds, used, kilobytes = done.stderr.split()[-4:]
        return Run(int(status), written.read(), float(seconds), float(used), float(kilobytes) / 1024)


def refused(line, kind):
    """What is written of a text with this fault."""
    return f"line {line} kind {kind} {KINDS[kind]}\n".encode()


def filled(start, unit, size, end=b""):
    """A text of this size: the start, the unit as often as it fits, spaces, and the end; and how often the unit fits."""
    count, spaces = divmod(size - len(start) - len(end), len(unit))
    return start + unit * count + b" " * spaces + end, count


def one_line(size):
    """Texts of one line, or of the first line and another: what they are, the text, and what is written of it."""
    yield "one word", b"a" * size, refused(1, 1)
    yield "null bytes", b"\0" * size, refused(1, 1)
    yield "bytes 255", b"\xff" * size, refused(1, 1)
    yield "one comment", b"#" * size, refused(2, 1)
    yield "spaces", b" " * size, refused(2, 1)
    yield "words", filled(b"", b"a ", size)[0], refused(1, 1)
    yield "`prrt`, spaces, `1`", b"prrt" + b" " * (size - 5) + b"1", refused(2, 9)
    yield "`prrt`, words", filled(b"prrt", b" 1", size)[0], refused(1, 1)
    yield "a key of null bytes", FIRST + b"\0" * (size - len(FIRST)), refused(2, 2)
    yield "a comment of null bytes", FIRST + b"#" + b"\0" * (size - len(FIRST) - 1), refused(3, 9)
    for key in (b"step", b"seed"):
        start = FIRST + key + b" "
        digits = size - len(start)
        yield f"`{key.decode()}`, digits", start + b"9" * digits, refused(2, 5)
        yield f"`{key.decode()}`, -, digits", start + b"-" + b"9" * (digits - 1), refused(2, 5)
        yield f"`{key.decode()}`, zeros", start + b"0" * digits, refused(2, 4)
        yield f"`{key.decode()}`, digits, a letter", start + b"9" * (digits - 1) + b"x", refused(2, 4)
    yield "`mark`, a number, spaces", filled(FIRST + b"mark 1", b" ", size)[0], refused(2, 3)
    yield "`mark`, digits, a letter", FIRST + b"mark " + b"9" * (size - len(FIRST) - 7) + b" x", refused(2, 4)


def many_words(size):
    """Texts of the first line, and one with many words."""
    for key in (b"room", b"step", b"mark"):
        yield f"`{key.decode()}`, words", filled(FIRST + key, b" 1", size)[0], refused(2, 3)
    for key in (b"body", b"obstacle"):
        yield f"`{key.decode()}`, corners", filled(FIRST + key, b" 1 1", size)[0], refused(2, 8)
        yield f"`{key.decode()}`, half a corner", filled(FIRST + key, b" 1 1", size, b" 1")[0], refused(2, 3)
    for key, count in ((b"mark", 2), (b"goal", 4), (b"body", 32), (b"obstacle", 128)):
        start = FIRST + key
        word = b" " + b"9" * ((size - len(start)) // count - 1)
        yield f"`{key.decode()}`, {count} words of digits", filled(start + word * count, b" ", size)[0], refused(2, 5)


def many_lines(size):
    """Texts of many lines."""
    for what, unit in (("empty lines", b"\n"), ("lines of a space", b" \n"), ("comments", b"#\n"), ("comments of null bytes", b"#\0\n")):
        text, count = filled(b"", unit, size)
        lines = count + (len(text) > count * len(unit))
        yield what, text, refused(lines + 1, 1)
        text, count = filled(FIRST, unit, size, b"\nx")
        yield f"{what}, a key at the end", text, refused(count + 3, 2)
        text, count = filled(FIRST + NEEDED, unit, size, b"\ngamma -1")
        yield f"a scene, {what}, a fault", text, refused(count + 7, 5)
    yield "carriage returns", b"\r\n" * (size // 2), refused(1, 1)
    yield "steps", filled(FIRST, b"step 4\n", size)[0], refused(3, 6)
    yield "keys of null bytes", filled(FIRST, b"\0\n", size)[0], refused(2, 2)


def padded(start, lines, size, last):
    """A text of this size: the start, the lines, padded with spaces, and a last line without a line feed."""
    spaces, more = divmod(size - len(start) - sum(map(len, lines)) - len(last), len(lines) + 1)
    rows = [line[:-1] + b" " * spaces + b"\n" for line in lines]
    return start + b"".join(rows) + b" " * (spaces + more) + last


def many_marks(size):
    """Texts of as many marks as there may be, of one number with a fault, and of one mark too many."""
    marks = [b"mark 1 2\n"] * MOST_MARKS
    for number, kind in ((b"65536", 5), (b"-1", 5), (b"02", 4), (b"2.0", 4), (b"\0", 4), (b"9" * 100, 5)):
        what = f"marks, at last {number.decode() if number[0] else 'a null byte'}"[:30]
        yield what, padded(FIRST, marks[1:], size, b"mark 1 " + number), refused(MOST_MARKS + 1, kind)
    yield "marks, and no `room`", padded(FIRST, marks, size, b""), refused(MOST_MARKS + 3, 9)
    yield "marks, one too many", padded(FIRST + NEEDED, marks, size, b"mark 1 2"), refused(MOST_MARKS + 6, 8)
    yield "marks, one too many, not padded", FIRST + NEEDED + b"".join(marks) + b"mark 0 0", refused(MOST_MARKS + 6, 8)
    yield "marks, at last `marks`", padded(FIRST + NEEDED, marks, size, b"marks 1"), refused(MOST_MARKS + 6, 6)


def many_obstacles(size):
    """Texts of as many obstacles as there may be, of as many corners, with a fault at the last corner; and of one too many."""
    lines = [b"obstacle " + b" ".join(b"%d %d" % corner for corner in polygon(64)) + b"\n"] * MOST_OBSTACLES
    low = min(y for _, y in polygon(64))
    *corners, (x, y) = polygon(64)
    dent = [*corners, (x, low - y)]
    last = b"obstacle " + b" ".join(b"%d %d" % corner for corner in dent)
    yield "obstacles, at last a dent", padded(FIRST, lines[1:], size, last), refused(MOST_OBSTACLES + 1, 7)
    yield "obstacles, one too many", padded(FIRST, lines, size, lines[0][:-1]), refused(MOST_OBSTACLES + 2, 8)


def second_version(size):
    """Texts of version 2 with a fault in what only this version has."""
    marks = [b"mark 1 1048575\n"] * (MOST_MARKS - 1)
    yield "marks, at last 1048576", padded(SECOND, marks, size, b"mark 1 1048576"), refused(MOST_MARKS + 1, 5)
    goals = [b"goal 1 1 2 2\n"] * (MOST_GOALS - 1)
    yield "goals, one too many", padded(SECOND + NEEDED, goals, size, b"goal 1 1 2 2"), refused(MOST_GOALS + 5, 8)
    yield "`informed`, words", filled(SECOND + b"informed", b" 1", size)[0], refused(2, 3)
    start = SECOND + b"clearance "
    yield "`clearance`, digits", start + b"9" * (size - len(start)), refused(2, 5)


def too_long(size):
    """Texts of one byte too many."""
    more = size + 1
    texts = {"one word": b"a" * more, "null bytes": b"\0" * more, "empty lines": b"\n" * more, "one comment": b"#" * more}
    texts["marks"] = padded(FIRST + NEEDED, [b"mark 1 2\n"] * MOST_MARKS, more, b"")
    for what, text in texts.items():
        yield f"{what}, one byte more", text, b"text too long\n"


FAMILIES = (one_line, many_words, many_lines, many_marks, many_obstacles, second_version, too_long)


def refusals(size=MOST_TEXT_BYTES):
    """All texts of this size, or one more, that are refused."""
    for family in FAMILIES:
        yield from family(size)


def accepted(size=MOST_TEXT_BYTES):
    """Texts of this size that are scenes: what they are, the text, and its canonical one."""
    small = SceneText(room=(9, 9), start=(0, 0), goals=[(1, 1, 2, 2)], step=4)
    yield "a scene, empty lines", filled(FIRST + NEEDED, b"\n", size)[0], small.text().encode()
    yield "a scene, comments of null bytes", filled(FIRST + NEEDED, b"#\0\n", size)[0], small.text().encode()
    yield "a scene, spaces between its words", filled(FIRST + NEEDED + b"seed", b" ", size, b"0")[0], small.text().encode()
    small.marks = [(1, 2)] * MOST_MARKS
    yield "a scene of marks", padded(FIRST + NEEDED, [b"mark 1 2\n"] * MOST_MARKS, size, b""), small.text().encode()
    yield "a scene of marks, version 2", padded(SECOND + NEEDED, [b"mark 1 2\n"] * MOST_MARKS, size, b""), small.converted().text().encode()


def polygon(count, scale=1, x=0, y=0, skipped=0):
    """A strictly convex polygon of so many corners, a multiple of four, whose lowest edge begins at x y.

    Its edges go in the directions of the shortest vectors, without so many of a quarter.
    """
    wide = range(1, count + skipped)
    edges = sorted(((a, b) for a in wide for b in range(count) if gcd(a, b) == 1), key=lambda edge: edge[0] ** 2 + edge[1] ** 2)
    quarter = sorted(edges[skipped : skipped + count // 4], key=lambda edge: atan2(edge[1], edge[0]))
    corners = []
    for _ in range(4):
        for a, b in quarter:
            corners.append((x, y))
            x, y = x + scale * a, y + scale * b
        quarter = [(-b, a) for a, b in quarter]
    return corners


def greatest(version):
    """A scene of the most of everything: obstacles in rows, a body that fits between them, and marks in the whole room.

    No edge of the body is parallel to one of an obstacle, so the zones have the most corners, too. In version 2 all but the start is 16
    times as long, and of as many goals as there may be one can be reached.
    """
    rng = random.Random(1)
    room = ROOMS[version]
    scale = (room + 1) // (ROOMS[1] + 1)
    rows, side = 32, (room + 1) // 32
    places = [(side * (n % rows) + 900 * scale, side * (n // rows) + 400 * scale) for n in range(MOST_OBSTACLES)]
    obstacles = [polygon(64, 16 * scale, *place) for place in places]
    rng.shuffle(obstacles)
    scene = SceneText(
        room=(room, room),
        start=(100, 100),
        goals=[(64_000 * scale, 64_000 * scale, 65_400 * scale, 65_400 * scale)],
        step=4_096 * scale,
        body=polygon(16, 2 * scale, skipped=16),
        obstacles=obstacles,
        gamma=46_000 * scale,
        seed=(1 << 64) - 1,
        strips=MOST_STRIPS,
        marks=[(rng.randint(0, room), rng.randint(0, room)) for _ in range(MOST_MARKS)],
    )
    if version == 2:
        scene.start, scene.clearance = (500, 500), MOST_CLEARANCE
        scene.goals = [(n, n, n, n) for n in range(MOST_GOALS - 1)] + scene.goals
        scene = scene.converted()
    return scene


def compare_texts(program):
    """Runs the program on all texts, and gives how many were wrong."""
    wrong = 0
    for what, text, output in refusals():
        wrong += is_wrong(program, f"plan {MOST_WORKERS}", what, text, (3, output))
    for what, text, output in accepted():
        wrong += is_wrong(program, "show", what, text, (0, output))
    return wrong


def is_wrong(program, words, what, text, wanted):
    """Runs the program on a text, and prints a line. Whether it ended in another way, or took too long."""
    done = run(program, words, text)
    for _ in range(TRIES - 1):
        if done.seconds > MOST_SECONDS:
            done = min(done, run(program, words, text), key=lambda run: run.seconds)
    faults = [] if (done.status, done.output) == wanted else [f"wrote {done.output[:40]!r}, not {wanted[1][:40]!r}"]
    faults += ["too long"] if done.seconds > MOST_SECONDS else []
    said = wanted[1].decode().strip() if wanted[0] else "its canonical text"
    print(f"{words:12} {what:40} {len(text):9} {done}  {said}" + "".join(f"; WRONG: {fault}" for fault in faults), flush=True)
    return bool(faults)


def compare_greatest(program, version):
    """Runs the program on the greatest scene of a version, and gives how many runs were wrong."""
    scene, wrong = greatest(version), 0
    name = f"the greatest scene of version {version}"
    canonical = scene.text().encode()
    text = canonical + b"#" * (MOST_TEXT_BYTES - len(canonical))
    for words, wanted in (("show", canonical), ("convert", scene.converted().text().encode())):
        shown = run(program, words, text)
        same = (shown.status, shown.output) == (0, wanted)
        wrong += not same
        print(f"{words:12} {name:40} {len(text):9} {shown}  {'its canonical text' if same else 'another text'}", flush=True)
    for words in COMMANDS:
        done = run(program, words, text)
        report = done.output.decode(errors="replace")
        found = verdict(scene, report, words.endswith("full"), LOOKED_AT)
        wrong += found != "lawful" or done.status != (1 if report.startswith("no path\n") else 0)
        counts = next((line for line in report.splitlines() if line.startswith("nodes ")), "")
        first = report.split("\n", 1)[0]
        print(f"{words:12} {name:40} {len(text):9} {done}  {first}, {counts}: {found}", flush=True)
    return wrong


def main(program, part="both"):
    """Prints the tables, and gives the exit status."""
    print(f"{'words':12} {'text':40} {'bytes':>9} {'status':>6} {'s':>8} {'cpu s':>8} {'MB':>8}  what is written")
    wrong = compare_texts(program) if part != "scene" else 0
    wrong += sum(compare_greatest(program, version) for version in ROOMS) if part != "texts" else 0
    print(f"{wrong} wrong")
    return 1 if wrong else 0


if __name__ == "__main__":
    sys.exit(main(*words_or_usage(__doc__)))
