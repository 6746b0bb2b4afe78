#!/usr/bin/env python3
"""Draws scenes and reports with draw.py, and looks whether each picture shows what they say.

Usage: drawings.py PROGRAM. It draws the scenes of examples/ and others (thin, tall, tiny and great rooms, small goals,
obstacles across the walls) alone, with the reports beside them, and with those that a built program writes. Each
picture is parsed, and mapped back by its frame and its ticks:
- each number is finite, each thing lies in its panel, and each text fits in;
- obstacles, goals and bodies are where the scene has them, and clearances are the hulls; each as far as it lies in the
  room or a little beside it, by another way of cutting off;
- the path has the points of the report, and the tree each edge from a node to its parent once;
- a small goal has a ring, and the start a dot;
- the chart has the steps of the lines `better`, the last one up to the last mark;
- nothing of the text of a scene is in it: the canonical text gives the same picture.

Reports that are cut off at any byte or have a line spoiled, those of other scenes, and texts that are no scenes are to
be refused with a message and status 1. docs/tree.svg is to be the picture that docs/drawing.md says it is.

It ends with a line of counts, and with 1 if anything was wrong.
"""

import re
import subprocess
import sys
import tempfile
from pathlib import Path

from draw import reports_of, scenes_of
from kimorefo.batches import parts_of
from kimorefo.reports import NoReport
from kimorefo.scene_text import read
from picture_checks import wrong_picture
from usage import words_or_usage

TOP = Path(__file__).resolve().parent.parent
EXAMPLES = TOP / "examples"
WORDS = ("plain full", "plan 2 full", "smooth 1", "anytime 1 1", "twin 1", "batch 1 1")

# Scenes by name, with `|` in place of line feeds.
MADE = {
    "thin": "prrt 1|room 65535 10|body 0 0 100 0 100 2 0 2|obstacle 20000 0 21000 0 21000 6 20000 6"
    "|obstacle 60000 -5 61000 -5 60500 20|start 100 1|goal 19000 2 19000 2|step 4096|gamma 40000|marks 300",
    "tall": "prrt 2|room 10 65535|obstacle 0 20000 6 20000 6 21000 0 21000|clearance 1|start 1 100"
    "|goal 9 64000 9 64500|goal 0 0 65000 50|goal 20 0 30 9|step 4096|gamma 40000|marks 300",
    "tiny": "prrt 1|room 10 10|obstacle 4 0 6 0 6 7 4 7|start 1 1|goal 9 1 9 1|step 4|gamma 7|marks 200",
    "least": "prrt 1|room 1 1|start 0 0|goal 1 1 1 1|step 4|mark 1 1",
    "far obstacles": "prrt 2|room 10 10|clearance 1|obstacle -2097152 -2097152 2097151 -2097152 -2097152 2097151"
    "|obstacle -2097151 -2097152 2097151 -2097152 2097151 2097150|obstacle 12 0 14 0 14 9 12 9"
    "|obstacle -9 11 19 11 19 15 -9 15|start 1 9|goal 0 0 1048575 1048575|step 4|mark 2 9",
    "start outside": "prrt 1|room 10 10|body -4096 -4096 4096 -4096 0 4096|start 50 5|goal 40 40 50 50|step 4",
    "start blocked": "prrt 1|room 10 10|body -4096 -4096 4096 -4096 0 4096|start 5 5|goal 4 4 5 5|step 4",
    "goal blocked": "prrt 1|room 99 99|body 0 0 4 0 4 4|obstacle 50 50 60 50 60 60 50 60|start 1 1|goal 55 55 55 56"
    "|step 9|mark 20 20",
    "body off its origin": "prrt 1|room 30 20|body 5 5|start 1 1|goal 20 10 22 12|step 9|gamma 20|marks 60",
    "many goals": "prrt 2|room 1048575 900000|start 5 5|step 65536|informed 1|marks 300"
    + "".join(f"|goal {x} {x} {x + 900 * i} {x + 40000}" for i, x in enumerate(range(50000, 850000, 50000))),
    "dense": "prrt 1|room 65535 12|body 0 0 40 0 0 3|start 0 2|goal 1200 2 1200 2|step 4"
    + "".join(f"|mark {x} 2" for x in range(4, 1201, 4)),
    "three nodes": "prrt 1|room 50 50|start 5 5|goal 1 1 1 1|step 9|mark 9 9|mark 15 15",
    "comments": "# <script>alert(1)</script> & 'quotes' \"|prrt  1|room 10 10|#</svg>|start 1 1|goal 5 5 6 6|step 4",
}

REPORT = b"path 1 cost 0\n20 20\nnodes 1 placed 0 same 0 blocked 10\n"
NO_MARKS = b"path 1 cost 0\n5 5\nnodes 1 placed 0 same 0 blocked 0\n"
# Examples of which the full report is cut off and spoiled.
FULL = ("pillar", "skipped")
SECONDS = 600
# Texts in place of a scene, and what draw.py says of each.
NO_SCENES = {
    "no text": (b"", "line 1 kind 1 Version"),
    "other bytes": (b"\x00\xff\n\n", "line 1 kind 1 Version"),
    "a report": (REPORT, "line 1 kind 1 Version"),
    "no start": (b"prrt 1\nroom 9 9\ngoal 1 1 1 1\nstep 4\n", "line 5 kind 9 Missing"),
    "no second scene": (b"prrt 1\nroom 9 9\nstart 1 1\ngoal 1 1 1 1\nstep 4\nnext\n", "line 7 kind 1 Version"),
    "a long text": (b"\n" * (2**24 + 1), "text too long"),
}
# Texts in place of a report of rewired.scene, and what draw.py says of each.
NO_REPORTS = {
    "no text": (b"", "cut off in line 1"),
    "a scene": (b"prrt 1\n", "line 1 is not `no path`"),
    "a verdict": (b"lawful\n", "line 1 is not `no path`"),
    "words refused": (b"words refused\n", "a refusal in place of a report: words refused"),
    "a refused scene": (b"line 5 kind 6 Repeat\n", "a refusal in place of a report: line 5 kind 6 Repeat"),
    "a blocked start": (b"start blocked\n", "is clear there"),
    "a blocked goal": (b"goal blocked\n", "is clear there"),
    "two reports": (b"scene 0\n" + REPORT + b"scene 1\n" + REPORT, "of 2 scenes in place of 1"),
    "another start": (REPORT.replace(b"20 20", b"20 21"), "it does not begin at the start"),
    "a point outside": (REPORT.replace(b"1 cost 0\n20 20", b"2 cost 0\n20 20\n20 101"), "it has points outside"),
    "fewer marks": (REPORT.replace(b"10", b"9"), "this one has 10 marks"),
    "an informed one": (REPORT.replace(b"blocked 10", b"blocked 9 skipped 1"), "one of them is informed"),
    "no parent": (REPORT + b"node 0 at 20 20 parent 1 cost 0\n", "the parent of node 0 has no line"),
    "no node 0": (REPORT + b"node 1 at 20 20 parent 1 cost 0\n", "node 1 is not in its order"),
    "a great number": (REPORT.replace(b"path 1", b"path " + b"9" * 5000), "line 1 is not"),
    "a long path": (REPORT.replace(b"path 1", b"path %d" % (2**64 - 1)), f"line 3 is not point 2 of {2**64 - 1}"),
    "no whole number": (REPORT.replace(b"20 20", b"20.0 20"), "line 2 is not point 1 of 1"),
    "marks that stay": (b"better 9 marks 5\nbetter 8 marks 5\n" + REPORT, "line 2 has no more marks"),
    "another last cost": (b"better 9 marks 5\n" + REPORT, "its last better path"),
}


def made(name):
    """The text of a scene of a name."""
    return MADE[name].replace("|", "\n").encode() + b"\n"


def example(name):
    """The bytes of a file of examples/."""
    return (EXAMPLES / name).read_bytes()


def parts_of_report(report, count):
    """The parts of the report of several scenes, or the same for each."""
    parts = re.split(r"^scene \d+\n", report, flags=re.M)
    return parts[1:] if len(parts) > 1 else [report] * count


class Look:
    """The program, a folder for texts, and what was seen."""

    def __init__(self, program, folder):
        self.program, self.folder = program, Path(folder)
        self.pictures, self.refusals, self.wrong = 0, 0, []

    def note(self, name, wrong):
        """Keeps what is wrong."""
        self.wrong += [f"{name}: {what}" for what in dict.fromkeys(wrong)]

    def planned(self, words, text):
        """What the program writes."""
        command = [self.program, *words.split()]
        return subprocess.run(command, input=text, capture_output=True, check=False, timeout=SECONDS).stdout

    def named(self, *names, text=b""):
        """How draw.py ends with names of files, and a text on standard input."""
        command = [sys.executable, str(TOP / "tools" / "draw.py"), *map(str, names)]
        return subprocess.run(command, input=text, capture_output=True, check=False, timeout=SECONDS)

    def drawn(self, text, report=None):
        """How draw.py ends on a scene, on standard input if it has no report, or else that."""
        if report is None:
            return self.named("-", text=text)
        (self.folder / "scene").write_bytes(text)
        return self.named(self.folder / "scene", "-", text=report)

    def look(self, name, text, report=None):
        """Draws a scene and perhaps a report, and looks at the picture."""
        self.pictures += 1
        done = self.drawn(text, report)
        if done.returncode != 0 or done.stderr:
            self.note(name, [f"status {done.returncode}, {done.stderr.decode()}"])
            return
        scenes = [read(part) for _, part in parts_of(text)]
        reports = parts_of_report((report or b"").decode(), len(scenes))
        self.note(name, wrong_picture(done.stdout.decode(), scenes, reports))

    def look_at_all(self, name, text, words):
        """Looks at the pictures of a scene alone, also of its canonical text, and with what the program writes."""
        canonical = b"next\n".join(read(part).text().encode() for _, part in parts_of(text))
        self.look(name, text)
        if self.drawn(text).stdout != self.drawn(canonical).stdout:
            self.note(name, ["its canonical text has another picture"])
        for word in words:
            self.look(f"{name}, {word}", text, self.planned(word, text))

    def refuse(self, name, message, done):
        """Looks whether draw.py has ended with a message of one line in which some words stand, and nothing else."""
        self.refusals += 1
        said = done.stderr.decode()
        is_message = said.startswith("draw.py: ") and said.count("\n") == 1 and message in said
        if done.returncode != 1 or done.stdout or not is_message:
            self.note(name, [f"status {done.returncode}, {said}"])

    def refuse_parts(self, name, text, report):
        """Looks whether a report is refused that ends at any byte, but for the short report in a full one."""
        scenes, head = scenes_of(text), report.find(b"\nnode 0 ") + 1
        cuts = [n for n in range(len(report)) if n != head or n == 0]
        self.refusals += len(cuts)
        self.note(name, [f"cut off at {n}" for n in cuts if not refusal(report[:n], scenes)])

    def refuse_lines(self, name, text, report):
        """Looks whether a report with a spoiled line is refused by that line."""
        scenes, lines = scenes_of(text), report.splitlines(keepends=True)
        for i, line in enumerate(lines):
            others = (b"junk\n", line.replace(b" ", b"  ", 1), b"0" + line, line[:-1] + b" 0\n")
            said = [refusal(b"".join([*lines[:i], other, *lines[i + 1 :]]), scenes) for other in others if other != line]
            self.note(name, [f"line {i + 1} is spoiled: {own}" for own in said if f"line {i + 1} " not in own])
            self.refusals += len(others)


def refusal(report, scenes):
    """Why a report is refused, or an empty text."""
    try:
        reports_of(report, scenes)
    except NoReport as reason:
        return str(reason)
    return ""


def look_at_examples(look):
    """Looks at the pictures of examples/, and at docs/tree.svg."""
    for path in sorted(EXAMPLES.glob("*.scene")):
        look.look_at_all(path.stem, path.read_bytes(), WORDS)
        for report in sorted(EXAMPLES.glob(f"{path.stem}.*")):
            if report.suffix in (".report", ".smooth", ".anytime", ".watch", ".twin"):
                look.look(report.name, path.read_bytes(), report.read_bytes())
    look.look_at_all("starts.batch", example("starts.batch"), ["batch 1 1"])
    look.look("starts.report", example("starts.batch"), example("starts.report"))
    pillars = example("pillars.scene")
    if look.drawn(pillars, look.planned("plain full", pillars)).stdout != (TOP / "docs" / "tree.svg").read_bytes():
        look.note("docs/tree.svg", ["it is not what draw.py draws"])


def look_at_others(look):
    """Looks at the pictures of other scenes."""
    for name in MADE:
        look.look_at_all(name, made(name), WORDS)
    generated = look.planned("gen 3", b"")
    look.look_at_all("generated", generated, ["plan 2 full", "smooth 2", "anytime 2 500"])
    look.look("generated, trial", generated, look.planned("trial 3", b""))
    look.look_at_all("several", b"next\n".join(map(made, ("tall", "start blocked", "least"))), ["batch 1 1"])
    look.look_at_all("64 scenes", b"next\n".join([made("tiny")] * 64), ["batch 1 9"])
    text, full = made("three nodes"), look.planned("plain full", made("three nodes"))
    look.look("a tree with a round", text, full.replace(b"9 9 parent 0", b"9 9 parent 2"))


def look_at_refusals(look):
    """Looks at texts that are no scenes or no reports, and at reports that end too early or have a spoiled line."""
    for name, (text, message) in NO_SCENES.items():
        look.refuse(f"{name} for a scene", message, look.drawn(text))
    for name, (report, message) in NO_REPORTS.items():
        look.refuse(f"{name} for a report", message, look.drawn(example("rewired.scene"), report))
    look.refuse("another scene", "the start of this one is blocked", look.drawn(made("start blocked"), NO_MARKS))
    look.refuse("no file", "none: ", look.named(TOP / "none"))
    look.refuse("no file of a report", "none: ", look.named(EXAMPLES / "first.scene", TOP / "none"))
    look.refuse("a folder", f"{TOP}: ", look.named(TOP))
    pairs = {name: (example(f"{name}.scene"), example(f"{name}.report")) for name in ("rewired", "no-path")}
    pairs |= {name: (example(f"{name}.scene"), look.planned("plain full", example(f"{name}.scene"))) for name in FULL}
    pairs["anytime"] = example("rewired.scene"), example("rewired.anytime")
    pairs["watch"] = example("rewired.scene"), example("rewired.watch")
    pairs["twin"] = example("berth.scene"), example("berth.twin")
    pairs["batch"] = example("starts.batch"), example("starts.report")
    for name, (text, report) in pairs.items():
        look.refuse_parts(name, text, report)
        look.refuse_lines(name, text, report)


def main(program):
    """Looks at everything, and gives the exit status."""
    with tempfile.TemporaryDirectory() as folder:
        look = Look(program, folder)
        look_at_examples(look)
        look_at_others(look)
        look_at_refusals(look)
    for wrong in look.wrong:
        print(wrong)
    print(f"{look.pictures} pictures, {look.refusals} refusals, {len(look.wrong)} wrong")
    return 1 if look.wrong else 0


if __name__ == "__main__":
    sys.exit(main(*words_or_usage(__doc__)))
