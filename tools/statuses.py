#!/usr/bin/env python3
"""Runs a built program over inputs that end with each of its statuses, and compares the status and what is written.

Usage: statuses.py PROGRAM WATCH. WATCH is the program of `watch`. The inputs are scenes of a few lines, words that ask for no command, a word that is no text,
a text that is too long, a folder to read from, a full device to write to, and too little memory for the text. `main`
has no contract, and the gate runs each program once, on a scene that ends with 0; here it is seen that the process ends
with what its body answers. Each input is tried again with the launcher `prrt` of this checkout, which is to end with
the same; `launcher.py` tries it on more words.

It prints a line for each input, and ends with 1 if a run was wrong. It needs Linux, for the full device and the limit
of memory.
"""

import os
import resource
import subprocess
import sys
import tempfile
from dataclasses import dataclass

from kimorefo.scene_text import MOST_TEXT_BYTES
from launcher_tree import Tree
from usage import words_or_usage

FOUND = b"prrt 1\nroom 100 100\nstart 0 0\ngoal 30 40 30 40\nstep 100\nmark 30 40\n"
NO_PATH = b"prrt 1\nroom 10 10\nstart 5 5\ngoal 0 0 1 1\nstep 4\n"
BLOCKED = b"prrt 1\nroom 10 10\nobstacle 4 4 6 4 6 6 4 6\nstart 5 5\ngoal 0 0 1 1\nstep 4\n"
LONG = FOUND + b"\n" * (MOST_TEXT_BYTES + 1 - len(FOUND))
PATH = b"path 2 cost 12800\n0 0\n30 40\nnodes 2 placed 1 same 0 blocked 0\n"
CONVERTED = b"prrt 2\nroom 10 10\nbody 0 0\nclearance 0\nstart 5 5\ngoal 0 0 1 1\nstep 4\ngamma 0\nseed 0\nstrips 1\n"
BLOCKED_GOAL = b"prrt 1\nroom 10 10\nobstacle 4 4 6 4 6 6 4 6\nstart 1 1\ngoal 5 5 5 5\nstep 4\n"
TWIN = b"path 2 cost 12800\n0 0\n30 40\nstart nodes 2 placed 1 same 0 blocked 0\ngoal nodes 1 placed 0 same 1 blocked 0\n"
NO_TWIN = b"no path\nstart nodes 1 placed 0 same 0 blocked 0\ngoal nodes 1 placed 0 same 0 blocked 0\n"
BLOCK = b"better 12800 marks 1\npath 2 cost 12800\n0 0\n30 40\n\n"
WATCHED = BLOCK + b"nodes 2 placed 1 same 0 blocked 0\n"
NONE = b"no path\nnodes 1 placed 0 same 0 blocked 0\n"
FOUND_BETTER = b"better 12800 marks 1\n" + PATH
REPORTED = (
    b"report\n" + PATH + b"node 0 at 0 0 parent 0 cost 0\nnode 1 at 30 40 parent 0 cost 12800\n"
    b"mark 0 worker 0 turn 0 nearest 0 placed class 1 first 0 12800\n"
)
# More than the program takes to begin, and less than it and a text of so many bytes take.
FEW_BYTES = 16 << 20
SECONDS = 60
LAUNCHER = "the launcher"


@dataclass
class Case:
    """Words and a text, and what a run on them is to come to; no text is a folder, which cannot be read."""

    name: str
    words: list
    text: bytes | None
    status: int
    written: bytes
    full_device: bool = False
    few_bytes: int = 0


def of_each(*reports):
    """The reports of several scenes, each after the line with its number."""
    return b"".join(b"scene %d\n%s" % numbered for numbered in enumerate(reports))


CASES = [
    Case("path", ["plain"], FOUND, 0, PATH),
    Case("path by workers", ["plan", "2"], FOUND, 0, PATH),
    Case("a smoothed path", ["smooth", "2"], FOUND, 0, PATH),
    Case("a path between two trees", ["twin", "2"], FOUND, 0, TWIN),
    Case("a better path", ["anytime", "2", "1"], FOUND, 0, FOUND_BETTER),
    Case("paths of two scenes", ["batch", "2", "1"], FOUND + b"next\n" + FOUND, 0, of_each(FOUND_BETTER, FOUND_BETTER)),
    Case("a path that is watched", ["watch", "2", "1"], FOUND, 0, WATCHED),
    Case("the same by a twentieth of the marks", ["watch", "2"], FOUND, 0, WATCHED),
    Case("no path", ["plain"], NO_PATH, 1, NONE),
    Case("no path by workers", ["plan", "2"], NO_PATH, 1, NONE),
    Case("no path to be smoothed", ["smooth", "2"], NO_PATH, 1, NONE),
    Case("no better path", ["anytime", "2", "1"], NO_PATH, 1, NONE),
    Case("no path that is watched", ["watch", "2"], NO_PATH, 1, NONE),
    Case("no path between two trees", ["twin", "2"], NO_PATH, 1, NO_TWIN),
    Case("no path in one of two scenes", ["batch", "2", "1"], NO_PATH + b"next\n" + FOUND, 1, of_each(NONE, FOUND_BETTER)),
    Case("a lawful report", ["check"], FOUND + REPORTED, 0, b"lawful\n"),
    Case("a report that is not lawful", ["check"], FOUND + REPORTED.replace(b"12800\nmark", b"12801\nmark"), 1, b"broken line 6 law 2\n"),
    Case("no words", [], FOUND, 2, b"words refused\n"),
    Case("other words", ["plain", "short"], FOUND, 2, b"words refused\n"),
    Case("no worker", ["plan", "0"], FOUND, 2, b"words refused\n"),
    Case("no worker to smooth a path of", ["smooth", "0"], FOUND, 2, b"words refused\n"),
    Case("no worker for two trees", ["twin", "0"], FOUND, 2, b"words refused\n"),
    Case("no mark in a slice", ["anytime", "1", "0"], FOUND, 2, b"words refused\n"),
    Case("no worker to be watched", ["watch", "0"], FOUND, 2, b"words refused\n"),
    Case("no mark in a slice that is watched", ["watch", "1", "0"], FOUND, 2, b"words refused\n"),
    Case("a word too many to watch", ["watch", "1", "1", "1"], FOUND, 2, b"words refused\n"),
    Case("a word of `watch` that is no text", ["watch", b"\xff"], FOUND, 2, b"words refused\n"),
    Case("no worker for several scenes", ["batch", "0", "1"], FOUND, 2, b"words refused\n"),
    Case("a word that is no text", [b"\xff"], FOUND, 2, b"words refused\n"),
    Case("a word too many that is no text", ["plain", b"\xff"], FOUND, 2, b"words refused\n"),
    Case("no scene", ["plain"], b"prrt 0\n" + FOUND[7:], 3, b"line 1 kind 1 Version\n"),
    Case("a scene to convert", ["convert"], NO_PATH, 0, CONVERTED),
    Case("no scene to convert", ["convert"], b"prrt 3\n", 3, b"line 1 kind 1 Version\n"),
    Case("no scene to watch", ["watch", "1"], b"prrt 0\n" + FOUND[7:], 3, b"line 1 kind 1 Version\n"),
    Case("no second scene", ["batch", "1", "1"], FOUND + b"next\n", 3, b"line 8 kind 1 Version\n"),
    Case("no report after a scene", ["check"], FOUND, 3, b"line 7 kind 9 Missing\n"),
    Case("no scene to show", ["show"], b"prrt 0\n" + FOUND[7:], 3, b"line 1 kind 1 Version\n"),
    Case("a text that is too long", ["plain"], LONG, 3, b"text too long\n"),
    Case("a start that is not clear", ["plain"], BLOCKED, 4, b"start blocked\n"),
    Case("the same by workers", ["plan", "2"], BLOCKED, 4, b"start blocked\n"),
    Case("the same, watched", ["watch", "2"], BLOCKED, 4, b"start blocked\n"),
    Case("the same of a second scene", ["batch", "1", "1"], FOUND + b"next\n" + BLOCKED, 4, b"start blocked\n"),
    Case("the same before a report is looked at", ["check"], BLOCKED + b"report\nno report\n", 4, b"start blocked\n"),
    Case("the same before a path is smoothed", ["smooth", "2"], BLOCKED, 4, b"start blocked\n"),
    Case("the same before a goal is tested", ["twin", "2"], BLOCKED, 4, b"start blocked\n"),
    Case("a goal that is not clear", ["twin", "2"], BLOCKED_GOAL, 8, b"goal blocked\n"),
    Case("the same where it is not tested", ["plain"], BLOCKED_GOAL, 1, NONE),
    Case("a folder to read from", ["plain"], None, 5, b"read fault\n"),
    Case("a folder to watch from", ["watch", "1"], None, 5, b"read fault\n"),
    Case("a full device for a block", ["watch", "1", "1"], FOUND, 6, b"", full_device=True),
    Case("a full device", ["plain"], FOUND, 6, b"", full_device=True),
    Case("a full device for a refusal", [], FOUND, 6, b"", full_device=True),
    Case("too little memory", ["plain"], LONG[:-1], 7, b"no memory\n", few_bytes=FEW_BYTES),
    Case("too little memory to watch", ["watch", "1"], LONG[:-1], 7, b"no memory\n", few_bytes=FEW_BYTES),
]


def command_on(name, command, case):
    """The words that run the case: the launcher takes all, and each of the programs its own."""
    if name == LAUNCHER:
        return [*command, *case.words]
    program, watch = command
    return [watch, *case.words[1:]] if case.words[:1] == ["watch"] else [program, *case.words]


def ending(command, case):
    """The status of a run on the case, and what it has written."""

    def limit():
        if case.few_bytes:
            resource.setrlimit(resource.RLIMIT_AS, (case.few_bytes, case.few_bytes))

    folder = os.open("/", os.O_RDONLY) if case.text is None else None
    given = {"input": case.text} if folder is None else {"stdin": folder}
    device = os.open("/dev/full", os.O_WRONLY) if case.full_device else None
    taken = subprocess.PIPE if device is None else device
    given |= {"stdout": taken, "stderr": subprocess.DEVNULL, "preexec_fn": limit, "timeout": SECONDS}
    done = subprocess.run(command, check=False, **given)
    for opened in (folder, device):
        if opened is not None:
            os.close(opened)
    return done.returncode, done.stdout or b""


def faults(commands, case):
    """What is wrong with the runs of the case by each of the commands. A shell may need more memory than the program."""
    for name, command in commands.items():
        if case.few_bytes and name == LAUNCHER:
            continue
        status, written = ending(command_on(name, command, case), case)
        if (status, written) != (case.status, case.written):
            yield f"{name} ended with {status}, wrote {written[:80]!r} in place of {case.written!r}"


def main(program, watch):
    wrong = 0
    with tempfile.TemporaryDirectory() as folder:
        tree = Tree(folder, (program, watch))
        tree.place_program()
        commands = {"the program": (program, watch), LAUNCHER: tree.command()}
        for case in CASES:
            found = list(faults(commands, case))
            wrong += bool(found)
            print(f"{case.status:3}  {case.name}" + "".join(f"; wrong: {fault}" for fault in found))
    print(f"{wrong} of {len(CASES)} wrong")
    return 1 if wrong else 0


if __name__ == "__main__":
    sys.exit(main(*words_or_usage(__doc__)))
