#!/usr/bin/env python3
"""Counts instructions and mispredicted branches of a built program, which do not vary as times do.

Usage: counts.py PROGRAM [OTHER]. valgrind simulates the processor, so it takes some 50 times as long as the commands
do: ten minutes in all. With OTHER, a second program that takes the same words, its counts to those of the first are
printed too. Counts of two builds are compared on one machine, since the C library counts with them.
"""

import re
import subprocess
import sys
from dataclasses import replace

from kimorefo.scene_text import read
from mazes import SCENES, scene_of
from usage import words_or_usage

MOST_MARKS = 262_143
SLICES = 200
INSTRUCTIONS = re.compile(rb"I\s+refs:\s+([\d,]+)")
WRONG_GUESSES = re.compile(rb"Mispredicts:\s+([\d,]+)")


def counts_of(program, words, text, guesses=True):
    """The instructions of one run, and its mispredicted branches if they are asked for."""
    valgrind = ["valgrind", "--tool=cachegrind", "--cache-sim=no", "--cachegrind-out-file=/dev/null"]
    valgrind += ["--branch-sim=yes"] if guesses else []
    done = subprocess.run([*valgrind, program, *words.split()], input=text, capture_output=True, check=False)
    return number(INSTRUCTIONS, done.stderr), number(WRONG_GUESSES, done.stderr) if guesses else 0


def number(form, text):
    """The number that stands in a text after some words."""
    found = form.search(text)
    if found is None:
        sys.exit(f"valgrind counted nothing: {text.decode(errors='replace').strip()}")
    return int(found[1].replace(b",", b""))


def written(program, words, text):
    """What a program writes."""
    return subprocess.run([program, *words.split()], input=text, capture_output=True, check=False).stdout


def commands(program):
    """Each command that is counted: its name, its words and its input."""
    small = read(written(program, "gen 9", b""))
    text = small.text().encode()
    yield "plan 1, generated 9", "plan 1", text
    yield f"the same, {MOST_MARKS:,} marks", "plan 1", replace(small, drawn=MOST_MARKS).text().encode()
    yield "check of its report", "check", text + b"report\n" + written(program, "plan 1 full", text)
    yield f"anytime by {SLICES} slices", f"anytime 1 {small.drawn // SLICES}", text
    for name in SCENES:
        yield f"plan 1, {name}", "plan 1", scene_of(name).text().encode()


def main(program, other=None):
    """Prints a line for each command."""
    print(f"{'':32} {'instructions':>14} {'mispredicted':>13}{'  other: to the first' if other else ''}")
    for name, words, text in commands(program):
        counts = counts_of(program, words, text)
        line = f"{name:32} {counts[0]:14,} {counts[1]:13,}"
        if other:
            others = counts_of(other, words, text)
            line += f"{others[0] / counts[0]:14.3f} {others[1] / counts[1]:6.3f}"
        print(line, flush=True)


if __name__ == "__main__":
    main(*words_or_usage(__doc__))
