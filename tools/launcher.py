#!/usr/bin/env python3
"""Tries the launcher `prrt` of this checkout: it refuses what a built program refuses, and builds exactly if it has to.

Usage: launcher.py PROGRAM WATCH [SHELL..]. WATCH is the program of `watch`. SHELL runs the launcher, as `dash` or `bash --posix`; left out, it is the one that
the launcher names. Nothing is proved: the launcher is copied into small checkouts, in which a stand-in for `rt` makes
a program by copying PROGRAM or WATCH.

- Over words near the edges of the table of commands, and over drawn ones, launcher and program end with the same status
  and write the same. What the program refuses is tried where nothing is built yet, and must not begin a build.
- The options, what is said of words that are refused, and broken streams.
- When it builds, and when it does not: first calls, copies, changed sources, changes during a build, interrupts, failed
  builds.

It prints a line for each kind of words and each case, and ends with 1 if one was wrong. It needs Linux, and looks at
commits only if there is git.
"""

import os
import random
import subprocess
import sys
import tempfile
from concurrent.futures import ProcessPoolExecutor, ThreadPoolExecutor
from itertools import repeat

import launcher_builds
import launcher_options
from launcher_options import REFUSED
from launcher_tree import SECONDS, Tree, Wrong
from launcher_words import byte_words, drawn_words, edge_words
from statuses import NO_PATH
from usage import words_or_usage

DRAWN = 2_000
SEED = 1
MOST_SHOWN = 20
CASES = launcher_options.CASES | launcher_builds.CASES


def shown(words):
    return " ".join(repr(word[:MOST_SHOWN])[1:] for word in words) or "no words"


def command_of(programs, words):
    """The program that the launcher calls for the words, with those that it gets."""
    program, watch = programs
    return [watch, *words[1:]] if words[:1] == (b"watch",) else [program, *words]


def compared(trees, programs, words):
    """Whether the program takes the words, and what the launcher did otherwise, if anything."""
    done = subprocess.run(command_of(programs, words), input=NO_PATH, capture_output=True, timeout=SECONDS, check=False)
    is_taken = (done.returncode, done.stdout) != REFUSED
    ending = trees[is_taken].call(*words, text=NO_PATH)
    is_told = not ending.said if is_taken else ending.said.startswith(("prrt: ", "Usage: "))
    if is_told and (ending.status, ending.written) == (done.returncode, done.stdout):
        return is_taken, ""
    told = f"{ending.status}, wrote {ending.written[:MOST_SHOWN]!r}, said {ending.said[:MOST_SHOWN]!r}"
    return is_taken, f"{shown(words)}: {told} in place of {done.returncode}, {done.stdout[:MOST_SHOWN]!r}"


def check_words(trees, programs):
    """Compares launcher and programs on words of each kind, and gives how many were wrong."""
    rng = random.Random(SEED)
    drawn = (drawn_words(rng) for _ in range(DRAWN))
    all_faults = []
    for kind, words in {"at the edges": edge_words(), "with each byte": byte_words(), "drawn": drawn}.items():
        with ThreadPoolExecutor(os.cpu_count()) as pool:
            found = list(pool.map(lambda some: compared(trees, programs, some), dict.fromkeys(words)))
        taken = sum(is_taken for is_taken, _ in found)
        faults = [fault for _, fault in found if fault]
        print(f"words {kind}: {len(found)}, {taken} of them taken, {len(faults)} wrong")
        all_faults += faults
    print(*all_faults[:MOST_SHOWN], sep="\n", end="\n" if all_faults else "")
    return len(all_faults)


def wrong_words(programs, shell):
    """How many words were wrong, one more if a build began."""
    with tempfile.TemporaryDirectory() as bare, tempfile.TemporaryDirectory() as built:
        trees = {False: Tree(bare, programs, shell), True: Tree(built, programs, shell)}
        trees[True].place_program()
        wrong = check_words(trees, programs)
        try:
            trees[False].stays_unbuilt()
        except Wrong:
            print(f"words that the program refuses began a build: {trees[False].calls_since(0)}")
            wrong += 1
        return wrong


def fault_of(programs, shell, name):
    """What is wrong with a case, tried in a checkout of its own."""
    with tempfile.TemporaryDirectory() as folder:
        try:
            CASES[name](Tree(folder, programs, shell))
        except (Wrong, subprocess.TimeoutExpired) as wrong:
            return str(wrong)
    return ""


def wrong_cases(programs, shell):
    """How many cases were wrong. Each has its own process: no file that it writes is open in the children of others."""
    with ProcessPoolExecutor() as pool:
        faults = list(pool.map(fault_of, repeat(programs), repeat(shell), CASES))
    for name, fault in zip(CASES, faults):
        print(f"{name}: wrong, not so: {fault}" if fault else f"{name}: right")
    return sum(map(bool, faults))


def main(program, watch, *shell):
    programs = program, watch
    words, cases = wrong_words(programs, shell), wrong_cases(programs, shell)
    print(f"{words} words and {cases} of {len(CASES)} cases wrong")
    return 1 if words or cases else 0


if __name__ == "__main__":
    sys.exit(main(*words_or_usage(__doc__)))
