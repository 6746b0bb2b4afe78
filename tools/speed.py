#!/usr/bin/env python3
"""Measures a built program on generated scenes, and prints a table of times and of ratios in this one run.

Usage: speed.py PROGRAM [ROUNDS [OTHER]]. The commands are run in turns, ROUNDS times (5 if left out), and the least
time of each counts: wall time, and processor time of all threads. `plain` looks at all nodes for each mark, so on the
greatest scenes, where that takes a minute or more, it is run once. With OTHER, a second program that takes the same
words, each command is run with both in turns, and the ratio of the second to the first is printed. Measure on a machine
that does nothing else.

A generated scene has 8 strips, with which several workers may find no path. The last scene has the room of number 9 and
1 strip, so its marks lie elsewhere. The column `paths` says in how many runs of a command there was a path.
"""

import resource
import subprocess
import time
from dataclasses import replace

from kimorefo.scene_text import read
from usage import words_or_usage

COMMANDS = ["plain", "plan 1", "plan 2", "plan 4", "plan 64"]
MOST_MARKS = 262_143
# A number of a generated scene, and how many marks and strips it is to have; None leaves its own.
SCENES = [(3, None, None), (9, None, None), (9, MOST_MARKS, None), (9, MOST_MARKS, 1)]


def generated(program, number, marks, strips):
    """A generated scene, with so many drawn marks and strips."""
    scene = read(subprocess.run([program, "gen", str(number)], capture_output=True, check=True).stdout)
    return replace(scene, drawn=marks or scene.drawn, strips=strips or scene.strips)


def measure(program, words, text):
    """The wall time and the processor time of one run, in seconds, and whether it found a path."""
    begun, before = time.perf_counter(), processor_time()
    done = subprocess.run([program, *words.split()], input=text, stdout=subprocess.DEVNULL, check=False)
    return time.perf_counter() - begun, processor_time() - before, done.returncode == 0


def processor_time():
    """The seconds that all programs took that were run and have ended."""
    used = resource.getrusage(resource.RUSAGE_CHILDREN)
    return used.ru_utime + used.ru_stime


def least(runs):
    """The least wall time and the least processor time of several runs, and how many of them found a path."""
    walls, processors, found = zip(*runs)
    return min(walls), min(processors), f"{sum(found)}/{len(found)}"


def times_of(programs, scene, rounds):
    """The times of each command with each program, run in turns."""
    text = scene.text().encode()
    runs = {(words, program): [] for words in COMMANDS for program in programs}
    for turn in range(rounds):
        for (words, program), taken in runs.items():
            if words != "plain" or turn == 0 or scene.drawn < MOST_MARKS:
                taken.append(measure(program, words, text))
    return {run: least(taken) for run, taken in runs.items()}


def main(program, rounds="5", other=None):
    """Prints a line for each scene and command."""
    programs = [program] if other is None else [program, other]
    heads = f"{'scene':>5} {'marks':>7} {'strips':>6} {'command':8} {'paths':>5}"
    last = "  other: wall    cpu" if other else ""
    print(f"{heads} {'wall s':>8} {'cpu s':>8} {'to plain':>9} {'to plan 1':>10}{last}")
    for number, marks, strips in SCENES:
        scene = generated(program, number, marks, strips)
        times = times_of(programs, scene, int(rounds))
        plain, one = times["plain", program][0], times["plan 1", program][0]
        for words in COMMANDS:
            wall, used, found = times[words, program]
            line = f"{number:5} {scene.drawn:7} {scene.strips:6} {words:8} {found:>5}"
            line += f" {wall:8.3f} {used:8.3f} {wall / plain:9.3f} {wall / one:10.2f}"
            if other:
                wall_other, used_other, _ = times[words, other]
                line += f"  {wall_other / wall:11.2f} {used_other / used:6.2f}"
            print(line, flush=True)


if __name__ == "__main__":
    main(*words_or_usage(__doc__))
