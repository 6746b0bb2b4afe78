#!/usr/bin/env python3
"""Runs a built program against the programs of this folder on random scenes, and prints counts.

Usage: compare.py PROGRAM [FIRST [COUNT]]. For each number from FIRST on (0 and 200 if left out), of each version:
- `plain`, `plan 1`, `plain full` and `plan 1 full` write what textbook.py writes, and end with its status;
- `smooth 1` writes what smoothing.py writes; `smooth 4` shows a clear path into a goal, which no choice of its points makes better;
- `anytime 1 S`, for a drawn S, writes what anytime.py writes; `anytime 4 S` gives paths that fall to that of its report;
- `batch 1 S` writes what batch.py writes for this scene and some before it, and for the same with a text with faults among them;
- `twin 1` writes what twins.py writes; `twin 4` shows a lawful path and counts;
- `plan W full`, for W of WORKERS, writes a report that judge.py finds lawful, with no worker from W on;
- `show` writes the canonical text, `convert` that of the scene in version 2, and both for a text with faults the line and the kind of
  the first;
- the judge refuses a report in which one number is changed, or the change is counted as one that is lawful too.

It ends with 1 if there was any difference, and names the numbers.
"""

import random
import re
import subprocess
import sys
from collections import Counter
from dataclasses import replace

from anytime import anytime_answer, fit
from batch import batch_answer
from judge import verdict
from kimorefo.geometry import Space
from kimorefo.scene_text import Fault, read
from make_scenes import scene_of, with_faults
from rules import mark_points
from smoothing import smoothed_answer, smoothed_report
from textbook import answer
from twins import twin_answer, twin_verdict
from usage import words_or_usage

# How many workers plan each scene.
WORKERS = (1, 2, 3, 4, 16, 64)

# No edge is longer than this.
LONGEST = 2**21


def workers_of(report):
    """The workers that the lines of marks name."""
    return {int(worker) for worker in re.findall(r"^mark \d+ worker (\d+) ", report, re.MULTILINE)}


def is_refused(text):
    """Whether a text is no scene. One with a changed number may be one, with very many marks."""
    try:
        read(text)
    except Fault:
        return True
    return False


class Comparison:
    """The program, and what was counted."""

    def __init__(self, program):
        self.program = program
        self.counts = Counter()
        self.differences = []

    def run(self, words, text):
        """What the program writes for these words, and its status."""
        done = subprocess.run([self.program, *words.split()], input=text, capture_output=True, check=False, timeout=600)
        return done.stdout.decode(), done.returncode

    def note(self, number, what, same):
        """Counts a comparison, and keeps it if the two differ."""
        self.counts[what] += 1
        if not same:
            self.differences.append((number, what))

    def compare_plans(self, number, version):
        """Compares the planners on the scene of a number."""
        scene = scene_of(number, version)
        text = scene.text().encode()
        for full in (False, True):
            wanted = answer(text, full)
            for planner in ("plain", "plan 1"):
                words = f"{planner} full" if full else planner
                self.note(number, f"{words}, by the textbook", self.run(words, text) == wanted)
        self.compare_smoothed(number, scene, text)
        self.compare_slices(number, scene, text)
        self.compare_twins(number, scene, text)
        self.compare_batches(number, version)
        for workers in WORKERS:
            words = f"plan {workers} full"
            output, status = self.run(words, text)
            if status > 1:
                self.note(number, f"{words}, refused", (output, status) == answer(text, True))
                continue
            self.note(number, words, verdict(scene, output) == "lawful" and all(w < workers for w in workers_of(output)))
            self.compare_mutant(number, scene, output)

    def compare_smoothed(self, number, scene, text):
        """Compares the smoothed path, and what shows of that of several workers."""
        wanted = smoothed_answer(text)
        self.note(number, "smooth 1, by all choices", self.run("smooth 1", text) == wanted)
        output, status = self.run("smooth 4", text)
        if wanted[1] > 1:
            self.note(number, "smooth 4, refused", (output, status) == wanted)
            return
        lawful = verdict(replace(scene, step=LONGEST), output, False) == "lawful"
        right = lawful and smoothed_report(output, Space(scene)) == output and status == output.startswith("no path\n")
        self.note(number, "smooth 4, as far as it shows", right)

    def compare_slices(self, number, scene, text):
        """Compares the better paths that come slice by slice."""
        slice_size = random.Random(f"slice {number}").choice([1, 1, 2, 3, 5, 262143])
        wanted = anytime_answer(text, slice_size)
        self.note(number, "anytime 1, by the textbook", self.run(f"anytime 1 {slice_size}", text) == wanted)
        if wanted[1] < 2:
            output, status = self.run(f"anytime 4 {slice_size}", text)
            right = status < 2 and fit(output, slice_size, len(mark_points(scene, Space(scene))))
            self.note(number, "anytime 4, as far as it shows", right)

    def compare_twins(self, number, scene, text):
        """Compares the two trees, and what shows of those of several workers."""
        wanted = twin_answer(text)
        self.note(number, f"twin 1, by all pairs, status {wanted[1]}", self.run("twin 1", text) == wanted)
        output, status = self.run("twin 4", text)
        if wanted[1] < 2:
            right = status == (1 if output.startswith("no path\n") else 0) and twin_verdict(scene, output) == "lawful"
            self.note(number, "twin 4, as far as it shows", right)
        else:
            self.note(number, "twin 4, refused", (output, status) == wanted)

    def compare_batches(self, number, version):
        """Compares what is written of several scenes, the last of which is that of the number."""
        rng = random.Random(f"batch {number}")
        slice_size = rng.choice([1, 2, 5, 262143])
        texts = [scene_of(n, version).text().encode() for n in range(max(0, number - rng.randrange(4)), number + 1)]
        cases = [("batch 1, by the textbook", texts)]
        spoiled = with_faults(number, version)
        if is_refused(spoiled):
            cases.append(("batch 1, with faults", rng.sample([*texts, spoiled], len(texts) + 1)))
        for what, parts in cases:
            text = b"next\n".join(part if part.endswith(b"\n") or not part else part + b"\n" for part in parts)
            self.note(number, what, self.run(f"batch 1 {slice_size}", text) == batch_answer(text, slice_size))

    def compare_mutant(self, number, scene, report):
        """Changes one number of a report: the judge is to refuse it, unless it is lawful all the same."""
        rng = random.Random(f"mutant {number}")
        places = list(re.finditer(r"\d+", report))
        place = rng.choice(places)
        changed = report[: place.start()] + str(int(place[0]) + rng.choice([1, 1, 2, 64])) + report[place.end() :]
        self.counts["mutant refused" if verdict(scene, changed) != "lawful" else "mutant lawful"] += 1

    def compare_texts(self, number, version):
        """Compares what is read of the scene of a number, and of a text with faults."""
        for what, text in (("", scene_of(number, version).text().encode()), (", with faults", with_faults(number, version))):
            try:
                scene = read(text)
                wanted = {"show": (scene.text(), 0), "convert": (scene.converted().text(), 0)}
            except Fault as fault:
                wanted = dict.fromkeys(("show", "convert"), (f"{fault}\n", 3))
            for words, answer_wanted in wanted.items():
                self.note(number, words + what, self.run(words, text) == answer_wanted)


def main(program, first=0, count=200):
    """Compares on so many numbers, and gives the exit status."""
    comparison = Comparison(program)
    for number in range(int(first), int(first) + int(count)):
        for version in (1, 2):
            comparison.compare_plans(number, version)
            comparison.compare_texts(number, version)
    for what, times in sorted(comparison.counts.items()):
        print(f"{what}: {times}")
    for number, what in comparison.differences:
        print(f"differs: scene {number}, {what}")
    print(f"{len(comparison.differences)} differences")
    return 1 if comparison.differences else 0


if __name__ == "__main__":
    sys.exit(main(*words_or_usage(__doc__)))
