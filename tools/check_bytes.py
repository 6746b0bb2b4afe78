#!/usr/bin/env python3
"""Runs `check` of a built program over reports that differ at one byte, and compares its verdicts with those of judge.py: the law and the
line too.

Usage: check_bytes.py PROGRAM [REPORT..]. Ten full reports of small scenes of both versions, informed and not, with and without a path,
planned by 1, 2, 4 and 64 workers, or those of them that are named by numbers from 0 on. Each is checked as it is, and changed at each of
its bytes in turn: to the next digit or letter or the one before it, to a space, a line feed, a hyphen or the byte 255, without it, with it
twice, and cut off before it.

It prints how many reports there were of each law and after each change, and ends with 1 if two verdicts were not the same.
"""

import random
import re
import sys
from collections import Counter

from checks import Checks, lines_of, places_of, text_of
from make_scenes import scene_of
from usage import words_or_usage

# The number and the version of a scene, how many workers plan it, and what its report shows.
REPORTS = (
    (147, 1, 1, "a path; placed, same and blocked marks"),
    (158, 1, 4, "a path; many rewired nodes"),
    (78, 1, 2, "a path; most marks on points of nodes"),
    (216, 2, 64, "no path; many rewired nodes"),
    (117, 1, 64, "no path; most marks blocked"),
    (125, 2, 2, "a path; blocked and skipped marks, a clearance"),
    (95, 2, 4, "a path of many points; great coordinates, many goals, skipped marks"),
    (207, 2, 1, "a path of many points; great coordinates"),
    (36, 2, 64, "no path; informed, no mark skipped"),
    (66, 2, 4, "the start in a goal; all marks skipped"),
)
STATUSES = (0, 1)


def following(byte, step):
    """The digit or letter so far after a byte, round the ten or 26 of its kind; a digit or letter in place of any other byte."""
    for first, count in (("0", 10), ("a", 26)):
        place = ord(byte) - ord(first)
        if 0 <= place < count:
            return chr(ord(first) + (place + step) % count)
    return "0" if step > 0 else "x"


CHANGES = {
    "the next digit or letter": lambda byte: following(byte, 1),
    "the digit or letter before": lambda byte: following(byte, -1),
    "a digit for a letter, a letter for a digit": lambda byte: "x" if byte.isdigit() else "0",
    "a space": lambda byte: " ",
    "a line feed": lambda byte: "\n",
    "a hyphen": lambda byte: "-",
    "the byte 255": lambda byte: "\xff",
    "without the byte": lambda byte: "",
    "the byte twice": lambda byte: byte * 2,
}


def changed_reports(report):
    """All reports that differ from this one at one of its bytes, each once: at which, by which change, and the text."""
    seen = {report}
    for place, byte in enumerate(report):
        for what, change in CHANGES.items():
            changed = report[:place] + change(byte) + report[place + 1 :]
            if changed not in seen:
                seen.add(changed)
                yield place, what, changed
        if report[:place] not in seen:
            yield place, "cut off", report[:place]


def workers_in(report):
    """The numbers of the workers that have a mark."""
    return set(re.findall(r"^mark \d+ worker (\d+) ", report, re.MULTILINE))


def dealt(report, workers):
    """A report of several workers, of which one has handled all marks, as few as they are, with its marks dealt to up to four of them. Each
    then has seen some of what that one had, so the report is as lawful."""
    rng, turns = random.Random(workers), Counter()
    dealers = [i * (workers - 1) // 3 for i in range(4)]
    lines = lines_of(report)
    for place in sorted(places_of(lines, "mark"), key=lambda place: int(lines[place].split()[5])):
        words = lines[place].split(" ")
        worker = rng.choice(dealers)
        words[3], words[5] = str(worker), str(turns[worker])
        turns[worker] += 1
        lines[place] = " ".join(words)
    return text_of(lines)


def full_report(checks, scene, workers):
    """A full report of a scene by so many workers, of whom several have marks if there are several; and its status."""
    report, status = checks.run(f"plan {workers} full", scene.text().encode())
    return dealt(report, workers) if len(workers_in(report)) < min(2, workers) else report, status


def compare_bytes(checks, place):
    """Compares both verdicts on the report of a place, as it is and changed. Gives whether it is lawful, and prints a line."""
    number, version, workers, shown = REPORTS[place]
    scene = scene_of(number, version)
    report, status = full_report(checks, scene, workers)
    if status not in STATUSES:
        print(f"report {place}: status {status}")
        return False
    before, lawful = checks.counts.total(), checks.laws["lawful"]
    checks.compare(f"report {place}", scene, report, "nothing")
    is_lawful = checks.laws["lawful"] > lawful
    for byte, what, changed in changed_reports(report):
        checks.compare(f"report {place}, byte {byte}", scene, changed, what)
    informed = "informed" if scene.informed else "not informed"
    busy, cases = len(workers_in(report)), checks.counts.total() - before
    about = f"version {version}, {informed}, {busy} of {workers} workers with a mark, {len(report)} bytes, {cases} cases; {shown}"
    print(f"report {place}: {about}{'' if is_lawful else '; WRONG: not lawful'}", flush=True)
    return is_lawful


def main(program, *places):
    """Compares on the reports of these places, or on all, and gives the exit status."""
    checks = Checks(program)
    lawful = [compare_bytes(checks, int(place)) for place in places or range(len(REPORTS))]
    return checks.ending() or (0 if all(lawful) else 1)


if __name__ == "__main__":
    sys.exit(main(*words_or_usage(__doc__)))
