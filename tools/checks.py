#!/usr/bin/env python3
"""Runs `check` of a built program over changed reports, and compares its verdicts with those of judge.py: the law and the line too.

Usage: checks.py PROGRAM [FIRST [COUNT]]. For each number from FIRST on (0 and 100 if left out), of each version of its random scene, the
full reports of one, two, four and 64 workers are checked as they are, and each changed in most of the ways below: lines and bytes (law
1), nodes (2), turns (3), what became of a mark (4), what a record says (5), the head (6), and changes that keep the lesser laws: another
parent with all costs below it, another worker with all turns, a new head. Every third change is of two at once.

It prints how many verdicts there were of each law and after each change, and ends with 1 if two were not the same.
"""

import random
import re
import subprocess
import sys
from collections import Counter

from judge import Judge, verdict
from make_scenes import scene_of
from rules import cost
from textbook import head_lines
from usage import words_or_usage

WORKERS = (1, 2, 4, 64)
GREAT = (2**18, 2**20, 2**44, 2**64 - 1, 2**64, 10**30)


def lines_of(text):
    """The lines of a text without the last line feed."""
    return text[:-1].split("\n")


def text_of(lines):
    """Lines as a text."""
    return "".join(line + "\n" for line in lines)


def places_of(lines, word):
    """The places of the lines that begin with a word, or of all others without one."""
    if word:
        return [i for i, line in enumerate(lines) if line.startswith(word + " ")]
    return [i for i, line in enumerate(lines) if not line.startswith(("node ", "mark "))]


def with_number(rng, line, which=None):
    """A line with one number changed: any, or that of this place from the first."""
    numbers = list(re.finditer(r"\d+", line))
    if not numbers or (which is not None and which >= len(numbers)):
        return line
    number = numbers[which] if which is not None else rng.choice(numbers)
    kept = int(number[0])
    other = rng.choice([kept + 1, kept + 1, max(0, kept - 1), max(0, kept - 1), kept + 2, 0, rng.randrange(64), rng.randrange(kept + 2)])
    return line[: number.start()] + str(other) + line[number.end() :]


def change_number(word, which=None):
    """The change of one number in one of the lines with a word."""

    def change(rng, lines, scene):
        places = places_of(lines, word)
        if places:
            place = rng.choice(places)
            lines[place] = with_number(rng, lines[place], which)
        return text_of(lines)

    return change


def take_a_line(rng, lines, scene):
    """Without one line."""
    del lines[rng.randrange(len(lines))]
    return text_of(lines)


def add_a_line(rng, lines, scene):
    """With one line more: a copy of another, none with a word, or one that says `report`."""
    lines.insert(rng.randrange(len(lines) + 1), rng.choice([rng.choice(lines), "", "report"]))
    return text_of(lines)


def exchange_lines(rng, lines, scene):
    """With two lines in each other's places."""
    i, j = rng.randrange(len(lines)), rng.randrange(len(lines))
    lines[i], lines[j] = lines[j], lines[i]
    return text_of(lines)


def change_the_end(rng, lines, scene):
    """With another end."""
    text = text_of(lines)
    return rng.choice([text[:-1], text + "\n", text + "x", text[: rng.randrange(len(text))], text.replace("\n", "\r\n"), ""])


def change_a_byte(rng, lines, scene):
    """With another byte, one more or one less."""
    text = text_of(lines)
    i = rng.randrange(len(text))
    return text[:i] + rng.choice(["", " ", "0", "-", "\t", "\xff", text[i] * 2, text[i].upper()]) + text[i + 1 :]


def change_to_great(rng, lines, scene):
    """With a number that may be too great for its field."""
    place = rng.randrange(len(lines))
    numbers = list(re.finditer(r"\d+", lines[place]))
    if numbers:
        number = rng.choice(numbers)
        line, great = lines[place], rng.choice([*GREAT, 63, 64, 299, 300, len(lines)])
        lines[place] = line[: number.start()] + str(great + rng.choice([-1, 0, 0, 1])) + line[number.end() :]
    return text_of(lines)


def change_spelling(rng, lines, scene):
    """With a number or a gap that is spelled in another way."""
    place = rng.randrange(len(lines))
    old, new = rng.choice([(r" (\d)", r" 0\1"), (" ", "  "), ("^", " "), ("$", " "), (r" (\d)", r" +\1"), (r"(\d)$", r"\1.")])
    lines[place] = re.sub(old, new, lines[place], count=1)
    return text_of(lines)


def change_the_outcome(rng, lines, scene):
    """With another end of one mark."""
    places = places_of(lines, "mark")
    if places:
        place = rng.choice(places)
        begin = " ".join(lines[place].split()[:6])
        nearest = rng.randrange(len(places) + 1)
        k = rng.randrange(len(places) + 1)
        lines[place] = rng.choice([
            f"{begin} nearest {nearest} blocked",
            f"{begin} nearest {nearest} same {k}",
            f"{begin} nearest {nearest} placed class {rng.randrange(5)} first {k} {rng.randrange(9999)}",
            f"{begin} skipped by {k}",
            re.sub(" (placed|same|skipped).*", " blocked", lines[place]),
            re.sub(" (placed|blocked|skipped).*", f" same {k}", lines[place]),
        ])
    return text_of(lines)


def take_a_node(rng, lines, scene):
    """Without the line of a node, and with one node less in the counts."""
    places = places_of(lines, "node")
    counts = next(i for i, line in enumerate(lines) if line.startswith("nodes "))
    words = lines[counts].split()
    words[1] = str(max(0, int(words[1]) - 1))
    lines[counts] = " ".join(words)
    if rng.random() < 0.5 and len(places) > 1:
        words[3] = str(max(0, int(words[3]) - 1))
        lines[counts] = " ".join(words)
    del lines[rng.choice(places)]
    return text_of(lines)


def exchange_turns(rng, lines, scene):
    """With the turns of two marks exchanged, of one worker if it has two."""
    places = places_of(lines, "mark")
    if len(places) < 2:
        return text_of(lines)
    one = rng.choice(places)
    own = [i for i in places if i != one and lines[i].split()[3] == lines[one].split()[3]]
    other = rng.choice(own or [i for i in places if i != one])
    words, others = lines[one].split(), lines[other].split()
    words[3:6], others[3:6] = others[3:6], words[3:6]
    lines[one], lines[other] = " ".join(words), " ".join(others)
    return text_of(lines)


def give_to_workers(rng, lines, scene):
    """With marks given to other workers, and the turns counted anew in the order of the old ones or of another."""
    places = places_of(lines, "mark")
    few = rng.choice([1, 2, 3, 64])
    moved = [i for i in places if rng.random() < rng.choice([0.1, 0.5, 1])]
    worker = {i: int(lines[i].split()[3]) for i in places} | {i: rng.randrange(few) for i in moved}
    order = sorted(places, key=lambda i: int(lines[i].split()[5]) if rng.random() < 0.9 else rng.randrange(len(places)))
    turns = Counter()
    for i in order:
        words = lines[i].split()
        words[3], words[5] = str(worker[i]), str(turns[worker[i]])
        turns[worker[i]] += 1
        lines[i] = " ".join(words)
    return text_of(lines)


def read_again(lines, scene):
    """The report as the judge reads it; None if it breaks law 1 or 2."""
    text = text_of(lines)
    return None if re.match(r"broken line \d+ law [12]:", verdict(scene, text)) else Judge(scene, text)


def with_own_head(judge, lines, scene):
    """The lines with the head that their nodes and records give."""
    return head_lines(judge.tree, judge.records, scene) + lines[len(judge.head) :]


def is_above(tree, n, other):
    """Whether a node is the other or above it."""
    for _ in tree.parents:
        if other == n:
            return True
        other = tree.parents[other]
    return other == n


def hang_elsewhere(rng, lines, scene):
    """With another parent of one node, its first or any that is not below it, with the costs below it and the head."""
    judge = read_again(lines, scene)
    if not judge or len(judge.order) < 3:
        return text_of(lines)
    tree = judge.tree
    n = rng.choice(judge.order[1:])
    first = judge.records[n - 1]
    parents = [p for p in judge.order if not is_above(tree, n, p)]
    p = first.first_parent if first.outcome == "placed" and rng.random() < 0.5 and first.first_parent in parents else rng.choice(parents)
    tree.parents[n] = p
    costs = {0: 0}

    def sum_of(m):
        way = []
        while m not in costs:
            way.append(m)
            m = tree.parents[m]
        for m in reversed(way):
            costs[m] = costs[tree.parents[m]] + cost(tree.points[tree.parents[m]], tree.points[m])
        return costs

    for m in judge.order:
        sum_of(m)
    for place, m in enumerate(judge.order):
        x, y = tree.points[m]
        lines[len(judge.head) + place] = f"node {m} at {x} {y} parent {tree.parents[m]} cost {costs[m]}"
    changed = read_again(lines, scene)
    return text_of(with_own_head(changed, lines, scene) if changed else lines)


def keep_the_head(change):
    """A change, and then the head that the nodes and records give."""

    def both(rng, lines, scene):
        lines = lines_of(change(rng, lines, scene))
        judge = read_again(lines, scene)
        return text_of(with_own_head(judge, lines, scene) if judge else lines)

    return both


CHANGES = {
    "a line less": take_a_line,
    "a line more": add_a_line,
    "two lines exchanged": exchange_lines,
    "another end": change_the_end,
    "another byte": change_a_byte,
    "a great number": change_to_great,
    "another spelling": change_spelling,
    "a number of a node": change_number("node"),
    "a point of a node": change_number("node", 1),
    "a parent": change_number("node", 3),
    "a cost of a node": change_number("node", 4),
    "a node less": take_a_node,
    "a number of a mark": change_number("mark"),
    "a worker": change_number("mark", 1),
    "a turn": change_number("mark", 2),
    "two turns exchanged": exchange_turns,
    "marks of other workers": give_to_workers,
    "another outcome": change_the_outcome,
    "another outcome, with its head": keep_the_head(change_the_outcome),
    "a nearest node": change_number("mark", 3),
    "a class or another node": change_number("mark", 4),
    "a first parent": change_number("mark", 5),
    "a first cost": change_number("mark", 6),
    "a number of a mark, with its head": keep_the_head(change_number("mark")),
    "another parent with all costs": hang_elsewhere,
    "a number of the head": change_number(""),
}


def changed_again(rng, text, scene):
    """A changed report with another change; as it is if that finds no line of its form any more."""
    change = CHANGES[rng.choice(list(CHANGES))]
    try:
        return change(rng, lines_of(text), scene)
    except (IndexError, ValueError, StopIteration):
        return text


class Checks:
    """The program, and what was counted."""

    def __init__(self, program):
        self.program = program
        self.laws, self.counts, self.differences = Counter(), Counter(), []

    def run(self, words, text):
        """What the program writes for these words, and its status."""
        done = subprocess.run([self.program, *words.split()], input=text, capture_output=True, check=False, timeout=600)
        return done.stdout.decode(), done.returncode

    def compare(self, name, scene, report, what):
        """Compares both verdicts on a report, and keeps its name and how it was changed if they differ."""
        wanted = verdict(scene, report).split(":")[0]
        text = scene.text().encode() + b"report\n" + report.encode("latin-1")
        same = self.run("check", text) == (wanted + "\n", 0 if wanted == "lawful" else 1)
        self.counts[what] += 1
        self.laws[wanted.split()[-1]] += 1
        if not same:
            self.differences.append((name, what))

    def compare_changes(self, number, version):
        """Compares those on the reports of the scene of a number, as they are and changed."""
        scene = scene_of(number, version)
        for workers in WORKERS:
            report, status = self.run(f"plan {workers} full", scene.text().encode())
            if status > 1:
                return
            self.compare(f"scene {number}", scene, report, "nothing")
            rng = random.Random(f"checks {number} {version} {workers}")
            for what, change in CHANGES.items():
                changed = change(rng, lines_of(report), scene)
                if rng.random() < 1 / 3 and changed.endswith("\n") and len(changed) > 1:
                    changed = changed_again(rng, changed, scene)
                if changed != report:
                    self.compare(f"scene {number}", scene, changed, what)

    def ending(self):
        """Prints what was counted, and gives the exit status."""
        for what, times in self.counts.items():
            print(f"{what}: {times}")
        for law, times in sorted(self.laws.items()):
            print(f"lawful: {times}" if law == "lawful" else f"law {law}: {times}")
        for name, what in self.differences:
            print(f"differs: {name}, {what}")
        print(f"{self.counts.total()} reports, {len(self.differences)} differences")
        return 1 if self.differences else 0


def main(program, first=0, count=100):
    """Compares on so many numbers, and gives the exit status."""
    checks = Checks(program)
    for number in range(int(first), int(first) + int(count)):
        for version in (1, 2):
            checks.compare_changes(number, version)
    return checks.ending()


if __name__ == "__main__":
    sys.exit(main(*words_or_usage(__doc__)))
