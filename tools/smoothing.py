#!/usr/bin/env python3
"""Path smoothing from the rules alone (docs/planning.md): the short report with the path smoothed that textbook RRT* finds.

A path of up to MOST_TRIED points is smoothed by trying all choices of its points. A longer one is smoothed from its end to its
front, by whole lists of positions and with no bound. Usage: smoothing.py < SCENE. It ends with the statuses of the planner.
"""

import itertools
import sys

from kimorefo.geometry import Space
from kimorefo.scene_text import read
from rules import cost
from textbook import answer

# Of a path of so many points all choices are tried.
MOST_TRIED = 11


def rank(path, choice):
    """By what choices are ordered: cost, number of points, positions."""
    return sum(cost(path[i], path[j]) for i, j in zip(choice, choice[1:])), len(choice), choice


def best_of_all(path, clear):
    """The least clear choice, by trying each."""
    last = len(path) - 1
    if last == 0:
        return (0,)
    middles = range(1, last)
    choices = ((0, *middle, last) for k in range(last) for middle in itertools.combinations(middles, k))
    return min((c for c in choices if all(clear[i, j] for i, j in zip(c, c[1:]))), key=lambda c: rank(path, c))


def best_from_the_end(path, clear):
    """The same, by the least list of positions from each position on."""
    last = len(path) - 1
    rests = {last: (last,)}
    for i in range(last - 1, -1, -1):
        rests[i] = min(((i, *rests[j]) for j in range(i + 1, last + 1) if clear[i, j]), key=lambda c: rank(path, c))
    return rests[0]


def smoothed(path, space):
    """The points that the least clear choice of a path keeps."""
    pairs = itertools.combinations(range(len(path)), 2)
    clear = {(i, j): space.is_clear(path[i], path[j]) for i, j in pairs}
    best = best_of_all if len(path) <= MOST_TRIED else best_from_the_end
    return [path[i] for i in best(path, clear)]


def smoothed_report(report, space):
    """A short report with its path smoothed; without a path it stays as it is."""
    lines = report.splitlines()
    if lines[0] == "no path":
        return report
    path = [tuple(map(int, line.split())) for line in lines[1:-1]]
    points = smoothed(path, space)
    total = sum(cost(a, b) for a, b in zip(points, points[1:]))
    kept = [f"path {len(points)} cost {total}", *(f"{x} {y}" for x, y in points), lines[-1]]
    return "".join(line + "\n" for line in kept)


def smoothed_answer(text):
    """What `smooth 1` is to write for the bytes of a scene, and its status."""
    output, status = answer(text, False)
    if status > 1:
        return output, status
    return smoothed_report(output, Space(read(text))), status


if __name__ == "__main__":
    written, code = smoothed_answer(sys.stdin.buffer.read())
    sys.stdout.write(written)
    sys.exit(code)
