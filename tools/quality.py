#!/usr/bin/env python3
"""Measures how good the paths of a built program are, to the shortest path there is, and what a good one takes.

Usage: quality.py PROGRAM [SEEDS [counts]]. The room is that of generated scene 9, without strips. Its marks are drawn
by so many seeds (10 if left out), which lie farther apart than there may be marks. `plan 1` and `smooth 1` plan it,
each also with `informed 1`.

The first table has what paths cost, to the shortest one, over all seeds; `-` stands where there is none. The second has
from how many marks on a path costs at most a hundredth more than the shortest, on a ladder of marks that rise by a
twentieth, and the processor time of a run with so many: to that of `plan 1` with 20,000, and to that of `plan 1` with
as many as it needs itself. The runs of a seed take turns, five times, and the least time of each counts. With `counts`
they are run once, and instructions, which valgrind counts, stand in place of times.
"""

import heapq
import math
import subprocess
import sys
from bisect import bisect_left
from dataclasses import dataclass, replace
from statistics import median

from counts import counts_of
from kimorefo.geometry import Space, is_beside, orientation, sides
from kimorefo.scene_text import SceneText, read
from speed import measure
from usage import words_or_usage

SEED_STEP = 1_000_000
# The words of each command, and whether its scene is informed.
COMMANDS = {
    "plan 1": ("plan 1", False),
    "smooth 1": ("smooth 1", False),
    "plan 1, informed": ("plan 1", True),
    "smooth 1, informed": ("smooth 1", True),
}
MARKS = (5_000, 20_000)
LADDER = [round(1_000 * 1.05**step) for step in range(115)]
REFERENCE = ("plan 1", 20_000)
GOOD = 1.01
ROUNDS = 5
NO_PATH = 1
# A segment of which a lesser share lies inside a zone is taken to touch it.
TOUCHING = 1e-9


def passes_through(zone, a, b):
    """Whether part of the segment from a to b lies inside a zone, and not only on its sides."""
    first, last = 0.0, 1.0
    for c, d in sides(zone):
        at_a, at_b = orientation(c, d, a), orientation(c, d, b)
        if at_a <= 0 and at_b <= 0:
            return False
        if at_a < 0:
            first = max(first, at_a / (at_a - at_b))
        elif at_b < 0:
            last = min(last, at_a / (at_a - at_b))
    return last - first > TOUCHING


def is_open(space, a, b):
    """Whether the segment from a to b passes through no zone."""
    near = (zone for box, zone in zip(space.boxes, space.zones) if not is_beside(box, a, b))
    return not any(passes_through(zone, a, b) for zone in near)


def shortest_length(scene):
    """The length of the shortest path into the first goal on which obstacles may be touched.

    It is found by A* over the visibility graph: from the start over corners of zones, and from the last of them to the
    nearest point of the goal. All these are lattice points, and only lengths are rounded, as floating point does. If no
    two zones touch and none meets the goal, no clear path is as short, and some come as near to it as one likes.
    """
    space = Space(scene)
    x0, y0, x1, y1 = scene.goals[0]

    def goal_near(p):
        return min(max(p[0], x0), x1), min(max(p[1], y0), y1)

    corners = [corner for zone in space.zones for corner in zone if space.is_in_room(corner)]
    lengths, settled = {scene.start: 0.0}, set()
    queue = [(math.dist(scene.start, goal_near(scene.start)), scene.start)]
    while queue:
        _, p = heapq.heappop(queue)
        if scene.is_goal_point(p):
            return lengths[p]
        if p in settled:
            continue
        settled.add(p)
        for q in (*corners, goal_near(p)):
            length = lengths[p] + math.dist(p, q)
            if length < lengths.get(q, math.inf) and is_open(space, p, q):
                lengths[q] = length
                heapq.heappush(queue, (length + math.dist(q, goal_near(q)), q))
    return math.inf


@dataclass
class Seeded:
    """A scene of one seed, the program that plans it, and what the shortest path costs."""

    program: str
    scene: SceneText
    shortest: float

    def run_of(self, command, marks):
        """The words and the text of a command with so many marks."""
        words, informed = COMMANDS[command]
        return words, replace(self.scene, drawn=marks, informed=informed).text().encode()

    def ratio(self, command, marks):
        """What the path of so many marks costs, to the shortest one; infinite without a path."""
        words, text = self.run_of(command, marks)
        done = subprocess.run([self.program, *words.split()], input=text, capture_output=True, check=False)
        if done.returncode == NO_PATH:
            return math.inf
        done.check_returncode()
        return int(done.stdout.split(maxsplit=4)[3]) / self.shortest

    def is_good(self, command, marks):
        """Whether the path of so many marks is good."""
        return self.ratio(command, marks) <= GOOD

    def good_marks(self, command):
        """From how many marks of the ladder on the path is good.

        A path of `plan 1` never costs more with more marks. One of `smooth 1` may, but never more than that of `plan 1`
        with as many.
        """
        plan = command.replace("smooth", "plan")
        step = bisect_left(LADDER, True, key=lambda marks: self.is_good(plan, marks))
        if step == len(LADDER):
            sys.exit(f"{command}, seed {self.scene.seed}: no good path")
        while command != plan and step > 0 and self.is_good(command, LADDER[step - 1]):
            step -= 1
        return LADDER[step]

    def times(self, runs):
        """The least processor time of each run, each a command and its marks, in turns."""
        rounds = [[measure(self.program, *self.run_of(*run))[1] for run in runs] for _ in range(ROUNDS)]
        return [min(times) for times in zip(*rounds)]

    def instructions(self, runs):
        """The instructions of each run."""
        return [counts_of(self.program, *self.run_of(*run), guesses=False)[0] for run in runs]


def seeded(program, count):
    """The scenes of so many seeds, in version 2."""
    scene = read(subprocess.run([program, "gen", "9"], capture_output=True, check=True).stdout)
    length = shortest_length(scene)
    print(f"The shortest path is {length:.2f} lattice steps long.\n")
    scenes = (replace(scene.converted(), strips=1, seed=(number + 1) * SEED_STEP) for number in range(count))
    return [Seeded(program, scene, 256 * length) for scene in scenes]


def spread(numbers, form):
    """The median, the least and the greatest of some numbers; `-` where there is no path."""
    shown = (median(numbers), min(numbers), max(numbers))
    return " ".join(f"{number:9{form}}" if math.isfinite(number) else f"{'-':>9}" for number in shown)


SPREAD = f"{'median':>9} {'least':>9} {'greatest':>9}"


def print_costs(scenes):
    """Prints what the paths of so many marks cost, and how many of them are good."""
    print(f"{'':27}cost, to the shortest path")
    print(f"{'command':18} {'marks':>7} {SPREAD} {'within 1/100':>13}")
    for marks in MARKS:
        for command in COMMANDS:
            ratios = [scene.ratio(command, marks) for scene in scenes]
            good = f"{sum(ratio <= GOOD for ratio in ratios)} of {len(ratios)}"
            print(f"{command:18} {marks:7} {spread(ratios, '.4f')} {good:>13}", flush=True)
    print()


def print_efforts(scenes, unit):
    """Prints from how many marks on paths are good, and what runs with so many take."""
    found = []
    for scene in scenes:
        runs = [REFERENCE, *((command, scene.good_marks(command)) for command in COMMANDS)]
        first, plan, *_ = efforts = scene.instructions(runs) if unit == "counts" else scene.times(runs)
        found.append([(marks, effort / first, effort / plan) for (_, marks), effort in zip(runs[1:], efforts[1:])])
    what = "instructions" if unit == "counts" else "processor time"
    print(f"{'':18} {'marks until within 1/100':29}  {what}, to `plan 1`")
    print(f"{'':18} {'':29}  {f'with {REFERENCE[1]:,} marks':29}  until within 1/100")
    print(f"{'command':18} {SPREAD}  {SPREAD}  {SPREAD}")
    for command, rows in zip(COMMANDS, zip(*found)):
        columns = [spread(column, form) for column, form in zip(zip(*rows), (".0f", ".2f", ".2f"))]
        print(f"{command:18} {'  '.join(columns)}")


def main(program, count="10", unit="times"):
    """Prints both tables."""
    scenes = seeded(program, int(count))
    print_costs(scenes)
    print_efforts(scenes, unit)


if __name__ == "__main__":
    main(*words_or_usage(__doc__))
