#!/usr/bin/env python3
"""Measures one run of K times 20,000 marks beside the best of K runs of 20,000, for K from 1 to 64.

Usage: best_of_many.py PROGRAM [TRIALS [counts]]. The rooms are that of generated scene 9, without strips, and a maze of
`mazes.py`. `plan 1` and `smooth 1` plan each so many times (5 if left out), by seeds that lie farther apart than there
may be marks. A run has 262,143 marks at most: that stands for 16 times 20,000, and for 64 times there is none.

Each line has the median of what paths cost, to the shortest one, and in how many trials there was a path; the median of
the processor time of all K runs; and the most memory of one run. The K runs are made one after another: side by side
they take no less processor time, and that memory as often. With `counts`, instructions that valgrind counts stand in
place of times, to those of one run of `plan 1` with 20,000 marks, from one run each.
"""

import math
import sys
from dataclasses import dataclass, replace
from statistics import median

from counts import counts_of, written
from extremes import run
from kimorefo.scene_text import read
from mazes import scene_of
from quality import shortest_length
from usage import words_or_usage

MARKS, MOST_MARKS = 20_000, 262_143
TIMES = (1, 4, 16, 64)
COMMANDS = ("plan 1", "smooth 1")
SEED_STEP = 1_000_000


@dataclass(frozen=True)
class Done:
    """What a run, or the best of several, has come to: the cost to the shortest path, what it took, and megabytes."""

    ratio: float
    taken: float
    megabytes: float


class Room:
    """A room, what the shortest path costs in it, and how it is planned."""

    def __init__(self, program, scene, unit):
        self.program, self.scene, self.unit = program, scene.converted(), unit
        self.shortest = 256 * shortest_length(self.scene)
        self.one = self.instructions("plan 1", MARKS) if unit == "counts" else 1

    def text(self, marks, seed=1):
        """The text with so many marks and the seed of a number."""
        return replace(self.scene, drawn=marks, strips=1, seed=seed * SEED_STEP).text().encode()

    def instructions(self, words, marks):
        """The instructions of a run."""
        return counts_of(self.program, words, self.text(marks), guesses=False)[0]

    def done(self, words, marks, seed):
        """What one run has come to."""
        made = run(self.program, words, self.text(marks, seed))
        cost = int(made.output.split(maxsplit=4)[3]) if made.status == 0 else math.inf
        return Done(cost / self.shortest, made.used, made.megabytes)

    def rows(self, words, trials):
        """For each K, the trials of one run and those of the best of K."""
        runs = [[self.done(words, MARKS, trial * TIMES[-1] + number + 1) for number in range(TIMES[-1])] for trial in range(trials)]
        for times in TIMES:
            marks = min(times * MARKS, MOST_MARKS)
            one = [self.done(words, marks, trial * TIMES[-1] + 1) for trial in range(trials)] if times < TIMES[-1] else []
            yield times, marks, self.counted(one, words, marks, 1), self.counted(list(map(best, (own[:times] for own in runs))), words, MARKS, times)

    def counted(self, trials, words, marks, times):
        """The trials, with instructions in place of times if these are asked for."""
        if self.unit != "counts" or not trials:
            return trials
        taken = times * self.instructions(words, marks) / self.one
        return [replace(trial, taken=taken) for trial in trials]


def best(runs):
    """The best of several runs."""
    return Done(min(own.ratio for own in runs), sum(own.taken for own in runs), max(own.megabytes for own in runs))


def shown(trials):
    """The columns of some trials."""
    if not trials:
        return f"{'-':>9} {'-':>7} {'-':>9} {'-':>6}"
    ratio, found = median(trial.ratio for trial in trials), sum(math.isfinite(trial.ratio) for trial in trials)
    cost = f"{ratio:9.4f}" if math.isfinite(ratio) else f"{'-':>9}"
    taken, megabytes = median(trial.taken for trial in trials), max(trial.megabytes for trial in trials)
    return f"{cost} {f'{found}/{len(trials)}':>7} {taken:9.2f} {megabytes:6.0f}"


def main(program, trials="5", unit="seconds"):
    """Prints a table for each room."""
    rooms = {"generated 9": read(written(program, "gen 9", b"")), "maze_grid": scene_of("maze_grid")}
    what = "instr." if unit == "counts" else "cpu s"
    columns = f"{'cost':>9} {'found':>7} {what:>9} {'MB':>6}"
    for name, scene in rooms.items():
        room = Room(program, scene, unit)
        print(f"{name}: the shortest path has {room.shortest / 256:.2f} lattice steps")
        print(f"{'command':9} {'K':>3} {'marks':>8} {'one run: ' + columns:>44}   {'best of K: ' + columns:>46}")
        for words in COMMANDS:
            for times, marks, one, many in room.rows(words, int(trials)):
                print(f"{words:9} {times:3} {marks if one else '-':>8} {shown(one):>44}   {shown(many):>46}", flush=True)
        print(flush=True)


if __name__ == "__main__":
    main(*words_or_usage(__doc__))
