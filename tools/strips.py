#!/usr/bin/env python3
"""Shows what `strips` do with several workers: how often they find a path where one worker does, and what it costs.

Usage: strips.py PROGRAM [RUNS]. Each scene is planned with 1, 2, 4, 8 and 64 strips, RUNS times each (20 if left out),
and each time with another seed, so that no two runs have a drawn word in common. A run is `plan 1`, and where that
finds a path `plan 2` and `plan 4` on the same text. The table has in how many runs `plan 1` found a path, and of
`plan 2` and of `plan 4` in how many of these they did, and the median and the greatest of their costs to that of
`plan 1`. Which mark comes when differs between runs, and by what else the machine does, so the numbers differ too.
"""

import os
import subprocess
from collections import defaultdict
from dataclasses import replace
from statistics import median

from kimorefo.scene_text import read
from mazes import scene_of
from usage import words_or_usage

EXAMPLES = os.path.join(os.path.dirname(os.path.abspath(__file__)), "..", "examples")
STRIPS = (1, 2, 4, 8, 64)
WORKERS = (2, 4)
# Seeds lie farther apart than there may be marks.
SEED_STEP = 1_000_000
NO_PATH = 1


def scenes_with(program):
    """Each scene with its name: those of mazes.py but the open one, a generated scene, and an example."""
    for name in ("maze_grid", "maze_serpent", "narrow", "bug_trap"):
        yield name, scene_of(name)
    yield "generated 9", read(subprocess.run([program, "gen", "9"], capture_output=True, check=True).stdout)
    with open(os.path.join(EXAMPLES, "drawn.scene"), "rb") as text:
        yield "drawn", read(text.read())


def cost_of(program, workers, scene):
    """What the path of so many workers costs; None without one."""
    text = scene.text().encode()
    done = subprocess.run([program, "plan", str(workers)], input=text, capture_output=True, check=False)
    if done.returncode == NO_PATH:
        return None
    done.check_returncode()
    return int(done.stdout.split(maxsplit=4)[3])


def costs_of(program, scene, runs):
    """How many runs have a path by `plan 1`; and by number of workers, each cost to that of `plan 1` in these runs."""
    found, ratios = 0, {workers: [] for workers in WORKERS}
    for run in range(1, runs + 1):
        drawn = replace(scene, seed=run * SEED_STEP)
        one = cost_of(program, 1, drawn)
        if one is None:
            continue
        found += 1
        for workers, costs in ratios.items():
            cost = cost_of(program, workers, drawn)
            costs.extend([] if cost is None else [cost / one])
    return found, ratios


def shown(found, ratios):
    """The columns of a line."""
    columns = [f"{found:6}"]
    for costs in ratios.values():
        numbers = f"{median(costs):8.3f} {max(costs):8.3f}" if costs else f"{'-':>8} {'-':>8}"
        columns.append(f"{len(costs):6} {numbers}")
    return "  ".join(columns)


def main(program, runs="20"):
    """Prints a line for each scene and number of strips, and one for all scenes together."""
    commands = "".join(f"  {f'plan {workers}':24}" for workers in WORKERS)
    print(f"{'':26}  plan 1{commands}".rstrip())
    heads = "".join(f"  {'found':>6} {'median':>8} {'greatest':>8}" for _ in WORKERS)
    print(f"{'scene':12} {'marks':>6} {'strips':>6}  {'found':>6}{heads}")
    totals = defaultdict(lambda: [0, {workers: [] for workers in WORKERS}])
    for name, scene in scenes_with(program):
        for strips in STRIPS:
            found, ratios = costs_of(program, replace(scene, strips=strips), int(runs))
            totals[strips][0] += found
            for workers, costs in ratios.items():
                totals[strips][1][workers] += costs
            print(f"{name:12} {scene.drawn:6} {strips:6}  {shown(found, ratios)}", flush=True)
    for strips, (found, ratios) in totals.items():
        print(f"{'all':12} {'':6} {strips:6}  {shown(found, ratios)}")


if __name__ == "__main__":
    main(*words_or_usage(__doc__))
