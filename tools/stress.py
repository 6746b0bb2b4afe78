#!/usr/bin/env python3
"""Runs a built program by many workers on small crowded scenes, where most marks race for few places, and judges each report.

Usage: stress.py PROGRAM [RUNS [SEED [WORKERS]]]; 1,000 runs, seed 0 and 64 workers if left out. The families of scenes take turns; a
seed and the number of a run give the same scene. `plan WORKERS full` writes a report that judge.py is to find lawful, in which each
mark has one line. The judges run beside the program, so that its workers are held up in many places.

For each family it prints the runs, the marks, and what shows that workers met: how many of them had a mark, on average; marks whose
nearest node came from a later mark, or that found such a node at their point; and nodes that were rewired. It ends with 1 if a report
was not lawful, and names the runs.
"""

import os
import random
import re
import subprocess
import sys
from collections import Counter
from concurrent.futures import ProcessPoolExecutor

from judge import verdict
from kimorefo.scene_text import SceneText
from usage import words_or_usage

MARK = re.compile(r"^mark (\d+) worker (\d+) turn \d+ nearest (\d+) (?:same (\d+)|placed class \d+ first (\d+) )?", re.MULTILINE)
NODE = re.compile(r"^node (\d+) at \d+ \d+ parent (\d+) ", re.MULTILINE)


def scene_in(rng, width, height, **fields):
    """A scene in a room of this size; whatever is not given is drawn."""
    drawn = {
        "start": (rng.randint(0, width), rng.randint(0, height)),
        "goals": [(0, 0, rng.randint(0, width), rng.randint(0, height))],
        "step": rng.choice([4, 5, 9, 30]),
        "gamma": rng.choice([0, 10, 100, 10_000]),
        "seed": rng.getrandbits(64),
        "strips": rng.choice([1, 2, 7, 64]),
    }
    return SceneText(room=(width, height), **drawn | fields)


def column(rng):
    """A room of one column, since the body is as wide as the room. The tree grows up and down, and only its two ends have room."""
    height = rng.randint(1_000, 20_000)
    body = [(0, 0), (1, 0), (0, 1)]
    fields = {"start": (0, rng.randint(0, height - 1)), "step": rng.choice([4, 9, 30])}
    return scene_in(rng, 1, height, body=body, drawn=rng.randint(1_000, 2_500), **fields)


def one_point(rng):
    """All marks on one point, many steps from the start: each leads to the one place that is next."""
    corner = (rng.randint(500, 5_000), rng.randint(0, 5_000))
    return scene_in(rng, 5_000, 5_000, start=(0, 0), step=rng.choice([4, 5, 9]), marks=[corner] * rng.randint(2_000, 6_000))


def two_points(rng):
    """All marks on two far points, perhaps with a wall before one of them."""
    places = [(rng.randint(0, 900), rng.randint(0, 3_000)), (rng.randint(2_000, 3_000), rng.randint(0, 3_000))]
    top = rng.choice([None, 1_600, 3_001])
    obstacles = [[(1_500, -1), (1_504, -1), (1_504, top), (1_500, top)]] if top else []
    marks = [rng.choice(places) for _ in range(rng.randint(2_000, 6_000))]
    return scene_in(rng, 3_000, 3_000, start=(1_000, 1_000), step=rng.choice([4, 5, 9]), obstacles=obstacles, marks=marks)


def branch(rng):
    """Points in a line, a step from one to the next, so that the kd-tree is one branch; each a few times."""
    times, count = rng.randint(3, 9), rng.randint(300, 900)
    marks = [(4 * n, 0) for n in range(1, count + 1) for _ in range(times)]
    return scene_in(rng, 4 * count, 2, start=(0, 0), step=4, marks=marks)


def few_points(rng):
    """A long room of few columns; the marks are drawn from some of its last points, or from all of few lattice points."""
    if rng.random() < 0.2:
        return scene_in(rng, rng.randint(1, 4), rng.randint(1, 4), drawn=rng.randint(5_000, 20_000))
    width, height = rng.randint(1, 12), rng.randint(500, 4_000)
    places = [(rng.randint(0, width), rng.choice([0, height])) for _ in range(3)]
    marks = [rng.choice(places) for _ in range(rng.randint(2_000, 6_000))]
    return scene_in(rng, width, height, start=(0, height // 2), step=rng.choice([4, 5, 9]), marks=marks)


def crowded(rng):
    """Drawn marks among some obstacles, with much rewiring."""
    corner = lambda: (rng.randint(5, 60), rng.randint(5, 60))
    boxes = [(x, y, x + rng.randint(1, 9), y + rng.randint(1, 9)) for x, y in (corner() for _ in range(4))]
    obstacles = [[(x, y), (a, y), (a, b), (x, b)] for x, y, a, b in boxes]
    return scene_in(rng, 70, 70, start=(1, 1), gamma=rng.choice([30, 100]), obstacles=obstacles, drawn=rng.randint(1_000, 3_000))


FAMILIES = (column, one_point, two_points, branch, few_points, crowded)


def scene_of(seed, number):
    """The scene of a run."""
    return FAMILIES[number % len(FAMILIES)](random.Random(f"stress {seed} {number}"))


def judged(scene, status, report):
    """What is wrong with a run, or `lawful`; and what is counted of it."""
    if status != (1 if report.startswith("no path\n") else 0):
        return f"status {status}, {report[:60]!r}", {}
    found = verdict(scene, report)
    marks = MARK.findall(report)
    nodes = dict(NODE.findall(report))
    later = sum(max(int(nearest), int(same or 0)) > int(k) + 1 for k, _, nearest, same, _ in marks)
    rewired = sum(bool(first) and nodes.get(str(int(k) + 1)) != first for k, _, _, _, first in marks)
    workers = len({worker for _, worker, _, _, _ in marks})
    return found, {"marks": len(marks), "nodes": len(nodes), "workers": workers, "later": later, "rewired": rewired}


def reports(program, workers, seed, runs):
    """Runs the program on each scene; gives each with how it ended."""
    for number in range(runs):
        scene = scene_of(seed, number)
        text = scene.text().encode()
        done = subprocess.run([program, "plan", workers, "full"], input=text, capture_output=True, check=False, timeout=600)
        yield scene, done.returncode, done.stdout.decode(errors="replace")


def main(program, runs="1000", seed="0", workers="64"):
    """Judges all runs, prints a line for each family, and gives the exit status."""
    counts, wrong = {family: Counter() for family in FAMILIES}, []
    with ProcessPoolExecutor(os.cpu_count()) as pool:
        answers = [pool.submit(judged, *report) for report in reports(program, workers, seed, int(runs))]
        for number, answer in enumerate(answers):
            found, counted = answer.result()
            if found != "lawful":
                wrong.append((number, found))
            counts[FAMILIES[number % len(FAMILIES)]].update({"runs": 1, "lawful": found == "lawful", **counted})
    columns = ("runs", "lawful", "marks", "nodes", "workers", "later", "rewired")
    print(f"{'family':12}" + "".join(f"{column:>10}" for column in columns))
    for family, counted in counts.items():
        counted["workers"] = round(counted["workers"] / max(1, counted["runs"]), 1)
        print(f"{family.__name__:12}" + "".join(f"{counted[column]:10}" for column in columns))
    for number, found in wrong:
        print(f"run {number}, {FAMILIES[number % len(FAMILIES)].__name__}: {found}")
    print(f"{runs} runs by {workers} workers, {len(wrong)} not lawful")
    return 1 if wrong else 0


if __name__ == "__main__":
    sys.exit(main(*words_or_usage(__doc__)))
