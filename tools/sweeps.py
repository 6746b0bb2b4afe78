#!/usr/bin/env python3
"""Tries the ways of docs/many-scenes.md to plan many scenes: dask.distributed, GNU parallel and Slurm.

Usage: sweeps.py PROGRAM [COUNT [LIBRARY [dask|parallel|slurm..]]]. It makes so many scenes (2,000 if left out, 400 at least), of which a tenth is
refused and the last is of the greatest size there is, and plans each by the built program. Then it plans them by each
way: that is interrupted twice, once as by a terminal and once without a word, started again, two of its workers are
killed by their ids meanwhile, and it ends. It looks
- whether each scene has its report, byte for byte, or its refusal, once;
- whether what was done stays, a cut last line is dropped, and a finished sweep does nothing more;
- whether `sweep.py` plans one scene by seeds, between stations, in little time, and says what `kimorefo.best` says.

With LIBRARY the workers of dask plan in their own processes, by libkimorefo.so; `-` stands for none. GNU parallel plans every fourth scene,
since it takes long to start each. Slurm's daemons are started here, on the loopback address, and stopped by their ids;
that needs root. It says what it skips where an engine is missing. It ends with 1 if anything was wrong.
"""

import fcntl
import os
import shutil
import signal
import subprocess
import sys
import tempfile
import time
from collections import Counter
from concurrent.futures import ThreadPoolExecutor
from dataclasses import replace
from itertools import permutations
from pathlib import Path

import extremes
import kimorefo
import make_scenes
from sweep_ways import Cluster, Dask, Parallel, Slurm, missing_of_slurm, processes, python_with_dask, wait_until
from usage import words_or_usage

HALL = Path(__file__).resolve().parent.parent / "examples" / "hall.scene"
BOXES = {"dock": (27500, 1000, 29000, 2500), "west": (1000, 5000, 2000, 6000), "north": (26000, 17000, 28000, 19000)}
STATIONS = "dock 27500 1000 29000 2500\n# two more\nwest 1000 5000 2000 6000\n\nnorth 26000 17000 28000 19000 # high\n"
MARKS, MOST_MARKS = 500, 262_143


class Checks:
    """How many things were looked at, what was wrong, and what was skipped."""

    def __init__(self):
        self.counts, self.wrong, self.skipped = Counter(), [], []

    def note(self, what, name, is_right):
        """Counts one thing, and keeps it if it is wrong."""
        self.counts[what] += 1
        if not is_right:
            self.wrong.append(f"{what}: {name}")


def texts_of(count):
    """So many scenes by their names: every tenth is refused, and the last is of the greatest size."""
    numbers = iter(range(10**9))
    for place in range(count - 1):
        version = 1 + place % 2
        if place % 10 == 0:
            texts = (make_scenes.with_faults(number, version) for number in numbers)
            yield f"faulty-{place:06}", next(text for text in texts if is_refused(text))
        else:
            yield f"small-{place:06}", make_scenes.scene_of(next(numbers), version).text().encode()
    yield "the-greatest", extremes.greatest(2).text().encode()


def is_refused(text):
    """Whether a text is refused."""
    try:
        kimorefo.Scene.read(text)
    except kimorefo.Refused:
        return True
    return False


def written(program, text, words="plan 1"):
    """What the program writes."""
    return subprocess.run([program, *words.split()], input=text, capture_output=True, check=False).stdout


def look_at_way(checks, way, wanted):
    """Interrupts a way twice, kills two of its workers, and looks at what it has made in the end."""
    name = type(way).__name__
    for stop in (way.interrupt, way.cut_off):
        before = way.reports()
        start(checks, way, wanted, 5)
        workers = way.workers()
        status = stop()[0]
        checks.note("an interruption", f"{name}: status {status}", status != 0 and way.done() < len(wanted))
        wait_until(lambda: not set(workers) & set(processes()), "the end of the workers")
        now = way.reports()
        checks.note("what stays", name, all(now.get(scene) == report for scene, report in before.items()))
        way.spoil()
    start(checks, way, wanted, 10)
    for number in range(2):
        checks.note("a killed worker", f"{name}, {number}", way.kill_worker())
        if not way.goes_on:
            checks.note("a killed worker", f"{name}, the status", way.end()[0] != 0)
            way.start()
    ended = way.end()
    checks.note("an end", f"{name}: {ended}", ended[0] == 0)
    reports = way.reports()
    for scene, report in wanted.items():
        checks.note(f"a report by {name}", scene, reports.get(scene) == report)
    checks.note("each scene once", name, way.done() == len(wanted))
    before = way.results.read_bytes() if isinstance(way, Dask) else way.reports()
    way.start()
    again = way.end()
    checks.note("nothing more to do", f"{name}: {again}", again[0] == 0 and (again[1] == ended[1] or not isinstance(way, Dask)))
    checks.note("what stays", name, before == (way.results.read_bytes() if isinstance(way, Dask) else way.reports()))
    return ended[1]


def start(checks, way, wanted, part):
    """Starts a way, and waits until one in so many of the scenes that are left is done, however fast the machine is."""
    more = (len(wanted) - way.done()) // part
    least = way.done() + more
    way.start()
    wait_until(lambda: way.done() >= least or way.running.poll() is not None, f"{more} scenes more")
    checks.note("a start", f"{type(way).__name__}, {more}", way.running.poll() is None)


def look_at_summary(checks, said, wanted):
    """Looks what `sweep.py` says at the end."""
    begins = Counter(report.split(b" ", 1)[0] for report in wanted.values())
    costs = [int(report.split(maxsplit=4)[3]) for report in wanted.values() if report.startswith(b"path ")]
    head = f"{len(wanted):,} of {len(wanted):,} scenes: {begins[b'path']:,} found, {begins[b'no']:,} without a path, "
    tail = f"{begins[b'line'] + begins[b'start']:,} refused, 0 failed; the best is "
    right = said.startswith(head + tail) and said.endswith(f", cost {min(costs) / 256:.2f}\n")
    checks.note("a summary", said, right and min(begins[b"path"], begins[b"no"], begins[b"start"]) > 0)
    checks.note("a tenth is refused", begins, begins[b"line"] == len(wanted) // 10)


def look_at_seeds_and_pairs(checks, way_of, folder):
    """Looks at one scene by seeds, and from each station to each other."""
    hall = replace(kimorefo.Scene.read(HALL.read_bytes()), marks=MARKS)
    scene, stations = folder / "hall", folder / "stations"
    scene.write_text(hall.text())
    stations.write_text(STATIONS)
    seeds = kimorefo.seeds_apart(hall, 6)
    middle = {name: ((box[0] + box[2]) // 2, (box[1] + box[3]) // 2) for name, box in BOXES.items()}
    pairs = {(one, other): (middle[one], BOXES[other]) for one, other in permutations(BOXES, 2)}
    asked = {
        ("seeds", scene, "6"): {f"seed-{seed}": replace(hall, seed=seed) for seed in seeds},
        ("pairs", scene, stations): {
            f"{one}-to-{other}": replace(hall, start=start, goals=(goal,)) for (one, other), (start, goal) in pairs.items()
        },
    }
    for words, scenes in asked.items():
        way = way_of(words, "--smooth")
        way.start()
        ended = way.end()
        wanted = {name: written(way.program, own.text().encode(), "smooth 1") for name, own in scenes.items()}
        checks.note(words[0], ended, ended[0] == 0 and way.reports() == wanted and way.done() == len(wanted))
    best = kimorefo.best(hall, seeds, smoothed=True, program=way.program)
    costs = {line["name"]: line["cost"] for line in way_of(("seeds", scene)).lines() if line["found"]}
    least = min((f"seed-{seed}" for seed in seeds if f"seed-{seed}" in costs), key=lambda name: costs[name])
    checks.note("the best", f"{best} {costs}", (f"seed-{best.scene.seed}", float(best.cost)) == (least, costs[least]))


def look_at_limits(checks, way_of, folder):
    """Looks at a scene that has too little time, at a file that another sweep writes, and at a planner that is not there."""
    scene, words = folder / "long", ("seeds", folder / "long", "2")
    way = way_of(words, "--seconds", "0.05")
    long = kimorefo.Scene.read(written(way.program, b"", "gen 9"))
    scene.write_text(replace(long, marks=MOST_MARKS, strips=1).text())
    with open(way.results, "ab") as file:
        fcntl.flock(file, fcntl.LOCK_EX)
        way.start()
        ended = way.end()
    checks.note("a second sweep", ended, ended[0] == 1 and "another sweep writes" in ended[2])
    for _ in range(2):
        way.start()
        ended = way.end()
        refused = [line["refusal"]["error"] for line in way.lines()]
        checks.note("a limit of time", ended, ended[0] == 0 and refused == ["OutOfTime"] * 2 and "2 refused" in ended[1])
    gone = way_of(words, "--program", "/gone")
    before = gone.done()
    gone.start()
    ended = gone.end()
    checks.note("no planner", ended, ended[0] == 1 and "there is no program" in ended[2] and gone.done() == before)


def look_at_dask(checks, program, scenes, folder, wanted):
    """Looks at `sweep.py`."""
    python = python_with_dask()
    if python is None:
        checks.skipped.append("sweep.py: there is no python3-distributed")
        return
    way = Dask(python, program, scenes, folder / "lines")
    try:
        look_at_summary(checks, look_at_way(checks, way, wanted), wanted)
    finally:
        way.close()
    look_at_cluster(checks, python, program, scenes, folder)


def look_at_cluster(checks, python, program, scenes, folder):
    """Looks at `sweep.py` beside a scheduler and a worker."""
    cluster = Cluster(program)

    def way_of(words, *options):
        return Dask(python, program, scenes, folder / f"{words[0]}-{words[1].name}.lines", words, ("--scheduler", cluster.address, *options))

    try:
        cluster.open()
        look_at_seeds_and_pairs(checks, way_of, folder)
        look_at_limits(checks, way_of, folder)
    finally:
        cluster.close()


def look_at_parallel(checks, program, scenes, folder, wanted):
    """Looks at GNU parallel."""
    if shutil.which("parallel") is None:
        checks.skipped.append("GNU parallel: there is no parallel")
        return
    own = folder / "own"
    own.mkdir()
    names = list(wanted)[::-4][::-1]
    for name in names:
        os.link(scenes / f"{name}.scene", own / f"{name}.scene")
    way = Parallel(program, own, folder / "reports")
    try:
        look_at_way(checks, way, {name: wanted[name] for name in names})
    finally:
        way.close()


def look_at_slurm(checks, program, scenes, folder, wanted):
    """Looks at Slurm."""
    missing = missing_of_slurm()
    if missing:
        checks.skipped.append(f"Slurm: {missing}")
        return
    (folder / "slurm").mkdir()
    way = Slurm(program, scenes, folder / "reports", folder / "slurm")
    try:
        way.open()
        look_at_way(checks, way, wanted)
    finally:
        way.close()


LOOKS = {"dask": look_at_dask, "parallel": look_at_parallel, "slurm": look_at_slurm}


def main(program, count="2000", library="-", *ways):
    """Looks at all ways, or at some, and gives the exit status."""
    # What is started here can be interrupted, though this may run in the background.
    signal.signal(signal.SIGINT, signal.default_int_handler)
    checks, begun = Checks(), time.monotonic()
    with tempfile.TemporaryDirectory() as name:
        top = Path(name)
        scenes = top / "scenes"
        scenes.mkdir()
        for scene, text in texts_of(int(count)):
            (scenes / f"{scene}.scene").write_bytes(text)
        names = sorted(file.stem for file in scenes.iterdir())
        with ThreadPoolExecutor(4) as pool:
            reports = pool.map(lambda scene: written(program, (scenes / f"{scene}.scene").read_bytes()), names)
            wanted = dict(zip(names, reports))
        if library != "-":
            os.environ |= {"KIMOREFO_LIB": str(Path(library).resolve()), "KIMOREFO_STAND_IN": str(Path(program).resolve())}
        else:
            checks.skipped.append("workers that plan in their own process: no library is named")
        for way in ways or LOOKS:
            print(f"{way}, after {time.monotonic() - begun:.0f} s", flush=True)
            look, folder = LOOKS[way], top / way
            folder.mkdir()
            copy = shutil.copy(program, folder / "planner_main")
            look(checks, copy, scenes, folder, wanted)
    for line in [*checks.wrong, *(f"skipped {what}" for what in checks.skipped)]:
        print(line)
    for what, number in checks.counts.items():
        print(f"{what}: {number}")
    print(f"{checks.counts.total()} checks, {len(checks.wrong)} wrong, {time.monotonic() - begun:.0f} s")
    return 1 if checks.wrong else 0


if __name__ == "__main__":
    sys.exit(main(*words_or_usage(__doc__)))
