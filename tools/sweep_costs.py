#!/usr/bin/env python3
"""Measures what many scenes cost beside their planning: starts, tasks, memory, and how much of four processors is used.

Usage: sweep_costs.py PROGRAM [LIBRARY]. It takes some two minutes on a machine that does nothing else. With LIBRARY,
libkimorefo.so, scenes are planned in process, also by threads; without, by the program.

The first lines have what a scene costs that asks for next to nothing: a start of the program, a call in process, a task
of `sweep.py` on four workers, a job of `tools/sweep/parallel.sh`. Then come scenes of 20,000 marks, by seeds: one
process alone, four threads of a process, four processes without an engine, and four workers of `sweep.py`, in turns,
three times. Each line has the scenes of a second, the median, and their ratio to four times one process alone in the
same turn. Four processes without an engine show what the processors give: less than 1 where they share cores. The last
lines have memory: of a worker, and of the program. It needs python3-distributed; what is missing else is said.
"""

import multiprocessing
import os
import shutil
import subprocess
import sys
import tempfile
import time
from concurrent.futures import ThreadPoolExecutor
from dataclasses import replace
from pathlib import Path
from statistics import median

import extremes
import kimorefo
from counts import written
from kimorefo import library
from sweep_ways import HERE, PACKAGE, SWEEP, python_with_dask
from usage import words_or_usage

SMALLEST = HERE.parent / "examples" / "first.scene"
STARTS, TASKS, JOBS = 200, 1_000, 200
WORKERS, ROUNDS, EACH = 4, 3, 80
MOST_MARKS = 262_143


def seconds_of(call):
    """The seconds that a call takes."""
    begun = time.perf_counter()
    call()
    return time.perf_counter() - begun


def plan(scene):
    """Plans a scene as the package does here."""
    return kimorefo.plan(scene)


def swept(sweep, client, folder, scene, count):
    """The seconds in which `sweep.py` plans a scene by so many seeds."""
    (folder / "one.scene").write_text(scene.text())
    words = sweep.words_of([str(folder / "lines"), "seeds", str(folder / "one.scene"), str(count)])
    with open(words.results, "wb+") as file:
        results = sweep.Results(file, count)
        jobs = sweep.jobs_of(words)
        taken = seconds_of(lambda: sweep.sweep(next(jobs), jobs, sweep.Flight(client, words), results))
    if results.counts["found"] + results.counts["without a path"] != count:
        sys.exit(f"not all scenes were planned: {results}")
    return taken


def starts(program, shared, sweep, client, folder):
    """What a scene costs that asks for next to nothing: names and seconds."""
    text = SMALLEST.read_bytes()
    small = kimorefo.Scene.read(text)
    yield "a start of the program", seconds_of(lambda: [written(program, "plan 1", text) for _ in range(STARTS)]) / STARTS
    yield "a call by the program", seconds_of(lambda: [kimorefo.plan(small, program=program) for _ in range(STARTS)]) / STARTS
    if shared:
        yield "a call in process", seconds_of(lambda: [plan(small) for _ in range(STARTS)]) / STARTS
    drawn = replace(small, marks=1)
    yield f"a task of sweep.py, {WORKERS} workers", swept(sweep, client, folder, drawn, TASKS) / TASKS
    if not shutil.which("parallel"):
        print("skipped GNU parallel: there is no parallel")
        return
    (folder / "many").mkdir()
    for number in range(JOBS):
        (folder / "many" / f"{number}.scene").write_bytes(text)
    words = [HERE / "sweep" / "parallel.sh", program, folder / "many", folder / "reports"]
    yield "a job of parallel.sh", seconds_of(lambda: subprocess.run(words, check=True, capture_output=True)) / JOBS


def throughputs(shared, sweep, client, folder, room):
    """The scenes of a second by each way, in one turn."""
    scenes = [replace(room, seed=seed) for seed in kimorefo.seeds_apart(room, WORKERS * EACH)]
    yield "one process alone", EACH / seconds_of(lambda: list(map(plan, scenes[:EACH])))
    if shared:
        with ThreadPoolExecutor(WORKERS) as threads:
            yield f"{WORKERS} threads", len(scenes) / seconds_of(lambda: list(threads.map(plan, scenes)))
    with multiprocessing.get_context("spawn").Pool(WORKERS) as pool:
        pool.map(plan, scenes[:WORKERS], 1)
        yield f"{WORKERS} processes", len(scenes) / seconds_of(lambda: pool.map(plan, scenes, 1))
    yield f"{WORKERS} workers of sweep.py", len(scenes) / swept(sweep, client, folder, room, len(scenes))


def print_throughputs(*given):
    """Prints the median of the turns, and of the ratios in each."""
    turns = [dict(throughputs(*given)) for _ in range(ROUNDS)]
    print(f"\n{'20,000 marks':28} {'scenes/s':>9} {'to 4 x one alone':>17}")
    for name in turns[0]:
        rates = [turn[name] for turn in turns]
        ratios = [turn[name] / (WORKERS * turn["one process alone"]) for turn in turns]
        print(f"{name:28} {median(rates):9.2f} {median(ratios):17.3f}   of {', '.join(f'{ratio:.3f}' for ratio in ratios)}")


def resident():
    """The megabytes of memory that this process has."""
    return int(Path("/proc/self/statm").read_text().split()[1]) * os.sysconf("SC_PAGE_SIZE") / 2**20


def main(program, shared=None):
    """Prints what all costs."""
    python = python_with_dask()
    if python is None:
        sys.exit("there is no python3-distributed")
    if python != sys.executable:
        os.execv(python, [python, "-B", *sys.argv])
    from distributed import Client

    os.environ |= {"KIMOREFO_PROGRAM": str(Path(program).resolve())} | ({"KIMOREFO_LIB": str(Path(shared).resolve())} if shared else {})
    os.environ["PYTHONPATH"] = os.pathsep.join([str(PACKAGE), str(SWEEP.parent)])
    sys.path[:0] = [str(PACKAGE), str(SWEEP.parent)]
    import sweep

    with tempfile.TemporaryDirectory() as name, Client(n_workers=WORKERS, threads_per_worker=1, dashboard_address="127.0.0.1:0") as client:
        folder = Path(name)
        print(f"{len(os.sched_getaffinity(0))} processors; scenes are planned {'in process' if library.path() else 'by the program'}\n")
        for what, seconds in starts(program, shared, sweep, client, folder):
            print(f"{what:28} {1000 * seconds:9.2f} ms", flush=True)
        room = replace(kimorefo.Scene.read(written(program, "gen 9", b"")), strips=1)
        print_throughputs(shared, sweep, client, folder, room)
        print(f"\n{'a worker of dask':36} {max(client.run(resident).values()):7.0f} MB")
    greatest = extremes.greatest(2).text().encode()
    texts = {"20,000 marks": room.text().encode(), f"{MOST_MARKS:,} marks": replace(room, marks=MOST_MARKS).text().encode()}
    for what, text in (texts | {"the greatest scene": greatest}).items():
        print(f"{'the program, ' + what:36} {extremes.run(program, 'plan 1', text).megabytes:7.0f} MB", flush=True)


if __name__ == "__main__":
    main(*words_or_usage(__doc__))
