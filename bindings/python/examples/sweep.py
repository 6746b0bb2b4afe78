#!/usr/bin/env python3
"""Plans many scenes by the workers of dask.distributed (Debian's python3-distributed), here or on a cluster.

Each scene becomes one line of JSON in RESULTS, as it comes: its name, what it is known by, whether there is a path, its
cost in lattice steps, the counts, the report as the program writes it, and the seconds that it took; or why there is no
plan, with the line and the kind of fault of a refused text.

Started again with the same words, it does what is left alone: a scene is known by its name and a sum over its canonical
text, the words and the version of the planner. A scene that failed, for want of memory or since its worker was killed
time and again, has no line and is tried anew. It ends with 1 if one failed, and with 130 if it was interrupted.

The workers need the package, with the library or the program where the package looks for it; with --seconds, the
program. One worker of the planner plans a scene.
"""

from __future__ import annotations

import argparse
import fcntl
import json
import os
import signal
import sys
import time
from collections import Counter
from collections.abc import Iterator
from dataclasses import dataclass, replace
from hashlib import sha256
from itertools import permutations
from pathlib import Path
from typing import Any, BinaryIO

from distributed import Client, Future, as_completed

import kimorefo

MOST_IN_FLIGHT = 2_000
MOST_BYTES_IN_FLIGHT = 2**28
# Until it is known how long scenes take, few are in flight, each in a task of its own. Then a task has those of a quarter of a second.
FIRST_IN_FLIGHT = 16
TASK_SECONDS = 0.25
MOST_IN_TASK = 64
BAR = 40
BEGIN = b'{"name": '
FAILED, INTERRUPTED = 1, 130
# What a scene is told by, if there is no plan. All else is a failure, which may go another way when it is tried again.
REFUSALS = (kimorefo.Refused, kimorefo.StartBlocked, kimorefo.OutOfTime)


@dataclass(frozen=True)
class Job:
    """A scene with its name, its size in bytes, and what it is known by; or the refusal of its text."""

    name: str
    key: str
    size: int
    scene: kimorefo.Scene | kimorefo.Refused


def words_of(given: list[str]) -> argparse.Namespace:
    """The words of the command line."""
    parser = argparse.ArgumentParser(description=__doc__, formatter_class=argparse.RawDescriptionHelpFormatter)
    parser.add_argument("results", metavar="RESULTS", help="the file of results; the lines that it has stay")
    scenes = parser.add_subparsers(dest="scenes", required=True, metavar="scenes|seeds|pairs")
    add = scenes.add_parser("scenes", help="the files FOLDER/*.scene")
    add.add_argument("folder", metavar="FOLDER", type=Path)
    add = scenes.add_parser("seeds", help="SCENE by COUNT seeds that lie apart, its own first")
    add.add_argument("scene", metavar="SCENE", type=Path)
    add.add_argument("count", metavar="COUNT", type=int)
    add = scenes.add_parser("pairs", help="SCENE from each station to each other")
    add.add_argument("scene", metavar="SCENE", type=Path)
    box = "a file of lines NAME LEFT LOW RIGHT HIGH: the start is the middle of such a box, the goal another box"
    add.add_argument("stations", metavar="STATIONS", type=Path, help=box)
    parser.add_argument("--smooth", action="store_true", help="shorten each path")
    parser.add_argument("--seconds", type=float, help="the most time of a scene")
    parser.add_argument("--program", help="the path of the program, in place of the library")
    parser.add_argument("--scheduler", metavar="ADDRESS", help="that of a cluster, in place of workers on this machine")
    return parser.parse_args(given)


# The scenes


def jobs_of(words: argparse.Namespace) -> Iterator[Job]:
    """All scenes that the words name, in order."""
    head = f"kimorefo {kimorefo.__version__} {'smooth' if words.smooth else 'plan'} 1 seconds {words.seconds}\n".encode()
    for name, given in texts_of(words.folder) if words.scenes == "scenes" else scenes_of(words):
        try:
            scene = kimorefo.Scene.read(given) if isinstance(given, bytes) else given
        except kimorefo.Refused as refused:
            yield Job(name, sha256(head + given).hexdigest(), 0, refused)
        else:
            text = scene.text().encode()
            yield Job(name, sha256(head + text).hexdigest(), len(text), scene)


def texts_of(folder: Path) -> Iterator[tuple[str, bytes]]:
    """The texts of a folder by their names."""
    for file in sorted(folder.glob("*.scene")):
        yield file.stem, file.read_bytes()


def scenes_of(words: argparse.Namespace) -> Iterator[tuple[str, kimorefo.Scene]]:
    """One scene by its seeds, or from each station to each other."""
    try:
        scene = kimorefo.Scene.read(words.scene.read_bytes())
    except kimorefo.Refused as refused:
        sys.exit(f"{words.scene}: {refused}")
    if words.scenes == "seeds":
        for seed in kimorefo.seeds_apart(scene, words.count):
            yield f"seed-{seed}", replace(scene, seed=seed)
        return
    for (name, (left, low, right, high)), (other, goal) in permutations(stations_of(words.stations), 2):
        middle = (left + right) // 2, (low + high) // 2
        yield f"{name}-to-{other}", replace(scene, start=middle, goals=(goal,))


def stations_of(file: Path) -> list[tuple[str, tuple[int, ...]]]:
    """The stations of a file by their names."""
    stations = []
    for number, line in enumerate(file.read_text(encoding="utf-8").splitlines(), 1):
        name, *box = line.partition("#")[0].split() or [""]
        if name and (len(box) != 4 or not all(word.isdecimal() for word in box)):
            sys.exit(f"{file}, line {number}: a station is NAME LEFT LOW RIGHT HIGH, in lattice steps")
        if name:
            stations.append((name, tuple(map(int, box))))
    return stations


def count_of(words: argparse.Namespace) -> int:
    """How many scenes the words name."""
    if words.scenes == "scenes":
        return sum(1 for _ in words.folder.glob("*.scene"))
    count = words.count if words.scenes == "seeds" else len(stations_of(words.stations))
    return count if words.scenes == "seeds" else count * (count - 1)


# What a worker does


def planned_each(jobs: list[Job], *how: Any) -> list[dict[str, Any] | Exception]:
    """The lines of some scenes, or why there is none."""
    lines: list[dict[str, Any] | Exception] = []
    for job in jobs:
        try:
            lines.append(planned(job, *how))
        except Exception as error:  # noqa: BLE001 - a scene that fails takes no other with it
            lines.append(error)
    return lines


def planned(job: Job, smooth: bool, program: str | None, seconds: float | None) -> dict[str, Any]:
    """The line of a scene, or of a refusal."""
    begun = time.perf_counter()
    line: dict[str, Any] = {"name": job.name, "key": job.key, "found": False}
    try:
        if isinstance(job.scene, kimorefo.Refused):
            raise job.scene
        plan = (kimorefo.smooth if smooth else kimorefo.plan)(job.scene, program=program, seconds=seconds)
    except REFUSALS as error:
        place = {"line": error.line, "kind": error.kind} if isinstance(error, kimorefo.Refused) else {}
        line["refusal"] = {"error": type(error).__name__, **place, "said": str(error).splitlines()}
    else:
        cost = None if plan.cost is None else float(plan.cost)
        counts = {what: count for what, count in vars(plan.counts).items() if count is not None}
        line |= {"found": plan.found, "cost": cost, "counts": counts, "report": plan.report}
    return line | {"seconds": round(time.perf_counter() - begun, 6)}


# What comes of it


class Results:
    """The lines of a file, and what they are of all scenes that are looked at: a line is known by a name and a sum."""

    def __init__(self, file: BinaryIO, total: int):
        self.file, self.total, self.counts, self.best = file, total, Counter(), None
        file.seek(0)
        *lines, cut = file.read().split(b"\n")
        try:
            self.known = {(line["name"], line["key"]): line for line in map(json.loads, lines)}
        except (ValueError, TypeError, KeyError):
            sys.exit(f"{file.name} is no file of results")
        if cut[: len(BEGIN)] != BEGIN[: len(cut)]:
            sys.exit(f"{file.name} is no file of results")
        file.truncate(file.tell() - len(cut))

    def take(self, job: Job) -> bool:
        """Whether a scene has a line, which is counted."""
        line = self.known.pop((job.name, job.key), None)
        if line is not None:
            self.count(line)
        return line is not None

    def write(self, line: dict[str, Any]) -> None:
        """Writes a line, whole before the next."""
        self.file.write(json.dumps(line).encode() + b"\n")
        self.file.flush()
        self.count(line)

    def fail(self, job: Job, error: BaseException) -> None:
        """Counts a scene that has failed, and says why."""
        print(f"{job.name} has failed: {type(error).__name__}: {error}", file=sys.stderr)
        self.counts["failed"] += 1

    def count(self, line: dict[str, Any]) -> None:
        """Counts a line, and draws a bar on a terminal."""
        self.counts["refused" if "refusal" in line else "found" if line["found"] else "without a path"] += 1
        if line["found"]:
            own = line["cost"], line["name"]
            self.best = min(self.best or own, own)
        if sys.stderr.isatty():
            done = self.counts.total()
            bar = "#" * (BAR * done // max(self.total, 1))
            print(f"\r[{bar:{BAR}}] {done:,} of {self.total:,} ", end="", file=sys.stderr, flush=True)

    def __str__(self) -> str:
        said = ", ".join(f"{self.counts[what]:,} {what}" for what in ("found", "without a path", "refused", "failed"))
        best = f"; the best is {self.best[1]}, cost {self.best[0]:.2f}" if self.best else ""
        return f"{self.counts.total():,} of {self.total:,} scenes: {said}{best}"


class Flight:
    """The scenes that the workers have: a few thousand at most, so that neither they nor this process hold all."""

    def __init__(self, client: Client, words: argparse.Namespace):
        self.client, self.tasks, self.scenes, self.bytes = client, {}, 0, 0
        self.seconds: float | None = None
        self.how = words.smooth, words.program, words.seconds
        self.coming = as_completed(with_results=True, raise_errors=False)

    def has_room(self) -> bool:
        """Whether one more task may go."""
        most = MOST_IN_FLIGHT if self.seconds else FIRST_IN_FLIGHT
        return self.scenes < most and self.bytes < MOST_BYTES_IN_FLIGHT

    def task_size(self) -> int:
        """How many scenes the next task has, by the seconds that the last scenes took."""
        return max(1, min(MOST_IN_TASK, int(TASK_SECONDS / self.seconds))) if self.seconds else 1

    def start(self, jobs: list[Job]) -> None:
        """Hands scenes to the workers. What they do is the same each time, so a killed one is no loss."""
        future = self.client.submit(planned_each, jobs, *self.how, pure=False)
        self.tasks[future.key] = future, jobs
        self.scenes += len(jobs)
        self.bytes += sum(job.size for job in jobs)
        self.coming.add(future)

    def landed(self) -> Iterator[tuple[list[Job], Future, Any]]:
        """The next tasks that have come back, one at least."""
        for future, result in self.coming.next_batch():
            _, jobs = self.tasks.pop(future.key)
            self.scenes -= len(jobs)
            self.bytes -= sum(job.size for job in jobs)
            yield jobs, future, result

    def look_at_time(self, seconds: float) -> None:
        """Keeps a mean of the seconds of the last scenes, above nothing."""
        self.seconds = max(1e-6, seconds if self.seconds is None else self.seconds + (seconds - self.seconds) / 8)


def task_of(first: Job, jobs: Iterator[Job], size: int) -> tuple[list[Job], Job | None]:
    """The scenes of a task, and the one after them. A text that is refused ends it."""
    task, job = [first], next(jobs, None)
    while job and len(task) < size and not isinstance(job.scene, kimorefo.Refused):
        task.append(job)
        job = next(jobs, None)
    return task, job


def sweep(job: Job | None, jobs: Iterator[Job], flight: Flight, results: Results) -> None:
    """Plans a scene and all after it."""
    while job or flight.tasks:
        if job and flight.has_room():
            if isinstance(job.scene, kimorefo.Refused):
                results.write(planned(job, *flight.how))
                job = next(jobs, None)
            else:
                task, job = task_of(job, jobs, flight.task_size())
                flight.start(task)
            continue
        for task, future, result in flight.landed():
            if future.status == "finished":
                take(task, result, flight, results)
            elif future.status == "error" and len(task) > 1:
                # One of them killed its workers: alone it harms no other.
                for alone in task:
                    flight.start([alone])
            elif future.status == "error":
                results.fail(task[0], result[1])
            else:
                sys.exit(f"{task[0].name}: the scheduler has gone")


def take(task: list[Job], lines: list[dict[str, Any] | Exception], flight: Flight, results: Results) -> None:
    """Writes the lines of a task. If there is no planner, that ends the sweep."""
    for job, line in zip(task, lines, strict=True):
        if isinstance(line, kimorefo.NoPlanner):
            sys.exit(f"{job.name}: {line}")
        if isinstance(line, Exception):
            results.fail(job, line)
        else:
            flight.look_at_time(line["seconds"])
            results.write(line)


def client_of(words: argparse.Namespace) -> Client:
    """The client of a cluster, or of workers on this machine, which nobody reaches from another."""
    here = {"dashboard_address": "127.0.0.1:0", "worker_dashboard_address": "127.0.0.1:0"}
    return Client(words.scheduler) if words.scheduler else Client(**here)


def main() -> int:
    """Plans the scenes that the words name, and gives the exit status."""
    words = words_of(sys.argv[1:])
    signal.signal(signal.SIGTERM, signal.default_int_handler)
    with open(words.results, "ab+") as file:
        try:
            fcntl.flock(file, fcntl.LOCK_EX | fcntl.LOCK_NB)
        except OSError:
            sys.exit(f"another sweep writes {words.results}")
        results = Results(file, count_of(words))
        jobs = (job for job in jobs_of(words) if not results.take(job))
        try:
            first = next(jobs, None)
            if first:
                with client_of(words) as client:
                    sweep(first, jobs, Flight(client, words), results)
        except OSError as fault:
            sys.exit(f"no scheduler answers at {words.scheduler}: {fault}" if words.scheduler else str(fault))
        except KeyboardInterrupt:
            print(f"\nInterrupted; the same words go on. {results}", file=sys.stderr)
            return INTERRUPTED
    print(results)
    return FAILED if results.counts["failed"] else 0


if __name__ == "__main__":
    sys.exit(main())
