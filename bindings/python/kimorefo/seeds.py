"""One scene by several seeds: the best of several runs."""

from __future__ import annotations

import os
from collections.abc import Iterable
from concurrent.futures import ThreadPoolExecutor
from dataclasses import replace
from math import inf
from time import monotonic
from typing import SupportsIndex

from .calls import ProgramPath, planned
from .errors import OutOfTime
from .plans import Plan
from .scenes import Scene, steps

# Mark k is drawn from seed + k. A scene has fewer marks than this, so seeds that lie as far apart share no samples.
APART = 1_000_000
SEEDS = 2**64


def seeds_apart(scene: Scene, count: int) -> tuple[int, ...]:
    """So many seeds that share no samples, that of the scene first."""
    if not 1 <= count <= SEEDS // APART:
        raise ValueError(f"there are 1 to {SEEDS // APART:,} seeds that lie apart, not {count}")
    return tuple((scene.seed + number * APART) % SEEDS for number in range(count))


def best(
    scene: Scene,
    seeds: Iterable[SupportsIndex],
    *,
    smoothed: bool = False,
    threads: int | None = None,
    program: ProgramPath = None,
    seconds: float | None = None,
) -> Plan:
    """The cheapest of the plans of a scene by several seeds, or the first of them; it has the scene with its seed.

    Each run has one worker, and so many run side by side, as many as there are processors if `threads` is left out. A
    run that fails ends the call, and so does the end of `seconds`, which all runs have together.
    """
    scenes, until = seeded(scene, seeds), inf if seconds is None else monotonic() + seconds

    def run(own: Scene) -> Plan:
        left = None if seconds is None else max(until - monotonic(), 1e-3)
        return planned(own, "smooth" if smoothed else "plan", 1, program, left)

    with ThreadPoolExecutor(threads or len(os.sched_getaffinity(0))) as pool:
        try:
            return min(pool.map(run, scenes), key=lambda plan: inf if plan.cost is None else plan.cost)
        except OutOfTime:
            raise OutOfTime(seconds or 0) from None


def seeded(scene: Scene, seeds: Iterable[SupportsIndex]) -> list[Scene]:
    """The scene by each seed. A `ValueError` if there is none, or if two share samples."""
    if not isinstance(scene.marks, int):
        raise ValueError("the marks of the scene are listed: a seed changes nothing")
    scenes = [replace(scene, seed=steps(seed)) for seed in seeds]
    if not scenes:
        raise ValueError("there is no seed")
    rising = sorted(own.seed for own in scenes)
    for low, high in zip(rising, [*rising[1:], rising[0] + SEEDS]):
        if high - low < scene.marks:
            raise ValueError(f"seeds {low} and {high % SEEDS} share samples: `seeds_apart` gives some that do not")
    return scenes
