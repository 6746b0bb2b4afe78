"""What a scene has if nothing else is said."""

from math import isqrt

from .scene_text import KEYS

MARKS = 5_000
(LEAST_STEP, MOST_STEP), (_, MOST_GAMMA) = KEYS[2][b"step"][1], KEYS[2][b"gamma"][1]


def step_for(width: int, height: int) -> int:
    """A tenth of the longer side of a room, in lattice steps."""
    return min(max(LEAST_STEP, max(width, height) // 10), MOST_STEP)


def gamma_for(width: int, height: int) -> int:
    """The least gamma for which RRT* comes ever nearer to the cheapest path, by the area of a room, in lattice steps.

    Karaman and Frazzoli ask for more than the root of 3 A / pi, where A is the free area and the radius at n nodes is
    gamma times the root of ln n / n. Here it has d / 2^(d - 1) under the root, with d the binary digits of n, which is
    at least log2 n / n: so the root of ln 2 * 3 A / pi will do, and 3 ln 2 / pi is less than 0.662.
    """
    return min(isqrt(max(662 * width * height // 1000, 0)) + 1, MOST_GAMMA)
