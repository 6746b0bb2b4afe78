"""How far something has to move to be clear, exactly: in whole lattice steps along an axis. Touching is not clear."""

import itertools
from dataclasses import dataclass
from heapq import heapify, heappop, heappush

from ..geometry import bounds, sides
from .boxes import Box

DIRECTIONS = {"left": (-1, 0), "right": (1, 0), "down": (0, -1), "up": (0, 1)}
MOST_BOXES = 50_000


class Undecided(Exception):
    """More boxes would have to be looked at than are."""


def half_planes(polygon):
    """For each side a triple a, b, c: x, y lies in the closed convex polygon if a * x + b * y <= c for all of them."""
    lines = (((q[1] - p[1]), (p[0] - q[0]), p) for p, q in sides(polygon))
    return [(a, b, a * p[0] + b * p[1]) for a, b, p in lines]


def are_apart(a, b):
    """Whether two closed convex polygons have no point in common: a side of one then has the other beyond it."""
    pairs = ((a, b), (b, a))
    return any(all(n * x + m * y > c for x, y in other) for one, other in pairs for n, m, c in half_planes(one))


def meeting_moves(a, b):
    """Triples n, m, h: b moved by x, y meets the closed convex polygon a if n * x + m * y <= h for all of them."""
    of_a = [(n, m, c - min(n * x + m * y for x, y in b)) for n, m, c in half_planes(a)]
    return of_a + [(-n, -m, c - min(n * x + m * y for x, y in a)) for n, m, c in half_planes(b)]


def moves_out(a, b):
    """For each direction the fewest lattice steps that b, which meets a, has to move so that it does not."""
    triples = meeting_moves(a, b)

    def steps(dx, dy):
        return 1 + min(h // (n * dx + m * dy) for n, m, h in triples if n * dx + m * dy > 0)

    return {name: steps(*direction) for name, direction in DIRECTIONS.items()}


class Zone:
    """The zone of an obstacle, and the number of the obstacle's line."""

    def __init__(self, line, obstacle, polygon):
        self.line, self.obstacle, self.polygon = line, obstacle, polygon
        self.half_planes = half_planes(polygon)
        (left, low), (right, high) = bounds(polygon)
        self.box = Box(left, low, right, high)

    def covers(self, box):
        """Whether all of a box lies in it."""
        return all(-box.least(-a, -b) <= c for a, b, c in self.half_planes)

    def is_apart_from(self, box):
        """Whether no point of a box lies in it."""
        return self.box.cut_to(box).is_empty or any(box.least(a, b) > c for a, b, c in self.half_planes)

    def has(self, p):
        """Whether a point lies in it."""
        return all(a * p[0] + b * p[1] <= c for a, b, c in self.half_planes)


@dataclass(frozen=True)
class Move:
    """A move along an axis: its direction, its lattice steps, and a point that is clear after it."""

    direction: str
    steps: int
    point: tuple


def nearest_clear_box(zones, boxes, steps_to):
    """Of some boxes a part that meets no zone and takes the fewest steps, or None; and zones that cover what is nearer.

    The next box is dropped if a zone covers it, taken if no zone meets it, and halved otherwise; a box of one lattice
    point is never halved.
    """
    count, covering = itertools.count(), set()
    waiting = [(steps_to(box), next(count), box, zones) for box in boxes if not box.is_empty]
    heapify(waiting)
    for _ in range(MOST_BOXES):
        if not waiting:
            return None, covering
        _, _, box, near = heappop(waiting)
        near = [zone for zone in near if not zone.is_apart_from(box)]
        if not near:
            return box, covering
        cover = next((zone for zone in near if zone.covers(box)), None)
        if cover:
            covering.add(cover)
        else:
            for half in box.halves():
                heappush(waiting, (steps_to(half), next(count), half, near))
    raise Undecided


def least_move(zones, room, box):
    """The least move of a box along an axis after which a lattice point of the room in it is in no zone; or None."""
    beside = box.beside(room)
    found, _ = nearest_clear_box(zones, beside.values(), box.steps_to)
    if not found:
        return None
    direction = next(name for name, part in beside.items() if not part.cut_to(found).is_empty)
    point = found.right if direction == "left" else found.left, found.high if direction == "down" else found.low
    return Move(direction, box.steps_to(found), point)
