"""Polygons with fractions for coordinates: whether one crosses itself, its convex parts, and fewer corners round it.

A polygon is a list of corners. No corner is made anew but by `with_fewer_corners`.
"""

from __future__ import annotations

from collections.abc import Sequence
from fractions import Fraction
from math import lcm

from .errors import CrossesItself, NotAShape
from .geometry import contains, hull, orientation, segments_meet, sides

Point = tuple[Fraction, Fraction]
Polygon = list[Point]


def double_area(polygon: Sequence[Point]) -> Fraction:
    """Twice the signed area of a polygon: positive if it runs counterclockwise."""
    return sum((a[0] * b[1] - a[1] * b[0] for a, b in sides(polygon)), Fraction(0))


def cleaned(corners: Sequence[Point]) -> Polygon:
    """The corners counterclockwise, without those that come twice in a row or lie between their neighbours."""
    ring = [p for p, before in zip(corners, [corners[-1], *corners]) if p != before] or list(corners[:1])
    at = 0
    while len(ring) > 2 and at < len(ring):
        before, p, after = ring[at - 1], ring[at], ring[(at + 1) % len(ring)]
        if orientation(before, p, after) == 0 and is_between(before, p, after):
            del ring[at]
            at = max(0, at - 1)
        else:
            at += 1
    if len(ring) < 3:
        raise NotAShape(f"a polygon has three corners at least that do not lie in one line, and here are {len(ring)}")
    return ring if double_area(ring) > 0 else ring[::-1]


def is_between(a: Point, p: Point, b: Point) -> bool:
    """Whether p, which is on the line through a and b, lies between them."""
    return all(min(u, v) <= w <= max(u, v) for u, w, v in zip(a, p, b))


def in_whole_numbers(polygon: Polygon) -> list[tuple[int, int]]:
    """The corners in a unit in which they are whole numbers."""
    scale = lcm(*(coordinate.denominator for p in polygon for coordinate in p))
    return [(int(x * scale), int(y * scale)) for x, y in polygon]


def check_simple(polygon: Polygon) -> None:
    """Refuses a cleaned polygon whose sides meet elsewhere than at the corner of two neighbours."""
    corners = in_whole_numbers(polygon)
    count = len(corners)
    spike = next((i for i in range(count) if orientation(corners[i - 2], corners[i - 1], corners[i]) == 0), None)
    if spike is not None:
        raise CrossesItself(f"the sides of a polygon run back on each other at {shown(polygon[spike - 1])}")
    ordered = sorted((min(a[0], b[0]), max(a[0], b[0]), i) for i, (a, b) in enumerate(sides(corners)))
    for place, (_, right, i) in enumerate(ordered):
        for left, _, j in ordered[place + 1 :]:
            if left > right:
                break
            if (i - j) % count not in (1, count - 1) and sides_meet(corners, i, j):
                raise CrossesItself(f"the sides of a polygon from {shown(polygon[i])} and {shown(polygon[j])} meet")


def sides_meet(corners: Sequence[tuple[int, int]], i: int, j: int) -> bool:
    """Whether the sides from two corners have a point in common."""
    count = len(corners)
    return segments_meet(corners[i], corners[(i + 1) % count], corners[j], corners[(j + 1) % count])


def shown(point: Point) -> str:
    """A point in a message."""
    return f"({float(point[0]):g}, {float(point[1]):g})"


def convex_parts(polygon: Polygon) -> list[Polygon]:
    """The strictly convex parts into which diagonals cut a polygon that is simple and counterclockwise."""
    corners = in_whole_numbers(polygon)
    parts = merged(corners, triangles(corners))
    return [hull([polygon[i] for i in part]) for part in parts]


def triangles(corners: Sequence[tuple[int, int]]) -> list[list[int]]:
    """The corners, by their places, of the triangles that are left by cutting off ears."""
    left, found = list(range(len(corners))), []
    at = 0
    while len(left) > 3:
        at %= len(left)
        ear = [left[at - 1], left[at], left[(at + 1) % len(left)]]
        if is_ear(corners, left, ear):
            found.append(ear)
            del left[at]
            at -= 1
        else:
            at += 1
    return [*found, left]


def is_ear(corners: Sequence[tuple[int, int]], left: list[int], ear: list[int]) -> bool:
    """Whether three neighbours turn left and have no other corner of what is left in their triangle."""
    triangle = [corners[i] for i in ear]
    if orientation(*triangle) <= 0:
        return False
    low, high = ([choose(p[k] for p in triangle) for k in (0, 1)] for choose in (min, max))
    return not any(
        all(low[k] <= corners[i][k] <= high[k] for k in (0, 1)) and contains(triangle, corners[i])
        for i in left
        if i not in ear
    )


def merged(corners: Sequence[tuple[int, int]], parts: list[list[int]]) -> list[list[int]]:
    """Parts that are joined over their diagonals as long as they stay convex (Hertel and Mehlhorn)."""
    owner = {side: number for number, part in enumerate(parts) for side in sides(part)}
    joined: list[list[int]] = [*parts]
    for a, b in list(owner):
        if a > b or (b, a) not in owner:
            continue
        one, two = owner[a, b], owner[b, a]
        both = around(joined[one], a, b)[:-1] + around(joined[two], b, a)[:-1]
        if all(turns_left(corners, both, corner) for corner in (a, b)):
            joined[one], joined[two] = both, []
            owner |= {side: one for side in sides(both)}
    return [part for part in joined if part]


def around(part: list[int], a: int, b: int) -> list[int]:
    """A part from b on, which follows a, to a."""
    place = part.index(b)
    return part[place:] + part[:place]


def turns_left(corners: Sequence[tuple[int, int]], part: list[int], corner: int) -> bool:
    """Whether a part turns left at a corner, or goes straight on."""
    place = part.index(corner)
    return orientation(*(corners[part[(place + k) % len(part)]] for k in (-1, 0, 1))) >= 0


def cut_up(polygon: list, most: int) -> list[list]:
    """Convex parts of at most so many corners of a convex polygon."""
    parts, rest = [], polygon
    while len(rest) > most:
        parts.append(rest[:most])
        rest = [rest[0], *rest[most - 1 :]]
    return [*parts, rest]


def with_fewer_corners(polygon: Polygon, most: int) -> Polygon:
    """A convex polygon of at most so many corners, five or more, round a convex one: sides are left out one by one,
    that first which adds the least area, and their neighbours meet further out."""
    ring = list(polygon)
    while len(ring) > most:
        tips = [(tip_beyond(ring, i), i) for i in range(len(ring))]
        _, tip, i = min((added, tip, i) for found, i in tips if found for tip, added in [found])
        after = (i + 1) % len(ring)
        ring[i] = tip
        del ring[after]
    return ring


def tip_beyond(ring: Polygon, i: int) -> tuple[Point, Fraction] | None:
    """Where the neighbours of the side from a corner meet beyond it, and twice the area that this adds; or None."""
    before, a, b, after = (ring[(i + k) % len(ring)] for k in (-1, 0, 1, 2))
    one, two = (a[0] - before[0], a[1] - before[1]), (b[0] - after[0], b[1] - after[1])
    turn = one[0] * two[1] - one[1] * two[0]
    if turn >= 0:
        return None
    along = ((b[0] - a[0]) * two[1] - (b[1] - a[1]) * two[0]) / turn
    tip = a[0] + along * one[0], a[1] + along * one[1]
    return tip, orientation(b, a, tip)
