#!/usr/bin/env python3
"""Plans random scenes in real units by the Python package, and looks whether each path is clear in the room as given.

Usage: real_units.py PROGRAM FIRST COUNT [bugs]. Rooms, bodies, obstacles, clearances and units are random: floats,
fractions and decimal texts; polygons with dents, clockwise, thin or smaller than a step; bodies that are points, rods,
no convex polygon, or have many corners. All is held against exact fractions, and apart from the lattice:
- the hull of the body, swept along each edge of a path and grown by the clearance, meets no obstacle and no wall;
- a path begins at the start, and ends in a goal;
- the convex parts of a polygon have its corners and its area, and no side of it goes through one.

With `bugs`, the rules of rounding are broken one by one, and each is to be found. It ends with a line of counts, and
with 1 if anything was wrong.
"""

import random
import sys
from collections import Counter
from decimal import Decimal
from fractions import Fraction
from math import cos, lcm, pi, sin
from unittest import mock

import kimorefo
from kimorefo import units
from kimorefo.geometry import bounds, contains, hull, is_beside, is_strictly_convex, orientation, segments_meet, sides
from kimorefo.polygons import convex_parts, double_area
from kimorefo.shapes import exact, simple_polygons
from usage import words_or_usage

SPANS = (Fraction(1, 100), Fraction(1), Fraction(40), Fraction(3000))
MARKS = 400


class Spelling:
    """How a user gives numbers: as floats, texts, decimals or fractions, on a grid or nearly as they are."""

    def __init__(self, rng, unit):
        self.rng = rng
        self.grid = Fraction(unit) / rng.choice([1, 2, 3, 100, 1000, 1000, 10**6])

    def number(self, number):
        """A number, spelled."""
        whole = round(Fraction(number) / self.grid) * self.grid
        return self.rng.choice([float(number), float(whole), whole, whole, str(whole), Decimal(repr(float(whole)))])

    def points(self, points):
        """Points, spelled."""
        return [(self.number(x), self.number(y)) for x, y in points]


def star(rng, corners, size, dented):
    """Corners round 0 0 in their order: of a polygon with dents, or of one that is nearly round."""
    angles = sorted(rng.uniform(0, 2 * pi) for _ in range(corners))
    far = [size * (rng.uniform(0.2, 1) if dented else 1) for _ in angles]
    return [(r * cos(angle), r * sin(angle)) for r, angle in zip(far, angles)]


def obstacle(rng, width, height, unit):
    """The corners of a random obstacle."""
    size = rng.choice([0.3 * unit, 3 * unit, 10 * unit, min(width, height) / 8, min(width, height) / 4])
    corners = star(rng, rng.choice([3, 4, 5, 8, 16, 30, 90]), size, rng.random() < 0.6)
    x, y, thin = rng.uniform(0, width), rng.uniform(0, height), rng.choice([1, 1, 1, 0.05])
    points = [(x + dx, y + thin * dy) for dx, dy in corners]
    return points if rng.random() < 0.7 else points[::-1]


def body(rng, unit):
    """The corners of a random body."""
    size = unit * rng.choice([0.2, 1, 4, 8])
    kind = rng.choice(["point", "rod", "square", "round", "dented", "many"])
    half = size / 2
    return {
        "point": [(0, 0)],
        "rod": [(-size, 0), (size, half)],
        "square": [(-half, -half), (half, -half), (half, half), (-half, half)],
        "round": star(rng, 16, size, False),
        "dented": star(rng, 7, size, True),
        "many": [(size * cos(k * pi / 20), size * sin(k * pi / 20)) for k in range(40)],
    }[kind]


def is_simple(corners):
    """Whether the sides of a polygon meet at its corners alone, once they are spelled."""
    try:
        return bool(simple_polygons(corners))
    except kimorefo.ShapeError:
        return False


def given_scene(seed):
    """A unit and the other arguments of `Scene.scaled`, at random."""
    rng = random.Random(f"real units {seed}")
    unit = float(rng.choice(SPANS)) / rng.choice([7, 10, 64])
    width, height = (unit * rng.uniform(40, 160) for _ in "xy")
    left, low = rng.choice([(0, 0), (rng.uniform(-width, width), rng.uniform(-height, height))])
    at = lambda x, y: (left + x, low + y)
    x, y = (rng.uniform(0.1, 0.7) * side for side in (width, height))
    goal = (*at(x, y), *at(x + width / 5, y + height / 5))
    obstacles = [[at(*p) for p in obstacle(rng, width, height, unit)] for _ in range(rng.choice([0, 3, 6, 12]))]
    spelling = Spelling(rng, unit)
    number, points = spelling.number, spelling.points
    start = at(rng.uniform(0.05, 0.95) * width, rng.uniform(0.05, 0.95) * height)
    return rng.choice([unit, Fraction(unit), repr(unit)]), {
        "room": [number(c) for c in (left, low, *at(width, height))],
        "start": points([start])[0],
        "goals": [[number(c) for c in goal]],
        "obstacles": [corners for corners in map(points, obstacles) if is_simple(corners)],
        "body": points(body(rng, unit)),
        "clearance": rng.choice([0, 0, number(rng.uniform(0, 4) * unit)]),
        "marks": MARKS,
        "seed": seed * 1000,
    }


class Room:
    """What was given, in a unit in which all of it and the points of a path are whole numbers."""

    def __init__(self, given, points):
        exactly = lambda corners: [(exact(x), exact(y)) for x, y in corners]
        (x0, y0), (x1, y1) = exactly([given["room"][:2], given["room"][2:]])
        margin, goal = exact(given["clearance"]), given["goals"][0]
        shapes = [exactly(shape) for shape in given["obstacles"]]
        own, ends = exactly(given["body"]), exactly([goal[:2], goal[2:]])
        every = [[(x0, y0), (x1, y1), (margin, margin)], own, ends, exactly([given["start"]]), points, *shapes]
        scale = lcm(*(c.denominator for row in every for point in row for c in point))
        whole = [[tuple(int(c * scale) for c in point) for point in row] for row in every]
        (self.low, self.high, (self.margin, _)), body_corners, self.goal, (self.start,), self.path, *self.shapes = whole
        self.body = hull(body_corners) or body_corners[:1]
        self.boxes = [bounds(shape) for shape in self.shapes]

    def fault(self):
        """What is wrong with the path, or an empty text."""
        low, high = self.goal
        if self.path[0] != self.start or not all(a <= c <= b for a, c, b in zip(low, self.path[-1], high)):
            return "it does not lead from the start into the goal"
        edges = zip(self.path, self.path[1:] or self.path)
        return next((fault for edge in edges if (fault := self.fault_of(edge))), "")

    def fault_of(self, edge):
        """What is wrong with an edge, or an empty text."""
        swept = [(x + dx, y + dy) for x, y in edge for dx, dy in self.body]
        low, high = bounds(swept)
        if not all(self.low[k] <= low[k] and high[k] <= self.high[k] for k in (0, 1)):
            return "the body leaves the room"
        m = self.margin
        around = hull([(x + dx, y + dy) for x, y in swept for dx in (-m, m) for dy in (-m, m)]) or swept[:1]
        near = [s for s, box in zip(self.shapes, self.boxes) if not is_beside(box, *bounds(around))]
        return "the body meets an obstacle" if any(meet(around, shape) for shape in near) else ""


def meet(convex, polygon):
    """Whether a closed convex polygon, a segment or a point meets a closed polygon, which may have dents."""
    if any(segments_meet(a, b, c, d) for a, b in sides(convex) for c, d in sides(polygon)):
        return True
    return lies_in(polygon, convex[0]) or (len(convex) > 2 and contains(convex, polygon[0]))


def lies_in(polygon, p):
    """Whether a point that is on no side lies in a polygon: by the sides that a ray to the right crosses."""
    crossed = [(a, b) for a, b in sides(polygon) if (a[1] > p[1]) != (b[1] > p[1])]
    return sum((orientation(a, b, p) > 0) == (b[1] > a[1]) for a, b in crossed) % 2 == 1


def fault_of_parts(shape):
    """What is wrong with the convex parts of a shape, or an empty text."""
    for polygon in simple_polygons(shape):
        parts = convex_parts(polygon)
        if sum(map(double_area, parts)) != double_area(polygon):
            return "the parts have another area"
        if not all(is_strictly_convex(part) and set(part) <= set(polygon) for part in parts):
            return "a part is not convex, or has a new corner"
    return ""


def look_at(number, program, counts):
    """Plans the scene of a number, and gives what is wrong."""
    unit, given = given_scene(number)
    try:
        scene = kimorefo.Scene.scaled(unit, **given)
    except kimorefo.ShapeError as fault:
        counts[type(fault).__name__] += 1
        return ""
    counts["scenes"] += 1
    counts["polygons"] += len(given["obstacles"])
    parts = next(filter(None, map(fault_of_parts, given["obstacles"])), "")
    try:
        plan = (kimorefo.smooth if number % 2 else kimorefo.plan)(scene, program=program)
    except kimorefo.StartBlocked:
        counts["blocked starts"] += 1
        return parts
    if not plan.found:
        counts["no path"] += 1
        return parts
    counts["paths"] += 1
    counts["edges"] += len(plan.points) - 1
    return parts or Room(given, list(plan.points)).fault()


# What a rule of rounding is replaced by, and what it was.
BUGS = {
    "no clearance more": ("clearance_of", lambda given, unit, was_rounded: -(-exact(given) // unit)),
    "no half step at the walls": ("HALF", Fraction(0)),
    "corners on every second point": ("nearest", lambda point: tuple(2 * round(c / 2) for c in point)),
    "polygons that collapse are dropped": ("near_room", lambda part, size: part if area_left(part) else []),
}


def area_left(part):
    """Whether a polygon has an area once it is rounded."""
    return len(hull([units.nearest(corner) for corner in part])) > 2


def main(program, first, count, *bugs):
    """Looks at so many scenes, and gives the exit status."""
    numbers = range(int(first), int(first) + int(count))
    if bugs:
        for name, (rule, other) in BUGS.items():
            with mock.patch.object(units, rule, other):
                found = sum(bool(look_at(number, program, Counter())) for number in numbers)
            print(f"{name}: found {found} times")
        return 0
    counts, wrong = Counter(), {}
    for number in numbers:
        fault = look_at(number, program, counts)
        if fault:
            wrong[number] = fault
    for number, fault in wrong.items():
        print(f"scene {number}: {fault}")
    print(", ".join(f"{count} {name}" for name, count in counts.items()) + f", {len(wrong)} wrong")
    return 1 if wrong else 0


if __name__ == "__main__":
    sys.exit(main(*words_or_usage(__doc__)))
