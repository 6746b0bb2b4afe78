"""Scenes in real units on the lattice: rounded so that what is clear there is clear in the room as it was given.

All is reckoned in exact fractions. Each corner of the body and of an obstacle moves by half a lattice step at most, in
either coordinate. So if one of the two was rounded, they come nearer by less than a step than they are on the lattice,
and the clearance grows by one; and a body that was rounded keeps half a step from the walls.
"""

from __future__ import annotations

from collections.abc import Iterable, Sequence
from dataclasses import dataclass
from fractions import Fraction
from math import ceil, floor
from typing import Any, SupportsIndex

from . import defaults
from .errors import GoalTooSmall, NotAShape, StartOutside, StepTooShort, TooManyParts, UnitTooLarge, UnitTooSmall
from .frames import Frame
from .geometry import bounds, clipped, hull, orientation
from .polygons import check_simple, cleaned, convex_parts, cut_up, double_area, with_fewer_corners
from .scene_text import KEYS, MOST_CORNERS
from .scenes import Scene
from .shapes import Box, Point, box_of, exact, is_number, point_of, polygons_of, shapes_of, simple_polygons

MOST_SIDE = KEYS[2][b"room"][1][1]
MOST_REACH = KEYS[2][b"obstacle"][1][1]
MOST_BODY = KEYS[2][b"body"][1][1]
MOST_PARTS = KEYS[2][b"obstacle"][2]
MOST_CLEARANCE = KEYS[2][b"clearance"][1][1]
HALF = Fraction(1, 2)
LatticePoint = tuple[int, int]


@dataclass(frozen=True)
class Body:
    """The body on the lattice, whether it was rounded, and what was changed."""

    corners: list[LatticePoint]
    is_rounded: bool
    notes: tuple[str, ...]


def scaled(
    unit: Any,
    *,
    room: Any,
    start: Any,
    goals: Iterable[Any],
    obstacles: Iterable[Any] = (),
    body: Any = ((0, 0),),
    clearance: Any = 0,
    step: Any = None,
    gamma: Any = None,
    marks: SupportsIndex | Iterable[Any] = defaults.MARKS,
    seed: int = 0,
    informed: bool = False,
) -> Scene:
    """The scene on a lattice of steps of a unit, through the start, of what is given in real units.

    Numbers are whole, floats, `Fraction`, `Decimal` or texts such as "0.1". The room and the goals are boxes; a room of
    two numbers begins at 0 0. Obstacles are lists of corners or anything with `__geo_interface__`, and need not be
    convex; the body is the same, with its origin at 0 0, and its convex hull is planned. The clearance is kept along
    the axes. The points of a plan are in real units.
    """
    length = exact(unit)
    if length <= 0:
        raise UnitTooSmall(f"a unit is more than 0, and here it is {unit}")
    own = body_of(body, length)
    frame, size = frame_of(box_of(room, "a room"), point_of(start), length, HALF if own.is_rounded else Fraction(0))
    frame = Frame(frame.unit, frame.corner, own.notes)
    place = lattice_point(frame, point_of(start))
    if not all(0 <= c <= most for c, most in zip(place, size)):
        raise StartOutside("the start does not lie in the room, or nearer to a wall than the body was rounded by")
    polygons, were_rounded = obstacles_of(obstacles, frame, size)
    return Scene(
        room=size,
        start=place,
        goals=[goal_of(goal, frame, size, number) for number, goal in enumerate(goals_of(goals), 1)],
        obstacles=polygons,
        body=own.corners,
        clearance=clearance_of(clearance, length, own.is_rounded or were_rounded),
        step=None if step is None else step_of(step, length),
        gamma=None if gamma is None else min(ceil(exact(gamma) / length), defaults.MOST_GAMMA),
        marks=marks if isinstance(marks, SupportsIndex) else [nearest_mark(frame, size, mark) for mark in marks],
        seed=seed,
        informed=informed,
        frame=frame,
    )


def frame_of(room: Box, start: Point, unit: Fraction, margin: Fraction) -> tuple[Frame, LatticePoint]:
    """The lattice through the start in a room, so many steps inside its walls, and how many steps the room has."""
    low = [ceil((room[k] - start[k]) / unit + margin) for k in (0, 1)]
    high = [floor((room[k + 2] - start[k]) / unit - margin) for k in (0, 1)]
    size = high[0] - low[0], high[1] - low[1]
    if min(size) < 1:
        raise UnitTooLarge(f"the room is {told(size[0])} by {told(size[1])} lattice steps, and needs one each way")
    if max(size) > MOST_SIDE:
        raise UnitTooSmall(f"the room is {told(size[0])} by {told(size[1])} lattice steps, and may have {MOST_SIDE:,}")
    return Frame(unit, (start[0] + low[0] * unit, start[1] + low[1] * unit)), size


def told(number: int) -> str:
    """A number in a message, 0 at least: Python refuses to write one of thousands of digits."""
    return f"{max(number, 0):,}" if number < 2**64 else "more than 2 ** 64"


def on_lattice(frame: Frame, point: Point) -> Point:
    """A point in lattice steps, not rounded."""
    (x, y), (left, low) = point, frame.corner
    return (x - left) / frame.unit, (y - low) / frame.unit


def lattice_point(frame: Frame, point: Point) -> LatticePoint:
    """The lattice point that is nearest to a point."""
    return nearest(on_lattice(frame, point))


def nearest_mark(frame: Frame, size: LatticePoint, mark: Any) -> LatticePoint:
    """The lattice point of the room that is nearest to a sample."""
    x, y = lattice_point(frame, point_of(mark))
    return min(max(x, 0), size[0]), min(max(y, 0), size[1])


def nearest(point: Sequence[Fraction]) -> LatticePoint:
    """The lattice point that is nearest: half a step away at most."""
    x, y = (floor(coordinate + HALF) for coordinate in point)
    return x, y


def is_whole(point: Point) -> bool:
    """Whether a point is one of the lattice."""
    return all(coordinate.denominator == 1 for coordinate in point)


def rounded(polygon: Sequence[Point]) -> list[LatticePoint]:
    """The strict hull of the rounded corners of a polygon; with a corner more if it would have no area."""
    corners = list(map(nearest, polygon))
    ring = hull(corners) or corners[:1]
    while len(ring) < 3:
        ring = hull([*ring, beside(ring)])
    return ring


def beside(ring: list[LatticePoint]) -> LatticePoint:
    """A lattice point beside one or two others, not in line with them."""
    x, y = ring[0]
    candidates = ((x + 1, y), (x, y + 1))
    return next(p for p in candidates if len(ring) == 1 or orientation(ring[0], ring[1], p) != 0)


def body_of(given: Any, unit: Fraction) -> Body:
    """The body on the lattice: one convex polygon round all that is given, or a point."""
    polygons = polygons_of(given)
    notes = []
    whole = hull([corner for polygon in polygons for corner in polygon]) or polygons[0][:1]
    if len(polygons) > 1 or not is_convex(polygons[0], whole):
        notes.append("The body is not one convex polygon: its convex hull is planned.")
    most = MOST_CORNERS[b"body"]
    if len(whole) > most:
        notes.append(f"The body has {len(whole)} corners: a polygon of {most} round it is planned.")
        whole = with_fewer_corners(whole, most)
    corners = [(x / unit, y / unit) for x, y in whole]
    ring = list(dict.fromkeys(map(nearest, corners)))
    ring = ring if len(ring) == 1 else rounded(corners)
    reach = max(abs(coordinate) for corner in ring for coordinate in corner)
    if reach > MOST_BODY:
        raise UnitTooSmall(f"the body reaches {told(reach)} lattice steps from its origin, and may reach {MOST_BODY:,}")
    return Body(ring, not all(map(is_whole, corners)), tuple(notes))


def is_convex(polygon: list[Point], around: list[Point]) -> bool:
    """Whether a polygon, or a point or a rod, is its own hull; an error if it crosses itself."""
    if len(around) < 3:
        return True
    ring = cleaned(polygon)
    check_simple(ring)
    return double_area(ring) == double_area(around)


def obstacles_of(given: Any, frame: Frame, size: LatticePoint) -> tuple[list[list[LatticePoint]], bool]:
    """The obstacles on the lattice, each strictly convex, and whether one of them was rounded."""
    parts = [part for shape in shapes_of(given) for part in parts_of(shape, frame, size)]
    polygons = [piece for part in parts for piece in cut_up(rounded(part), MOST_CORNERS[b"obstacle"])]
    if len(polygons) > MOST_PARTS:
        more = len(polygons) - MOST_PARTS
        raise TooManyParts(f"the obstacles are {len(polygons):,} convex parts, {more:,} more than {MOST_PARTS:,}")
    return polygons, not all(is_whole(corner) for part in parts for corner in part)


def parts_of(shape: Any, frame: Frame, size: LatticePoint) -> list[list[Point]]:
    """The convex parts of a shape in lattice steps, without those that the clearance keeps outside of the room."""
    polygons = [[on_lattice(frame, corner) for corner in polygon] for polygon in simple_polygons(shape)]
    parts = [part for polygon in polygons for part in convex_parts(polygon)]
    return [near for part in parts if len(near := near_room(part, size)) >= 3]


def near_room(part: list[Point], size: LatticePoint) -> list[Point]:
    """A part, if it comes near the room; cut off where it is too far away to be written, and empty if it does not."""
    low, high = (-MOST_CLEARANCE - 1,) * 2, tuple(side + MOST_CLEARANCE + 1 for side in size)
    (left, bottom), (right, top) = bounds(part)
    if right < low[0] or top < low[1] or left > high[0] or bottom > high[1]:
        return []
    if max(-left, -bottom, right, top) <= MOST_REACH:
        return part
    return hull(clipped(part, low, high))


def goals_of(given: Any) -> list[Any]:
    """The goals of a list, or the one that is given in its place."""
    goals = shapes_of(given)
    return [goals] if len(goals) == 4 and all(map(is_number, goals)) else goals


def goal_of(given: Any, frame: Frame, size: LatticePoint, number: int) -> tuple[int, int, int, int]:
    """The lattice points of the room in a goal, which is the one of a number."""
    x0, y0, x1, y1 = box_of(given, "a goal")
    low, high = on_lattice(frame, (x0, y0)), on_lattice(frame, (x1, y1))
    left, bottom = (max(0, ceil(coordinate)) for coordinate in low)
    right, top = (min(most, floor(coordinate)) for coordinate, most in zip(high, size))
    if left > right or bottom > top:
        raise GoalTooSmall(f"no lattice point of the room lies in goal {number}: make it larger, or the unit smaller")
    return left, bottom, right, top


def clearance_of(given: Any, unit: Fraction, was_rounded: bool) -> int:
    """The clearance in lattice steps, one more if the body or an obstacle was rounded."""
    clearance = exact(given)
    if clearance < 0:
        raise NotAShape(f"a clearance is not less than 0, and here it is {given}")
    steps = ceil(clearance / unit) + was_rounded
    if steps > MOST_CLEARANCE:
        raise UnitTooSmall(f"the clearance is {told(steps)} lattice steps, and may be {MOST_CLEARANCE:,}")
    return steps


def step_of(given: Any, unit: Fraction) -> int:
    """The longest edge in lattice steps."""
    steps = floor(exact(given) / unit)
    if steps < defaults.LEAST_STEP:
        needed = f"{defaults.LEAST_STEP}: choose a smaller unit"
        raise StepTooShort(f"a step is {told(steps)} lattice steps, and needs {needed}")
    return min(steps, defaults.MOST_STEP)
