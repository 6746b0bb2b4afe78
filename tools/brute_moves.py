"""Moves, covered goals and narrow gaps of small scenes, by trying every lattice point, move and pair of sides.

It shares with explain.py what a zone is (geometry.py), and takes no least move from half-planes.
"""

from fractions import Fraction
from itertools import combinations, product

from kimorefo.geometry import contains, segment_meets, sides

WAYS = {"left": (-1, 0), "right": (1, 0), "down": (0, -1), "up": (0, 1)}
AWAY = {"left": (1, 0), "right": (-1, 0), "lower": (0, 1), "upper": (0, -1)}


def moved(points, way, steps):
    """Points moved by so many steps in a way."""
    return [(x + way[0] * steps, y + way[1] * steps) for x, y in points]


def lattice_points(goal, room):
    """The lattice points of a goal that lie in a room."""
    x0, y0, x1, y1 = goal
    return product(range(max(x0, 0), min(x1, room[0]) + 1), range(max(y0, 0), min(y1, room[1]) + 1))


def has_clear_point(space, goal, room):
    """Whether the body is clear at a lattice point of a goal."""
    return any(space.is_clear(p, p) for p in lattice_points(goal, room))


def fewest_steps(space, goal, room):
    """The fewest steps along an axis that move a goal to where it has a clear point; None if none do."""
    corners = [goal[:2], goal[2:]]
    farthest = max(*room, *goal)
    moves = ((steps, way) for steps in range(1, farthest + 1) for way in WAYS.values())
    goals = ((steps, [c for p in moved(corners, way, steps) for c in p]) for steps, way in moves)
    return next((steps for steps, goal in goals if has_clear_point(space, goal, room)), None)


def crossing(a, b, c, d):
    """Where two segments that are not parallel cross, as a list of one point or none."""
    (ux, uy), (vx, vy) = (b[0] - a[0], b[1] - a[1]), (d[0] - c[0], d[1] - c[1])
    turn = ux * vy - uy * vx
    if turn == 0:
        return []
    share = Fraction((c[0] - a[0]) * vy - (c[1] - a[1]) * vx, turn)
    other = Fraction((c[0] - a[0]) * uy - (c[1] - a[1]) * ux, turn)
    return [(a[0] + share * ux, a[1] + share * uy)] if 0 <= share <= 1 and 0 <= other <= 1 else []


def common_points(*polygons):
    """The corners of some polygons, and where sides of two cross: among these are the corners of what they share."""
    corners = [corner for polygon in polygons for corner in polygon]
    pairs = ((side, other) for a, b in combinations(polygons, 2) for side, other in product(sides(a), sides(b)))
    return corners + [p for side, other in pairs for p in crossing(*side, *other)]


def meet(a, b):
    """Whether two closed convex polygons have a point in common."""
    return any(contains(a, p) and contains(b, p) for p in common_points(a, b))


def meet_in_room(a, b, space):
    """Whether they have one in the room of configurations."""
    (left, low), (right, high) = space.low, space.high
    room = [(left, low), (right, low), (right, high), (left, high)]
    points = common_points(a, b, room)
    return any(contains(a, p) and contains(b, p) and space.is_in_room(p) for p in points)


def wall_ends(wall, low, high):
    """Both ends of a wall of a room, or of the same edge of the room of configurations."""
    (left, bottom), (right, top) = low, high
    return {
        "left": ((left, bottom), (left, top)),
        "right": ((right, bottom), (right, top)),
        "lower": ((left, bottom), (right, bottom)),
        "upper": ((left, top), (right, top)),
    }[wall]


def is_narrow_at(wall, obstacle, zone, space, room):
    """Whether the gap between an obstacle in the room and a wall is too narrow."""
    whole = [(0, 0), (room[0], 0), room, (0, room[1])]
    if not meet(obstacle, whole) or segment_meets(obstacle, *wall_ends(wall, (0, 0), room)):
        return False
    return segment_meets(zone, *wall_ends(wall, space.low, space.high))
