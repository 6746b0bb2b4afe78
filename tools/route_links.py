"""Which links a route may have: whether the planner, with a node at one end, is sure to follow one to its other end."""

from functools import cache
from math import inf

from kimorefo.geometry import contains, orientation, sides, squared_distance


@cache
def disc(radius):
    """The differences of lattice points within a radius, the shortest first."""
    rows = range(-radius, radius + 1)
    return sorted(((x, y) for x in rows for y in rows if x * x + y * y <= radius * radius), key=lambda d: d[0] ** 2 + d[1] ** 2)


def around(p, radius):
    """The lattice points within a radius of p, the nearest first."""
    return ((p[0] + x, p[1] + y) for x, y in disc(radius))


def is_side_farther(p, a, b, squared):
    """Whether each point of the segment from a to b is farther from p than the root of a number."""
    length = squared_distance(a, b)
    along = (p[0] - a[0]) * (b[0] - a[0]) + (p[1] - a[1]) * (b[1] - a[1])
    if 0 < along < length:
        return orientation(a, b, p) ** 2 > squared * length
    return min(squared_distance(p, a), squared_distance(p, b)) > squared


def is_farther(p, polygon, squared):
    """Whether each point of a closed convex polygon is farther from p than the root of a number."""
    return not contains(polygon, p) and all(is_side_farther(p, a, b, squared) for a, b in sides(polygon))


def are_farther(a, b, squared):
    """Whether two convex polygons that have no point in common are farther apart than the root of a number."""
    corners = ((p, side) for one, other in ((a, b), (b, a)) for p in one for side in sides(other))
    return all(is_side_farther(p, *side, squared) for p, side in corners)


class Links:
    """The links of routes in a scene. One premise may be loosened, by its name (routes.py)."""

    def __init__(self, scene, space, loose=None):
        self.scene, self.space, self.loose = scene, space, loose
        self.longest = scene.step + (loose == "step")
        self.blocked_from = {}

    def first_blocked(self, q):
        """The squared distance of the nearest clear lattice point from which the segment to q is not clear, up to the longest link."""
        if q not in self.blocked_from:
            blocked = (squared_distance(p, q) for p in around(q, self.longest) if self.is_blocked(p, q))
            self.blocked_from[q] = next(blocked, inf)
        return self.blocked_from[q]

    def is_blocked(self, p, q):
        """Whether a lattice point in the disc spoils the links to q that are no shorter."""
        if self.loose == "lattice":
            return not self.space.is_clear(p, p)
        return not self.space.is_clear(p, q) and self.space.is_clear(p, p)

    def may_have(self, a, b):
        """Whether a route may have the link from a to b."""
        squared = squared_distance(a, b)
        if squared > self.longest**2:
            return False
        return self.space.is_clear(a, b) if self.loose == "disc" else squared < self.first_blocked(b)

    def is_seen(self, a, b):
        """Whether a route may have the link from a to b by eye: the disc round b up to a is clear, or b is far from obstacles."""
        squared = squared_distance(a, b)
        if squared > self.scene.step**2 or not self.space.is_clear(b, b):
            return False
        return self.is_disc_clear(b, squared) or (self.scene.clearance == 0 and self.is_far(b, squared))

    def is_disc_clear(self, p, squared):
        """Whether each rational point is clear that is no farther from p than the root of a number."""
        walls = [p[i] - self.space.low[i] for i in (0, 1)] + [self.space.high[i] - p[i] for i in (0, 1)]
        return min(walls) ** 2 >= squared and all(is_farther(p, zone, squared) for zone in self.space.zones)

    def is_far(self, p, squared):
        """Whether the body, clear at p, is farther from all obstacles than the root of a number."""
        body = [(p[0] + x, p[1] + y) for x, y in self.scene.body]
        return all(are_farther(body, obstacle, squared) for obstacle in self.scene.obstacles)
