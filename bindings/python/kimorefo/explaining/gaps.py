"""Gaps that are too narrow for the body: between two obstacles, or an obstacle and a wall, that do not meet.

A zone is where the body's origin may not be, for an obstacle. The room of configurations is where the whole body fits
in the room. Where two zones meet, or a zone and an edge of that room, the body cannot pass between. That says nothing
of other ways.
"""

from dataclasses import dataclass, field
from fractions import Fraction
from itertools import islice, takewhile

from ..geometry import sides
from .moves import are_apart, moves_out

# So many pairs of zones whose bounding boxes meet are looked at, and the others left out.
MOST_PAIRS = 20_000
# The walls, and which way an obstacle moves away from each.
WALLS = {"left": "right", "right": "left", "lower": "up", "upper": "down"}


@dataclass(frozen=True)
class Gap:
    """A gap beside the obstacle of a line, and the other obstacle's line or the wall.

    To be wide enough it lacks so many lattice steps in a direction: in that of the other obstacle, or away from the
    wall. What both zones, or the zone and the edge, have in common is what a polygon has within half-planes.
    """

    line: int
    other: int | str
    lacking: int
    direction: str
    polygon: list = field(repr=False)
    half_planes: list = field(repr=False)

    @property
    def order(self):
        """What it is sorted by: what it lacks, then the lines, walls first."""
        return self.lacking, self.line, (0, self.other) if isinstance(self.other, str) else (1, self.other)

    @property
    def point(self):
        """The middle of what they have in common, rounded down."""
        corners = part_within(self.polygon, self.half_planes)
        return tuple(int(sum(coordinates) // len(corners)) for coordinates in zip(*corners))


def part_within(polygon, half_planes):
    """The corners of what a convex polygon, or a segment, has within half-planes; none if it has nothing there."""
    for half_plane in half_planes:
        polygon = part_of(polygon, *half_plane)
    return polygon


def part_of(polygon, a, b, c):
    """The same within one half-plane."""
    kept = []
    for p, q in sides(polygon):
        depth, next_depth = c - a * p[0] - b * p[1], c - a * q[0] - b * q[1]
        if depth >= 0:
            kept.append(p)
        if depth * next_depth < 0:
            share = Fraction(depth, depth - next_depth)
            kept.append(tuple(u + (v - u) * share for u, v in zip(p, q)))
    return kept


def near_pairs(zones, room):
    """The pairs of zones whose bounding boxes have a point of the room in common, from left to right."""
    ordered = sorted((zone for zone in zones if not zone.is_apart_from(room)), key=lambda zone: zone.box.left)
    for i, zone in enumerate(ordered):
        later = takewhile(lambda other: other.box.left <= zone.box.right, islice(ordered, i + 1, None))
        common = zone.box.cut_to(room)
        yield from ((zone, other) for other in later if not common.cut_to(other.box).is_empty)


def gap_between(zone, other, room):
    """The gap between two obstacles, if they do not meet and their zones do in the room; or None."""
    if not are_apart(zone.obstacle, other.obstacle) or are_apart(zone.polygon, other.polygon):
        return None
    first, second = sorted((zone, other), key=lambda either: either.line)
    common = first.polygon, second.half_planes + room.half_planes
    corners = first.polygon + second.polygon
    if not any(first.has(p) and second.has(p) and room.has(p) for p in corners) and not part_within(*common):
        return None
    direction, lacking = min(moves_out(first.polygon, second.polygon).items(), key=lambda move: move[1])
    return Gap(first.line, second.line, lacking, direction, *common)


def gap_at_wall(zone, wall, whole, room):
    """The gap between an obstacle in the room and a wall, if they do not meet and the zone meets the edge; or None."""
    if are_apart(zone.obstacle, whole.corners) or not are_apart(zone.obstacle, whole.edge(wall)):
        return None
    edge = room.edge(wall)
    if are_apart(zone.polygon, edge):
        return None
    away = WALLS[wall]
    return Gap(zone.line, wall, moves_out(edge, zone.polygon)[away], away, edge, zone.half_planes)


def narrow_gaps(zones, whole, room):
    """The gaps that are too narrow, those that lack least first; and whether all pairs of zones were looked at."""
    pairs = near_pairs(zones, room)
    gaps = [gap_between(*pair, room) for pair in islice(pairs, MOST_PAIRS)]
    gaps += [gap_at_wall(zone, wall, whole, room) for zone in zones for wall in WALLS]
    return sorted(filter(None, gaps), key=lambda gap: gap.order), next(pairs, None) is None
