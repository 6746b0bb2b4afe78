"""Why corners are no strictly convex polygon in counterclockwise order, and polygons that are, in their place."""

from ..geometry import hull, is_strictly_convex, orientation, segments_meet


def named(i, corners):
    """A corner by its number, from 1, and its point."""
    x, y = corners[i % len(corners)]
    return f"corner {i % len(corners) + 1} ({x}, {y})"


def corner_faults(corners):
    """What is wrong with the corners, in sentences; none if they are such a polygon."""
    repeated = next(((corners.index(c), i) for i, c in enumerate(corners) if c in corners[:i]), None)
    if repeated:
        first, again = repeated
        return [f"A corner comes twice: {named(again, corners)} is corner {first + 1} again."]
    if len(hull(corners)) < 3:
        return ["All corners lie in one line: a polygon has an inside, and a rod is a thin triangle or rectangle."]
    crossing = crossing_sides(corners)
    if crossing:
        return crossing_faults(corners, *crossing)
    return turn_faults(corners)


def crossing_sides(corners):
    """The first two sides that meet and are no neighbours, each by the number of its first corner from 0; or None."""
    count = len(corners)
    at = lambda i: corners[i % count]
    pairs = ((i, j) for i in range(count) for j in range(i + 2, count) if (j + 1) % count != i)
    return next(((i, j) for i, j in pairs if segments_meet(at(i), at(i + 1), at(j), at(j + 1))), None)


def turns(corners):
    """For each corner a number that is positive if the way turns left there, and 0 if it goes straight on or back."""
    count = len(corners)
    return [orientation(corners[i - 1], corners[i], corners[(i + 1) % count]) for i in range(count)]


def rounds(corners):
    """How many times the sides wind round, of corners that all turn left: how often their direction turns upwards."""
    ways = [(b[0] - a[0], b[1] - a[1]) for a, b in zip(corners, corners[1:] + corners[:1])]
    upwards = [y > 0 or (y == 0 and x > 0) for x, y in ways]
    return sum(now and not before for before, now in zip([upwards[-1], *upwards], upwards))


def crossing_faults(corners, i, j):
    """What is wrong with corners whose sides from i and from j on meet."""
    left = turns(corners)
    if all(turn > 0 for turn in left) or all(turn < 0 for turn in left):
        ordered = corners if left[0] > 0 else corners[::-1]
        times = {2: "twice"}.get(rounds(ordered), f"{rounds(ordered)} times")
        what = f"The corners wind round {times}, though all turns are to one side"
    else:
        what = "The sides cross or touch each other"
    sides = f"the side from corner {i + 1} to {i + 2} meets that from corner {j + 1} to {(j + 1) % len(corners) + 1}"
    return [f"{what}: {sides}. List the corners in their order round the inside."]


def turn_faults(corners):
    """What is wrong with corners whose sides meet at the corners alone."""
    left = turns(corners)
    area = sum(a[0] * b[1] - a[1] * b[0] for a, b in zip(corners, corners[1:] + corners[:1]))
    clockwise = ["The corners are listed clockwise: list them the other way round."] if area < 0 else []
    straight = [
        f"{named(i, corners).capitalize()} lies in a line with its neighbours: leave it out."
        for i, turn in enumerate(left)
        if turn == 0
    ]
    dents = [
        f"{named(i, corners).capitalize()} makes a dent: a polygon turns to the same side at every corner."
        for i, turn in enumerate(left)
        if turn * area < 0
    ]
    return clockwise + straight + dents


def turned_to(first, ring):
    """A ring of corners from the first of those given on that it has."""
    start = min(map(first.index, ring))
    place = ring.index(first[start])
    return ring[place:] + ring[:place]


def convex_polygons(corners, may_be_cut):
    """Strictly convex polygons in place of corners: one with all of them on its rim, two if it may be cut; or none."""
    if len(hull(corners)) < 3:
        return []
    ring = turned_to(corners, hull(corners))
    if all(is_on_rim(ring, corner) for corner in corners):
        return [ring]
    return halves(corners) if may_be_cut else []


def is_on_rim(ring, p):
    """Whether a point of a convex polygon lies on one of its sides."""
    return any(orientation(a, b, p) == 0 for a, b in zip(ring, ring[1:] + ring[:1]))


def halves(corners):
    """Two strictly convex polygons into which a cut from one corner to another divides the polygon, or none."""
    area = sum(a[0] * b[1] - a[1] * b[0] for a, b in zip(corners, corners[1:] + corners[:1]))
    ring = corners if area > 0 else corners[::-1]
    count = len(ring)
    cuts = ((ring[i : j + 1], ring[j:] + ring[: i + 1]) for i in range(count) for j in range(i + 2, count))
    both = next((cut for cut in cuts if all(map(is_strictly_convex, cut))), [])
    return [turned_to(corners, half) for half in both]
