"""What stands in the way of planning a scene, in sentences: a start or goals that are not clear, marks, strips, gaps.

What is said is so exactly. Whether there is a path is not decided here.
"""

from dataclasses import dataclass, field
from math import isqrt

from ..geometry import Space, bounds, root_up, squared_distance, zone_of
from .boxes import Box
from .gaps import narrow_gaps
from .moves import Undecided, Zone, least_move, moves_out, nearest_clear_box
from .wording import counted, listed

MOST_LISTED = 20
GAPS = (
    "These gaps are too narrow for the body. This is only a hint: a path may lead another way. For each gap: about where"
    " the body's origin would be, and the extra width that is needed:"
)


@dataclass
class Findings:
    """What was found of a scene: whether its start is clear, and sentences, the most important first."""

    is_start_clear: bool
    said: list = field(default_factory=list)


class Site:
    """A scene with the numbers of its lines, its zones, the whole room and the room of configurations."""

    def __init__(self, scene, lines):
        self.scene, self.lines = scene, lines
        space = Space(scene)
        parts = zip(lines[b"obstacle"], scene.obstacles, space.zones)
        self.zones = [Zone(line, obstacle, polygon) for line, obstacle, polygon in parts]
        self.whole = Box(0, 0, *scene.room)
        self.room = Box(*space.low, *space.high)

    def zones_at(self, p):
        """The zones in which a point lies."""
        return [zone for zone in self.zones if zone.has(p)]

    def is_clear(self, p):
        """Whether the body is clear at a point."""
        return self.room.has(p) and not self.zones_at(p)

    def line_of(self, key):
        """The line of a key that may stand once, in words."""
        numbers = self.lines[key]
        return f"line {numbers[0]}" if numbers else f"there is no line `{key.decode()}`"


def findings_of(scene, lines):
    """What is to be said of a scene, with the numbers of the lines of each key."""
    site = Site(scene, lines)
    found = Findings(site.is_clear(scene.start))
    if site.room.is_empty:
        found.said.append(fits_nowhere(scene))
        return found
    if not found.is_start_clear:
        what = f"The start {point(scene.start)} ({site.line_of(b'start')})"
        found.said.append(blocked_place(site, scene.start, what, "start"))
    found.said += goal_faults(site)
    found.said += sample_faults(site)
    found.said += gap_hints(site)
    return found


def point(p):
    """A point as a scene has it."""
    return f"{p[0]} {p[1]}"


def steps(count):
    """A number of lattice steps."""
    return counted(count, "lattice step")


def lines_of_zones(zones):
    """The obstacles of some zones by their lines, not too many."""
    numbers = sorted(zone.line for zone in zones)
    shown, more = numbers[:MOST_LISTED], len(numbers) - MOST_LISTED
    lines = listed([*shown, f"{more} more"] if more > 0 else shown)
    return f"the obstacle of line {lines}" if len(numbers) == 1 else f"the obstacles of lines {lines}"


def fits_nowhere(scene):
    """What to say of a body that is too large for the room."""
    (left, low), (right, high) = bounds([*scene.body, (0, 0)])
    body = f"with its origin it is {right - left} wide and {high - low} high"
    room = f"the room is {scene.room[0]} wide and {scene.room[1]} high"
    return f"The body fits nowhere in the room, so no start is clear: {body}, and {room}. Change one of them."


def blocked_place(site, p, what, name):
    """What to say of a point that is not clear: what blocks it, and by how much; its name is that of what moves."""
    said = [f"{what} is not clear."]
    said += [past_wall(wall, by) for wall, by in walls_past(site.room, p)]
    zones = site.zones_at(p)
    said += [f"{contact(site.scene, zone, p)} {way_out(zone, p)}" for zone in zones[:MOST_LISTED]]
    if len(zones) > MOST_LISTED:
        said.append(f"{len(zones) - MOST_LISTED} more obstacles are in the way.")
    return " ".join([*said, way_to_clear(site, Box(*p, *p), name)])


def walls_past(room, p):
    """The walls past which the body reaches at a point, and by how much."""
    across = {"left": room.left - p[0], "right": p[0] - room.right}
    reaches = across | {"lower": room.low - p[1], "upper": p[1] - room.high}
    return [(wall, by) for wall, by in reaches.items() if by > 0]


def past_wall(wall, by):
    """What to say of a wall past which the body reaches."""
    return f"The body, with its origin, reaches past the {wall} wall by {steps(by)}."


def contact(scene, zone, p):
    """How the body at a point in a zone meets the obstacle."""
    touching = Zone(zone.line, zone.obstacle, zone_of(zone.obstacle, scene.body, 0))
    what = f"the obstacle of line {zone.line}"
    if not touching.has(p):
        margin = "comes within" if is_inside(zone, p) else "is at exactly"
        return f"The body does not touch {what}, but {margin} the clearance of {scene.clearance}, which is a collision."
    if is_inside(touching, p):
        return f"The body overlaps {what}."
    return f"The body touches {what}, which is a collision."


def is_inside(zone, p):
    """Whether a point lies inside a zone, and not on its sides."""
    return all(a * p[0] + b * p[1] < c for a, b, c in zone.half_planes)


def way_out(zone, p):
    """By how much an obstacle has to move so that a point is not in its zone."""
    direction, least = min(moves_out([p], zone.polygon).items(), key=lambda move: move[1])
    return f"To be clear of the body, the obstacle has to move {steps(least)} {direction}."


def way_to_clear(site, box, name):
    """By how much a start or a goal has to move to be clear of everything."""
    try:
        move = least_move(site.zones, site.room, box)
    except Undecided:
        return f"How far the {name} has to move was not decided: too many obstacles meet beside it."
    if move is None:
        room = site.room
        return (
            f"No move along one axis makes the {name} clear. The body fits in the room with its origin at x from"
            f" {room.left} to {room.right} and y from {room.low} to {room.high}."
        )
    least = f"The least move along an axis that makes the {name} clear is {steps(move.steps)} {move.direction}"
    then = f"to {point(move.point)}" if box.is_point else f"after which {point(move.point)} lies in it and is clear"
    return f"{least}, {then}."


def goal_faults(site):
    """What to say of goals in which the body is nowhere clear, and of the middle of the first one."""
    goals = zip(site.lines[b"goal"], site.scene.goals)
    first, *others = [goal_fault(site, Box(*goal), line) for line, goal in goals]
    twin = f"{first} `twin W` ends with `goal blocked`." if first else middle_fault(site)
    return [said for said in (twin, *others) if said]


def goal_fault(site, box, line):
    """What to say of the goal of a line if none of its lattice points is clear, or if that was not decided."""
    inside = box.cut_to(site.room)
    if inside.is_empty:
        where = "outside the room" if box.cut_to(site.whole).is_empty else "where the body does not fit in the room"
        return f"The goal of line {line} lies {where}, so no path ends in it. {way_to_clear(site, box, 'goal')}"
    if site.is_clear(box.middle):
        return ""
    if box.is_point:
        what = f"The goal {point(box.middle)} (line {line})"
        return f"{blocked_place(site, box.middle, what, 'goal')} No path ends in it."
    try:
        clear, covering = nearest_clear_box(site.zones, [inside], lambda part: 0)
    except Undecided:
        what = f"Whether the goal of line {line} has a clear lattice point"
        return f"{what} was not decided: too many obstacles meet in it."
    if clear:
        return ""
    whole = "all of it" if inside == box else "all of it where the body fits in the room"
    cause = f"{lines_of_zones(covering)} cover{'s' * (len(covering) == 1)} {whole}"
    said = f"The goal of line {line} has no lattice point that is clear, so no path ends in it: {cause}."
    return f"{said} {way_to_clear(site, box, 'goal')}"


def middle_fault(site):
    """What to say of the middle of the first goal if it is not clear, though some of that goal is."""
    middle = site.scene.goal_middle()
    if site.is_clear(middle):
        return ""
    what = f"The middle {point(middle)} of the first goal (line {site.lines[b'goal'][0]})"
    twin = "This matters for `twin W` alone, which begins its second tree there: it ends with `goal blocked`."
    return f"{blocked_place(site, middle, what, 'middle')} {twin}"


def sample_faults(site):
    """What to say of marks, the step, gamma and strips."""
    scene = site.scene
    said = []
    marks = len(scene.marks) if scene.drawn is None else scene.drawn
    if not marks:
        said.append(no_marks(site))
    else:
        said += out_of_reach(scene, marks)
    if scene.gamma == 0:
        said.append(
            f"Gamma is 0 ({site.line_of(b'gamma')}), so nothing is rewired: the planner is RRT, fast, but a path stays"
            " as it was found. To begin with, try 0.8 times the square root of the room's area:"
            f" `gamma {max(1, isqrt(64 * scene.room[0] * scene.room[1]) // 10)}`."
        )
    if scene.strips > 1:
        said.append(
            f"There are {scene.strips} strips ({site.line_of(b'strips')}): with several workers paths may be lost that"
            " `plan 1` finds, since each worker begins with the marks of its own strips. Leave `strips` out."
        )
    return said


def no_marks(site):
    """What to say of a scene without samples."""
    drawn, listed_none = f"`marks` is 0 ({site.line_of(b'marks')})", "there is no line `marks` and no line `mark`"
    why = drawn if site.lines[b"marks"] else listed_none
    return f"There are no samples, so the tree stays the start alone: {why}. To begin with, try `marks 2000`."


def out_of_reach(scene, marks):
    """What to say if not even a straight way by all marks reaches a goal."""
    (x, y), reach = scene.start, marks * scene.step
    nearest = [(min(max(x, x0), x1), min(max(y, y0), y1)) for x0, y0, x1, y1 in scene.goals]
    least = root_up(min(squared_distance(scene.start, p) for p in nearest))
    if least <= reach:
        return []
    far = f"the nearest is {steps(least)} away (rounded up)"
    near = f"{counted(marks, 'mark')} lead no farther than {reach}, with edges of at most {scene.step}"
    needed = f"{counted(-(-least // scene.step), 'mark')} or a step of {-(-least // marks)}"
    return [f"No tree from the start reaches a goal: {far}, and {near}. It takes {needed} at the very least."]


def gap_hints(site):
    """What to say of gaps that are too narrow for the body."""
    gaps, was_all_looked_at = narrow_gaps(site.zones, site.whole, site.room)
    said = [gap_hint(gap) for gap in gaps[:MOST_LISTED]]
    if len(gaps) > MOST_LISTED:
        said.append(f"- and {len(gaps) - MOST_LISTED} more.")
    if not was_all_looked_at:
        said.append("- There may be more: not all pairs of obstacles were looked at.")
    return [GAPS, *said] if said else []


def gap_hint(gap):
    """What to say of one gap."""
    one, two = f"the obstacle of line {gap.line}", f"the obstacles of lines {gap.line}"
    both = f"{one} and the {gap.other} wall" if isinstance(gap.other, str) else f"{two} and {gap.other}"
    axis = "x" if gap.direction in ("left", "right") else "y"
    return f"- between {both}, about {point(gap.point)}: {steps(gap.lacking)} wider along {axis}"
