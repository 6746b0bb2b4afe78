"""What a picture of a room shows, kind by kind: each is one SVG element, or an empty text if there is nothing to see.

What lies outside the room is cut off first, since renderers do not take numbers of any size.
"""

from math import dist

from ..geometry import bounds, clipped, zone_of
from .svg import BLUE, GREEN, RED, ROUND, dots, element, line_through, outline

# Round the frame, for what stands at the walls.
EDGE = 12
# A goal with a side of less than this has a ring.
SMALL, RING = 10, 9
# Two outlines of the body that are nearer than this look like one. A path of more points has no dots and no ground.
APART, MOST_DOTS = 0.5, 200
# What part of the frame the tree may cover, and the thinnest line.
MOST_INK, THINNEST = 0.35, 0.2

# From the ground up.
STYLES: dict[str, dict] = {
    "clearance": {"fill": "#ebebeb", "stroke": "#777777", "stroke_dasharray": "4 3"},
    "obstacle": {"fill": "#b0b0b0", "stroke": "#555555"},
    "goal": {"fill": GREEN, "fill_opacity": 0.3, "stroke": GREEN, "stroke_width": 1.5},
    "tree": {"fill": "none", "stroke": BLUE, **ROUND},
    "body": {"fill": RED, "fill_opacity": 0.15, "stroke": RED, **ROUND},
    "path": {"fill": "none", "stroke": RED, "stroke_width": 3, **ROUND},
    "small goal": {"fill": "none", "stroke": GREEN, "stroke_width": 2.5},
    "start": {"fill": "#000000", "stroke": "#ffffff", "stroke_width": 1.5},
}
DOTS = STYLES["path"] | {"stroke_width": 7}
HALO = {"fill": "none", "stroke": "#ffffff", "stroke_width": 6, **ROUND}
POINT_BODY = STYLES["body"] | {"stroke_width": 5}


def ground_layers(scene, axes):
    """Clearances, obstacles and goals, by their kinds."""
    return {
        "clearance": areas("clearance", clearances(scene), axes),
        "obstacle": areas("obstacle", scene.obstacles, axes),
        "goal": areas("goal", [corners_of(*goal) for goal in scene.goals], axes),
    }


def run_layers(scene, report, axes):
    """The tree, white ground along the path, the body, the path, rings and the start, by their kinds."""
    return {
        "tree": tree(report, axes),
        "halo": halo(report, axes),
        "body": body(scene, report, axes),
        "path": path(report, axes),
        "small goal": rings(scene, axes),
        "start": start(scene, axes),
    }


def clearances(scene):
    """The obstacles, each grown by the square of the clearance."""
    return [zone_of(obstacle, [(0, 0)], scene.clearance) for obstacle in scene.obstacles] if scene.clearance else []


def corners_of(x0, y0, x1, y1):
    """The corners of a box."""
    return [(x0, y0), (x1, y0), (x1, y1), (x0, y1)]


def areas(kind, polygons, axes, style=None):
    """What of convex polygons shows in the frame and a little round it."""
    at, (low, high) = axes.mapping(), axes.grown(EDGE)
    parts = [part for polygon in polygons if (part := clipped(polygon, low, high))]
    data = "".join(outline(list(map(at, part))) for part in parts)
    return element("path", class_=kind, d=data, **(style or STYLES[kind])) if data else ""


def tree(report, axes):
    """The edge from each node to its parent, thinner if they would cover too much of the frame."""
    nodes = report.nodes if report else {}
    if len(nodes) < 2:
        return ""
    at = axes.mapping()
    places = {number: at(point) for number, (point, _) in nodes.items()}
    length = sum(dist(places[number], places[parent]) for number, (_, parent) in nodes.items())
    width = min(1, max(THINNEST, MOST_INK * axes.width * axes.height / max(1, length)))
    data = "".join(line_through([places[number] for number in branch]) for branch in branches(nodes))
    return element("path", class_="tree", d=data, **STYLES["tree"], stroke_width=width)


def branches(nodes):
    """Lines that have each edge once: from a node to its parent, and so on to the first that is in a line already."""
    drawn, lines = {0}, []
    for number in reversed(nodes):
        line = [number]
        while line[-1] not in drawn:
            drawn.add(line[-1])
            line.append(nodes[line[-1]][1])
        if len(line) > 1:
            lines.append(line)
    return lines


def body(scene, report, axes):
    """The body at the points of the path, or at the start, and at a blocked goal; not one that is its origin alone."""
    if scene.body == [(0, 0)]:
        return ""
    places = spaced(report.path if report and report.path else [scene.start], axes)
    if report and report.refusal == "goal blocked":
        places.append(scene.goal_middle())
    outlines = [[(x + dx, y + dy) for dx, dy in scene.body] for x, y in places]
    return areas("body", outlines, axes, POINT_BODY if len(scene.body) == 1 else None)


def spaced(points, axes):
    """The first and the last of some points, and those between that do not look like the one before."""
    at, kept = axes.mapping(), points[:1]
    for point in points[1:-1]:
        if dist(at(point), at(kept[-1])) >= APART:
            kept.append(point)
    return kept + points[1:][-1:]


def path(report, axes):
    """The path, with a dot at each point unless there are too many."""
    points = points_of(report, axes)
    parts = [element("path", class_="path", d=line_through(points), **STYLES["path"])] if points else []
    if 0 < len(points) <= MOST_DOTS:
        parts.append(element("path", class_="point", d=dots(points), **DOTS))
    return element("g", *parts) if parts else ""


def halo(report, axes):
    """White ground along the path, unless it has too many points."""
    points = points_of(report, axes)
    return element("path", class_="halo", d=line_through(points), **HALO) if 0 < len(points) <= MOST_DOTS else ""


def points_of(report, axes):
    """Where the points of the path are drawn."""
    return list(map(axes.mapping(), report.path)) if report else []


def rings(scene, axes):
    """A ring round each goal with a small side, in the middle of what of it lies in the room."""
    at = axes.mapping()
    shown = [part for goal in scene.goals if (part := clipped(corners_of(*goal), axes.low, axes.high))]
    boxes = [bounds(list(map(at, part))) for part in shown]
    small = [(low, high) for low, high in boxes if min(high[0] - low[0], high[1] - low[1]) < SMALL]
    places = [{"cx": (low[0] + high[0]) / 2, "cy": (low[1] + high[1]) / 2, "r": RING} for low, high in small]
    halos = [element("circle", **place, **HALO | {"stroke_width": 4.5}) for place in places]
    circles = [element("circle", class_="ring", **place, **STYLES["small goal"]) for place in places]
    return element("g", *halos, *circles) if places else ""


def start(scene, axes):
    """A dot at the start, if it lies in the room."""
    if scene.start[0] > scene.room[0] or scene.start[1] > scene.room[1]:
        return ""
    x, y = axes.mapping()(scene.start)
    return element("circle", class_="start", cx=x, cy=y, r=5, **STYLES["start"])
