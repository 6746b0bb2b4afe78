"""What is wrong with a picture of scenes and reports: it is parsed, and mapped back by its frames and its ticks.

Nothing of draw.py is used. What a report says is found by its lines, and polygons are cut off by another way. Each
function gives a list of what is wrong, mostly an empty one.
"""

import re
from dataclasses import dataclass
from math import dist
from xml.etree import ElementTree

from kimorefo.geometry import contains, hull, sides

SVG = "{http://www.w3.org/2000/svg}"
# What is measured, and what it is measured by, are rounded to hundredths of a pixel.
NEAR = 0.02
EDGE, SMALL, LEAST_RING, LEAST_SIDE, LETTER_WIDTH = 12, 10, 6, 48, 7.5
APART, MOST_DOTS = 0.5, 200
# What a window cuts off at the frame.
GROUND = ("clearance", "obstacle", "goal")
# The class of each kind of thing in the legend.
KINDS = {kind: kind for kind in (*GROUND, "start", "tree", "body", "path")} | {"small goal": "ring"}
PLAIN_TEXT = re.compile(r"[A-Za-z0-9 .,:;()-]*")
N = r"-?\d+(?:\.\d+)?"
PATH_DATA = re.compile(rf"(?:M{N} {N}(?:L{N} {N})*(?:Z|[hv]{N})?)*")


def near(p, q):
    """Whether two points of the screen are the same but for rounding."""
    return dist(p, q) <= NEAR


@dataclass
class Frame:
    """A frame on the screen, and the part of the plane that it shows."""

    left: float
    top: float
    width: float
    height: float
    low: tuple
    high: tuple

    def at(self, p):
        """Where a point of the plane is on the screen."""
        x = (p[0] - self.low[0]) / (self.high[0] - self.low[0])
        y = (p[1] - self.low[1]) / (self.high[1] - self.low[1])
        return self.left + x * self.width, self.top + (1 - y) * self.height

    def back(self, p):
        """Which point of the plane is there on the screen."""
        shares = (p[0] - self.left) / self.width, 1 - (p[1] - self.top) / self.height
        return tuple(low + share * (high - low) for low, high, share in zip(self.low, self.high, shares))

    def holds(self, p):
        """Whether a point of the screen lies in the frame."""
        x, y = p[0] - self.left, p[1] - self.top
        return -NEAR <= x <= self.width + NEAR and -NEAR <= y <= self.height + NEAR

    def window(self):
        """The corners of the frame with an edge round it, on the screen."""
        left, top = self.left - EDGE, self.top - EDGE
        right, low = self.left + self.width + EDGE, self.top + self.height + EDGE
        return [(left, top), (right, top), (right, low), (left, low)]


def lines_in(data):
    """The lines of path data, each as its points. What goes on by a letter but `L` ends there."""
    parts = [re.sub("[Zhv].*", "", part) for part in re.split("M", data) if part]
    return [[tuple(map(float, pair.split(" "))) for pair in part.split("L")] for part in parts]


class Panel:
    """A part of a picture with a frame in it, and what is drawn there by class."""

    def __init__(self, element):
        self.element = element

    def find(self, name):
        """The elements of a class."""
        return [own for own in self.element.iter() if own.get("class") == name]

    def lines(self, name):
        """The lines that the path of a class has; none if there is no such path."""
        return [line for own in self.find(name) for line in lines_in(own.get("d"))]

    def texts(self):
        """The texts above the frame."""
        return [own.text for own in self.element.findall(f"{SVG}text")]

    def frame(self, name, low, high):
        """The frame of this panel, with the part of the plane that it shows."""
        rect = self.find(name)[0]
        return Frame(*(float(rect.get(key)) for key in ("x", "y", "width", "height")), low, high)

    def ticks(self):
        """Where the ticks of both axes stand, and their numbers."""
        axes = []
        for own, i in zip(self.find("ticks"), (0, 1)):
            places = [points[0][i] for points in lines_in(own.find(f"{SVG}path").get("d"))]
            numbers = [float(text.text.replace(",", "")) for text in own.findall(f"{SVG}text")[: len(places)]]
            axes.append(list(zip(places, numbers)))
        return axes


def panels_of(root):
    """The panels of rooms, each with that of its chart or None."""
    found = []
    for element in root.iter(f"{SVG}svg"):
        names = [own.get("class") for own in element]
        if "room" in names:
            found.append([Panel(element), None])
        if "chart" in names:
            found[-1][1] = Panel(element)
    return found


def unfit_numbers(root):
    """The attributes that are to be numbers and are not, and path data in another form. None is `nan` or `inf`."""
    keys = ("x", "y", "width", "height", "cx", "cy", "r", "stroke-width", "font-size", "viewBox")
    given = [(own.tag, number) for own in root.iter() for key in keys for number in own.get(key, "0").split(" ")]
    wrong = [f"{tag} with {number}" for tag, number in given if not re.fullmatch(N, number)]
    return wrong + ["path data in another form" for own in root.iter() if not PATH_DATA.fullmatch(own.get("d", ""))]


def unfit_texts(root):
    """The texts that have more than plain words and numbers, and those of the root that are missing."""
    wrong = [f"text {own.text}" for own in root.iter() if not PLAIN_TEXT.fullmatch((own.text or "").strip())]
    return wrong + [f"no {name}" for name in ("title", "desc") if not root.findtext(f"{SVG}{name}")]


def box_of(own):
    """The place of a nested picture, or of a rectangle: left, top, right and low."""
    x, y, width, height = (float(own.get(key, 0)) for key in ("x", "y", "width", "height"))
    return x, y, x + width, y + height


def extent(own, anchor):
    """Points between which an element without others lies. The width of a text is an estimate."""
    if own.tag == f"{SVG}path":
        return [point for line in lines_in(own.get("d")) for point in line]
    if own.tag == f"{SVG}circle":
        x, y, r = (float(own.get(key)) for key in ("cx", "cy", "r"))
        return [(x - r, y - r), (x + r, y + r)]
    if own.tag == f"{SVG}text":
        x, y, width = float(own.get("x")), float(own.get("y")), len(own.text) * LETTER_WIDTH
        left = {"start": 0, "middle": width / 2, "end": width}[own.get("text-anchor", anchor)]
        ends = [-left, width - left]
        return [(x, y + end) for end in ends] if "transform" in own.attrib else [(x + end, y) for end in ends]
    return [box_of(own)[:2], box_of(own)[2:]]


def outside(element, box, anchor="start"):
    """What in an element lies outside of a box."""
    left, top, right, low = box
    wrong = []
    for own in element:
        if own.tag == f"{SVG}g":
            dx, dy = map(float, re.findall(N, own.get("transform", "0 0")))
            inner = (left - dx, top - dy, right - dx, low - dy)
            wrong += outside(own, inner, own.get("text-anchor", anchor))
        elif own.tag not in (f"{SVG}title", f"{SVG}desc"):
            edge = EDGE + NEAR if own.get("class") in GROUND else NEAR
            points = extent(own, anchor)
            fits = all(left - edge <= x <= right + edge and top - edge <= y <= low + edge for x, y in points)
            wrong += [] if fits else [f"{own.tag} {own.get('class')} {own.text} lies outside"]
        if own.tag == f"{SVG}svg":
            wrong += outside(own, inner_box(own))
    return wrong


def inner_box(own):
    """What a nested picture shows: the same place if it says so, or its size from 0. If it says another, nothing."""
    left, top, right, low = box_of(own)
    x, y, width, height = map(float, own.get("viewBox", f"0 0 {right - left} {low - top}").split(" "))
    same = own.get("viewBox") is None or near((x, y), (left, top))
    same = same and near((width, height), (right - left, low - top))
    return (x, y, x + width, y + height) if same else (0, 0, 0, 0)


def cut_side(a, b, low, high):
    """The ends of what of a side lies in a box, by the share of the side there (Liang and Barsky); none if nothing."""
    begin, end = 0.0, 1.0
    for i in (0, 1):
        way, limits = b[i] - a[i], (low[i] - a[i], high[i] - a[i])
        if way:
            first, last = sorted(limit / way for limit in limits)
        else:
            first, last = (0, 1) if limits[0] <= 0 <= limits[1] else (1, 0)
        begin, end = max(begin, first), min(end, last)
    return [(a[0] + (b[0] - a[0]) * t, a[1] + (b[1] - a[1]) * t) for t in (begin, end)] if begin <= end else []


def shown(polygon, frame):
    """Points whose hull is what of a convex polygon lies in a frame and a little round it."""
    own, window = list(map(frame.at, polygon)), frame.window()
    found = [point for a, b in sides(own) for point in cut_side(a, b, window[0], window[2])]
    return found + [q for q in window if len(hull(polygon)) > 2 and contains(polygon, frame.back(q))]


def area(polygon):
    """The area of a polygon."""
    return abs(sum(a[0] * b[1] - b[0] * a[1] for a, b in sides(polygon))) / 2


def are_alike(drawn, points):
    """Whether an outline is that of the hull of some points: each is near one of the other, with the same area."""
    close = all(any(near(p, q) for q in others) for own, others in ((drawn, points), (points, drawn)) for p in own)
    return close and abs(area(drawn) - area(hull(points))) <= NEAR * sum(map(abs, [1, *sum(drawn, ())]))


def wrong_areas(panel, name, polygons, frame):
    """Whether the outlines of a class are other ones than those of polygons, each as far as it shows."""
    wanted = [points for points in (shown(polygon, frame) for polygon in polygons) if points]
    drawn = panel.lines(name)
    if len(drawn) != len(wanted):
        return [f"{len(drawn)} outlines of {name} in place of {len(wanted)}"]
    return [f"another outline of {name}" for own, points in zip(drawn, wanted) if not are_alike(own, points)]


def moved(polygon, moves):
    """The corners of a polygon, each moved in all ways."""
    return [(x + dx, y + dy) for x, y in polygon for dx, dy in moves]


def wrong_ground(panel, scene, frame):
    """What is wrong with obstacles, clearances and goals."""
    c = scene.clearance
    square = [(-c, -c), (c, -c), (c, c), (-c, c)]
    grown = [hull(moved(obstacle, square)) for obstacle in scene.obstacles] if c else []
    boxes = [[(x0, y0), (x1, y0), (x1, y1), (x0, y1)] for x0, y0, x1, y1 in scene.goals]
    kinds = {"obstacle": scene.obstacles, "clearance": grown, "goal": boxes}
    return [wrong for name, polygons in kinds.items() for wrong in wrong_areas(panel, name, polygons, frame)]


def wrong_marks(panel, scene, frame):
    """What is wrong with the dot at the start and the rings of small goals."""
    right, high = scene.room
    inside = [goal for goal in scene.goals if goal[0] <= right and goal[1] <= high]
    boxes = [(frame.at((x0, y0)), frame.at((min(x1, right), min(y1, high)))) for x0, y0, x1, y1 in inside]
    small = [((a[0] + b[0]) / 2, (a[1] + b[1]) / 2) for a, b in boxes if min(b[0] - a[0], a[1] - b[1]) < SMALL]
    starts = [frame.at(scene.start)] if scene.start[0] <= right and scene.start[1] <= high else []
    wrong = []
    for name, wanted, least in (("ring", small, LEAST_RING), ("start", starts, 3)):
        circles = [((float(own.get("cx")), float(own.get("cy"))), float(own.get("r"))) for own in panel.find(name)]
        fits = len(circles) == len(wanted) and all(near(own[0], place) for own, place in zip(circles, wanted))
        wrong += [] if fits and all(r >= least for _, r in circles) else [f"another {name}"]
    return wrong


def wrong_path(panel, scene, report, frame):
    """What is wrong with the path and the bodies on it."""
    points = [tuple(map(int, pair)) for pair in re.findall(r"^(\d+) (\d+)$", report, re.M)]
    places = list(map(frame.at, points))
    wrong = []
    for name, wanted in (("path", places), ("point", places if len(places) <= MOST_DOTS else [])):
        own = sum(panel.lines(name), [])
        fits = len(own) == len(wanted) and all(map(near, own, wanted))
        wrong += [] if fits else [f"other points of class {name}"]
    wrong += ["a path that is cut"] if len(panel.lines("path")) > 1 else []
    stops = points or [scene.start]
    if report == "goal blocked\n":
        x0, y0, x1, y1 = scene.goals[0]
        stops.append(((x0 + x1) // 2, (y0 + y1) // 2))
    return wrong + (wrong_bodies(panel, scene, stops, frame) if scene.body != [(0, 0)] else [])


def wrong_bodies(panel, scene, stops, frame):
    """Whether the body has another outline at one of its stops, or none and did not just stop beside it."""
    drawn, taken, last = panel.lines("body"), 0, None
    for stop in stops:
        points = shown(moved(scene.body, [stop]), frame)
        if points and taken < len(drawn) and are_alike(drawn[taken], points):
            taken, last = taken + 1, frame.at(stop)
        elif points and (last is None or dist(frame.at(stop), last) >= APART + NEAR):
            return ["no outline of the body where it stops"]
    return [] if taken == len(drawn) else ["an outline of the body where it does not stop"]


def wrong_tree(panel, report, frame):
    """Whether the tree has other edges than those from the nodes to their parents."""
    found = re.findall(r"^node (\d+) at (\d+) (\d+) parent (\d+) ", report, re.M)
    parents = {number: parent for number, _, _, parent in found}
    cells, left = {}, set(parents) - {"0"}
    for number, x, y, _ in found:
        place = frame.at((int(x), int(y)))
        cells.setdefault((round(place[0]), round(place[1])), []).append((number, place))

    def nodes_at(p):
        about = [(round(p[0]) + i, round(p[1]) + j) for i in (-1, 0, 1) for j in (-1, 0, 1)]
        return {number for cell in about for number, place in cells.get(cell, []) if near(place, p)}

    edges = [edge for line in panel.lines("tree") for edge in zip(line, line[1:])]
    for a, b in edges:
        above = nodes_at(b)
        left.discard(next((number for number in nodes_at(a) if number in left and parents[number] in above), None))
    same = not left and len(edges) == max(0, len(parents) - 1)
    return [] if same else [f"a tree of {len(edges)} edges, and {len(left)} not there"]


def wrong_ticks(panel, frame):
    """Whether a tick stands elsewhere than its number, or there are not two on an axis."""
    across, up = panel.ticks()
    pairs = [(frame.at((number, 0))[0], place) for place, number in across]
    pairs += [(frame.at((0, number))[1], place) for place, number in up]
    wrong = [] if min(len(across), len(up)) > 1 else ["too few ticks"]
    return wrong + ["a tick elsewhere" for wanted, place in pairs if abs(wanted - place) > NEAR]


def at_end(ticks, place):
    """Which number stands at a place of an axis, by its ticks."""
    (first, low), (last, high) = ticks[0], ticks[-1]
    return low + (high - low) * (place - first) / (last - first)


def wrong_chart(chart, report):
    """What is wrong with the steps of the cost, by the ticks."""
    better = [(int(marks), int(cost) / 256) for cost, marks in re.findall(r"^better (\d+) marks (\d+)$", report, re.M)]
    if not better or chart is None:
        return [] if not better and chart is None else ["a chart, or none"]
    last = sum(map(int, re.findall(r"(?:placed|same|blocked|skipped) (\d+)", report)))
    across, up = chart.ticks()
    left, top, right, low = box_of(chart.find("chart")[0])
    plane = (at_end(across, left), at_end(up, low)), (at_end(across, right), at_end(up, top))
    frame = chart.frame("chart", *plane)
    steps = [better[0]]
    for (_, before), (marks, cost) in zip(better, better[1:]):
        steps += [(marks, before), (marks, cost)]
    places = list(map(frame.at, [*steps, (last, better[-1][1])]))
    drawn = sum(chart.lines("cost"), [])
    wrong = [] if len(drawn) == len(places) and all(map(near, drawn, places)) else ["other steps"]
    wrong += [] if all(frame.holds(place) for place in places) else ["steps outside of their frame"]
    return wrong + wrong_ticks(chart, frame)


def wrong_size(panel, scene, frame):
    """Whether a room is drawn too small, or not to scale without saying so."""
    scales = frame.width / scene.room[0], frame.height / scene.room[1]
    stretch = max(scales) / min(scales)
    said = re.findall(r"Not to scale: [xy] is stretched ([0-9,.]+) times", " ".join(panel.texts()))
    wrong = [] if min(frame.width, frame.height) >= LEAST_SIDE else ["a room too small to be seen"]
    if stretch > 1.01:
        wrong += [] if said and abs(float(said[0].replace(",", "")) / stretch - 1) < 0.01 else ["not to scale"]
    return wrong + (["to scale"] if said and stretch < 1.01 else [])


def wrong_words(panel, report):
    """Whether the texts tell another result than the report."""
    said, path = " ".join(panel.texts()), re.search(r"^path (\d+) cost (\d+)$", report, re.M)
    if path is None:
        return [] if ("No path" in said) == ("no path\n" in report) and "Path of" not in said else ["a path, or none"]
    told = re.search(r"Path of ([0-9,]+) points?, cost ([0-9,.]+) lattice steps", said)
    length, cost = (float(number.replace(",", "")) for number in told.groups()) if told else (0, 0)
    return [] if length == int(path[1]) and abs(cost - int(path[2]) / 256) < 0.006 else ["another length or cost"]


def wrong_legend(root, panels):
    """Whether the legend has other kinds of things than the picture."""
    words = {own.text for legend in root.iter() if legend.get("class") == "legend" for own in legend.iter(f"{SVG}text")}
    kinds = {kind for kind, name in KINDS.items() if any(panel.find(name) for panel, _ in panels)}
    return [] if words == kinds else [f"a legend of {', '.join(sorted(words))}"]


def last_path_alone(report):
    """The report without the paths of earlier blocks of `watch`."""
    return re.sub(r"^path .*\n(?:\d+ \d+\n)+\n(?=better )", "", report, flags=re.M)


def wrong_picture(picture, scenes, reports):
    """What is wrong with the picture of some scenes and what their reports say, each perhaps nothing."""
    root = ElementTree.fromstring(picture)
    panels = panels_of(root)
    wrong = unfit_numbers(root) + unfit_texts(root) + outside(root, inner_box(root)) + wrong_legend(root, panels)
    if len(panels) != len(scenes):
        return [*wrong, f"{len(panels)} rooms in place of {len(scenes)}"]
    for (panel, chart), scene, report in zip(panels, scenes, map(last_path_alone, reports)):
        frame = panel.frame("room", (0, 0), scene.room)
        wrong += wrong_ground(panel, scene, frame) + wrong_marks(panel, scene, frame) + wrong_ticks(panel, frame)
        wrong += wrong_size(panel, scene, frame) + wrong_words(panel, report)
        wrong += wrong_path(panel, scene, report, frame) + wrong_tree(panel, report, frame) + wrong_chart(chart, report)
    return wrong
