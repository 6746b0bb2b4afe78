"""Reports of the planner: the forms of their lines, and what the text of each word says. See docs/report-format.md.

`read_reports` takes what `plain`, `plan`, `smooth`, `anytime`, `watch`, `twin`, `batch` and `trial` write, and the two refusals
that are about a place in a scene. It looks at forms alone, and at what a picture stands on; judge.py judges whether a
report is lawful.
"""

import re
from dataclasses import dataclass, field

from .errors import NoReport
from .geometry import is_clear_at

N = r"(0|[1-9][0-9]*)"
PATH = re.compile(f"path {N} cost {N}")
POINT = re.compile(f"{N} {N}")
COUNTS = re.compile(f"nodes {N} placed {N} same {N} blocked {N}")
INFORMED_COUNTS = re.compile(f"nodes {N} placed {N} same {N} blocked {N} skipped {N}")
NODE = re.compile(f"node {N} at {N} {N} parent {N} cost {N}")
MARK = re.compile(f"mark {N} worker {N} turn {N} nearest {N} (?:(placed) class {N} first {N} {N}|(same) {N}|(blocked))")
SKIPPED = re.compile(f"mark {N} worker {N} turn {N} skipped by {N}")
BETTER = re.compile(f"better {N} marks {N}")
SCENE = re.compile(f"scene {N}")
START, GOAL = "start ", "goal "
REFUSED = re.compile("words refused|text too long|read fault|no memory|line [0-9]+ kind [0-9]+ [A-Z][a-z]+")
START_BLOCKED, GOAL_BLOCKED = "start blocked", "goal blocked"

MOST_MARKS = 2**18
MOST_COORDINATE = 2**20
MOST_COST = 2**44
MOST_COUNT = 2**64


def fit(match, *limits):
    """The numbers of a line, if it has the form and each is below its limit; None otherwise."""
    if not match:
        return None
    words = [word for word in match.groups() if word is not None and word.isdigit()]
    if len(words) != len(limits) or any(len(word) > 20 for word in words):
        return None
    numbers = list(map(int, words))
    return numbers if all(number < limit for number, limit in zip(numbers, limits)) else None


@dataclass(frozen=True)
class Counts:
    """The counts of one tree; `skipped` is None if the scene is not informed."""

    nodes: int
    placed: int
    same: int
    blocked: int
    skipped: int | None = None

    def marks(self):
        """How many marks were handled."""
        return self.placed + self.same + self.blocked + (self.skipped or 0)


@dataclass
class Report:
    """What a report says. Without a path `length` is 0 and `cost` None.

    `path` has no points if the report lists none (`trial`). `counts` are those of one tree, or of two (`twin`). `nodes`
    has the point and the parent of each node of a full report, by its number. `better` has the cost of each better path
    and after how many marks it came (`anytime`, `watch`). With a refusal there is nothing else.
    """

    length: int = 0
    cost: int | None = None
    path: list = field(default_factory=list)
    counts: list = field(default_factory=list)
    nodes: dict = field(default_factory=dict)
    better: list = field(default_factory=list)
    refusal: str | None = None


class Lines:
    """The lines of a text, one after another."""

    def __init__(self, text):
        *self.lines, self.rest = text.split("\n")
        self.taken = 0

    def next(self):
        """The next line, or an empty one at the end."""
        return self.lines[self.taken] if self.taken < len(self.lines) else ""

    def none(self, what):
        """That the next line is not what it is to be."""
        if self.taken < len(self.lines):
            return NoReport(f"line {self.taken + 1} is not {what}")
        return NoReport(f"cut off in line {self.taken + 1}, which was to be {what}")

    def take(self, what, form, *limits):
        """The numbers of the next line, which has a form and numbers below their limits."""
        numbers = fit(form.fullmatch(self.next()), *limits)
        if numbers is None:
            raise self.none(what)
        self.taken += 1
        return numbers

    def take_empty(self):
        """Whether the next line is an empty one, which is passed over."""
        is_empty = self.taken < len(self.lines) and not self.lines[self.taken]
        self.taken += is_empty
        return is_empty

    def is_left(self):
        """Whether a line is left, perhaps without a line feed."""
        return self.taken < len(self.lines) or self.rest != ""


def read_reports(text):
    """The reports that a text has: one, or that of each scene of a batch. A `NoReport` if it is none."""
    lines = Lines(text)
    if REFUSED.fullmatch(lines.next()):
        raise NoReport(f"a refusal in place of a report: {lines.next()}")
    if lines.next() in (START_BLOCKED, GOAL_BLOCKED) and len(lines.lines) == 1:
        lines.taken, reports = 1, [Report(refusal=lines.next())]
    elif SCENE.fullmatch(lines.next()):
        reports = batch_in(lines)
    else:
        reports = [report_in(lines)]
    if lines.is_left():
        raise NoReport(f"line {lines.taken + 1} comes after the end of the report")
    return reports


def batch_in(lines):
    """The reports of several scenes, each after a line with its number."""
    reports = []
    while SCENE.fullmatch(lines.next()):
        if lines.take("a scene", SCENE, MOST_COUNT) != [len(reports)]:
            raise NoReport(f"line {lines.taken} is not that of scene {len(reports)}")
        reports.append(report_in(lines))
    return reports


def report_in(lines):
    """The next report: perhaps better paths, the path, the counts, and perhaps nodes and marks."""
    report = Report()
    take_paths(lines, report)
    report.counts = counts_in(lines)
    if lines.next().startswith("node "):
        report.nodes = nodes_in(lines, report.counts[0].nodes)
        take_marks(lines, report.counts[0].marks())
    return report


def take_paths(lines, report):
    """Reads the better paths and the path; or the blocks of `watch`, of which the last has the path."""
    while True:
        take_better(lines, report.better)
        report.path = []
        take_path(lines, report)
        if report.better and report.better[-1][0] != report.cost:
            raise NoReport("its last better path does not cost what its path does")
        if not (report.better and lines.take_empty() and lines.next().startswith("better ")):
            return


def take_better(lines, better):
    """Adds the cost and the marks of each better path."""
    while lines.next().startswith("better "):
        cost, marks = lines.take("a better path", BETTER, MOST_COST, MOST_MARKS)
        if better and marks <= better[-1][1]:
            raise NoReport(f"line {lines.taken} has no more marks than the one before")
        better.append((cost, marks))


def take_path(lines, report):
    """Reads the path. The report of `trial` says how many points it has, and lists none."""
    if lines.next() == "no path":
        lines.taken += 1
        return
    what = "`no path`, or the length and the cost of a path"
    report.length, report.cost = lines.take(what, PATH, MOST_COUNT, MOST_COST)
    if report.length > 0 and not lines.next().startswith("nodes "):
        for number in range(report.length):
            point = lines.take(f"point {number + 1} of {report.length} of the path", POINT, *[MOST_COORDINATE] * 2)
            report.path.append(tuple(point))


def counts_in(lines):
    """The counts of one tree, or of two."""
    if not lines.next().startswith(START):
        return [counts_of(lines, "")]
    return [counts_of(lines, START), counts_of(lines, GOAL)]


def counts_of(lines, tree):
    """The counts of a tree, in a line that begins with its name."""
    line = lines.next().removeprefix(tree) if lines.next().startswith(tree) else ""
    numbers = fit(COUNTS.fullmatch(line) or INFORMED_COUNTS.fullmatch(line), *[MOST_COUNT] * len(line.split()[1::2]))
    if numbers is None:
        raise lines.none(f"the counts of {tree}nodes")
    lines.taken += 1
    return Counts(*numbers)


def nodes_in(lines, count):
    """The point and the parent of each of so many nodes by its number: the start is 0, and numbers rise."""
    nodes, before = {}, -1
    for _ in range(count):
        number, x, y, parent, _ = lines.take("a node", NODE, MOST_MARKS, *[MOST_COORDINATE] * 2, MOST_MARKS, MOST_COST)
        if number <= before or (number > 0 and before < 0):
            raise NoReport(f"line {lines.taken}: node {number} is not in its order")
        nodes[number], before = ((x, y), parent), number
    orphan = next((number for number, (_, parent) in nodes.items() if parent not in nodes), None)
    if orphan is not None:
        raise NoReport(f"the parent of node {orphan} has no line")
    return nodes


def take_marks(lines, count):
    """Passes over the lines of so many marks."""
    for number in range(count):
        line = lines.next()
        match = MARK.fullmatch(line) or SKIPPED.fullmatch(line)
        if not match or match[1] != str(number):
            raise lines.none(f"mark {number}")
        lines.taken += 1


def check_scene(scene, report):
    """Refuses the report of another scene, as far as that shows."""
    points = report.path + [point for point, _ in report.nodes.values()]
    starts = report.path[:1] + [point for number, (point, _) in report.nodes.items() if number == 0]
    marks = len(scene.marks) if scene.drawn is None else scene.drawn
    signs = {
        "it does not begin at the start of this one": any(point != scene.start for point in starts),
        "it has points outside of this room": any(x > scene.room[0] or y > scene.room[1] for x, y in points),
        f"this one has {marks} marks": any(counts.marks() != marks for counts in report.counts),
        "one of them is informed": any((counts.skipped is not None) != scene.informed for counts in report.counts),
        "the start of this one is blocked": not report.refusal and not is_clear_at(scene, scene.start),
    }
    sign = next((sign for sign, is_shown in signs.items() if is_shown), None)
    if sign:
        raise NoReport(f"the report of another scene: {sign}")
