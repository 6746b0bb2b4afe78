#!/usr/bin/env python3
"""Judges a full report: whether it is the report of a lawful, settled run of its scene, whoever planned it.

Usage: judge.py SCENE < REPORT. It writes `lawful`, or `broken line L law N` and the reason: the first line that breaks
the least law that is broken. It ends with 0 or 1.

The laws, from the rules of docs/planning.md: 1, the form of each line; 2, each node stands alone, below its parent by a
clear edge no longer than the step, at its sum; 3, the turns of each worker from 0 without a gap or a repeat; 4, a node
for each placed mark and for no other; 5, each record by what its worker must have known when it handled the mark; 6,
the lines of the short report.
"""

import bisect
import random
import sys

from kimorefo.geometry import Space, squared_distance
from kimorefo.reports import COUNTS, INFORMED_COUNTS, MARK, NODE, PATH, POINT, SKIPPED, fit
from kimorefo.scene_text import read
from rules import bound, class_of, cost, mark_points, radius_of_class, steer
from textbook import Record, Tree, head_lines
from usage import words_or_usage

MOST_WORKERS = 64


class Wrong(Exception):
    """Something in a report is wrong, for this reason."""


class Broken(Exception):
    """A line of a full report breaks a law, for this reason."""

    def __init__(self, law, line, reason):
        super().__init__(f"broken line {line} law {law}: {reason}")


def need(holds, reason):
    """Refuses what is looked at unless the condition holds."""
    if not holds:
        raise Wrong(reason)


class Lines:
    """The lines of a text, one after another."""

    def __init__(self, text):
        *self.lines, self.rest = text.split("\n")
        self.taken = 0

    def take(self, what, read):
        """What the next line says, by a function that gives None for a line that does not have the form."""
        self.taken += 1
        said = read(self.lines[self.taken - 1]) if self.taken <= len(self.lines) else None
        if said is None:
            raise Broken(1, self.taken, f"there is no line of {what}")
        return said

    def end(self):
        """Nothing comes after the lines that were taken."""
        if self.taken < len(self.lines) or self.rest:
            raise Broken(1, self.taken + 1, "there are lines left")


class Judge:
    """A report beside its scene. With a number given, only so many drawn nodes and marks are looked at, of a large report."""

    def __init__(self, scene, text, most=None):
        self.scene, self.most = scene, most
        self.space = Space(scene)
        self.marks = mark_points(scene, self.space)
        self.tree = Tree(scene.start)
        self.costs, self.ranked, self.records = {}, {}, []
        self.parse(Lines(text))

    def parse(self, lines):
        """Law 1: reads the lines."""
        points, nodes = lines.take("the path", self.path_of), None
        for _ in range(points):
            lines.take("a point of the path", lambda line: fit(POINT.fullmatch(line), 2**20, 2**20))
        form, count = (INFORMED_COUNTS, 5) if self.scene.informed else (COUNTS, 4)
        nodes = lines.take("counts", lambda line: fit(form.fullmatch(line), *[2**64] * count))[0]
        self.head = lines.lines[: lines.taken]
        before = -1
        for _ in range(max(nodes, 1)):
            n, x, y, parent, kept = lines.take("a node", lambda line: self.node_of(line, before, nodes))
            before = n
            self.tree.points[n], self.tree.parents[n], self.costs[n] = (x, y), parent, kept
        self.order = list(self.costs)
        for k in range(len(self.marks)):
            self.records.append(lines.take(f"mark {k}", lambda line: self.record_of(line, k)))
        lines.end()

    def path_of(self, line):
        """How many points the path has, by the first line."""
        numbers = [0] if line == "no path" else fit(PATH.fullmatch(line), 2**64, 2**44)
        return numbers and numbers[0]

    def node_of(self, line, before, nodes):
        """The numbers of a node's line: the first node is the start, and numbers rise."""
        bound = len(self.marks) + 1
        numbers = fit(NODE.fullmatch(line), bound, 2**20, 2**20, bound, 2**44)
        return numbers if numbers and nodes > 0 and before < numbers[0] and (before >= 0 or numbers[0] == 0) else None

    def record_of(self, line, k):
        """The record of mark k by its line. Only the report of an informed scene has lines of skipped marks."""
        skipped, nodes = self.scene.informed and SKIPPED.fullmatch(line), len(self.marks) + 1
        match = skipped or MARK.fullmatch(line)
        if not match or match[1] != str(k):
            return None
        own = [k + 1, MOST_WORKERS, 2**18, nodes]
        if skipped:
            numbers = fit(match, *own)
            return numbers and Record(*numbers[1:], "skipped")
        if match[5]:
            numbers = fit(match, *own, 2**18, nodes, 2**44)
            return numbers and Record(*numbers[1:4], "placed", *numbers[4:])
        if match[9]:
            numbers = fit(match, *own, nodes)
            return numbers and Record(*numbers[1:4], "same", numbers[4])
        numbers = fit(match, *own)
        return numbers and Record(*numbers[1:], "blocked")

    def node_line(self, place):
        """The number of a node's line, by its place among those of nodes."""
        return len(self.head) + place + 1

    def mark_line(self, k):
        """The number of a mark's line."""
        return len(self.head) + len(self.order) + k + 1

    def drawn(self, numbers):
        """The numbers of nodes or marks that are looked at."""
        numbers = list(numbers)
        return numbers if self.most is None else sorted(random.Random(0).sample(numbers, min(self.most, len(numbers))))

    def check(self):
        """Checks laws 2 to 6, one after another, each line by line."""
        self.first_at = {}
        for n in self.order:
            self.first_at.setdefault(self.tree.points[n], n)
        for place in self.drawn(range(len(self.order))):
            self.hold(2, self.node_line(place), self.check_node, self.order[place])
        self.count_turns()
        for law, check in ((3, self.check_turn), (4, self.check_presence)):
            for k, record in enumerate(self.records):
                self.hold(law, self.mark_line(k), check, k, record)
        self.sort_turns()
        for k in self.drawn(range(len(self.records))):
            self.hold(5, self.mark_line(k), self.check_record, k, self.records[k])
        own = head_lines(self.tree, self.records, self.scene)
        for i, line in enumerate(self.head):
            if line != (own[i] if i < len(own) else None):
                raise Broken(6, i + 1, "the short report is another one")

    def hold(self, law, line, check, *about):
        """Checks a law at a line."""
        try:
            check(*about)
        except Wrong as wrong:
            raise Broken(law, line, wrong) from None

    def edge(self, a, b, what):
        """The cost of an edge that has to be clear and no longer than the step."""
        need(squared_distance(a, b) <= self.scene.step**2, f"{what}: the edge is too long")
        need(self.space.is_clear(a, b), f"{what}: the edge is not clear")
        return cost(a, b)

    def check_node(self, n):
        """A node stands alone and hangs below its parent, and its cost is its parent's and the edge."""
        points, parent = self.tree.points, self.tree.parents[n]
        if n == 0:
            need(points[0] == self.scene.start and parent == 0 and self.costs[0] == 0, "node 0 is not the start")
        else:
            need(self.first_at[points[n]] == n, f"node {n} stands where another does")
            need(parent in self.costs and parent != n, f"node {n} has no parent")
            edge = self.edge(points[parent], points[n], f"node {n}")
            need(self.costs[n] == self.costs[parent] + edge, f"the cost of node {n} is not its sum")

    def count_turns(self):
        """Counts the marks of each worker."""
        self.handled, self.taken = {}, set()
        for record in self.records:
            self.handled[record.worker] = self.handled.get(record.worker, 0) + 1

    def check_turn(self, k, record):
        """The turn of a mark is below the number of its worker's marks, and that of no earlier one."""
        turn = record.worker, record.turn
        need(record.turn < self.handled[record.worker] and turn not in self.taken, f"the turn of mark {k} is not its own")
        self.taken.add(turn)

    def check_presence(self, k, record):
        """A placed mark has a node, and no other."""
        need((record.outcome == "placed") == (k + 1 in self.costs), f"mark {k} and node {k + 1} do not agree")

    def sort_turns(self):
        """Keeps the placed nodes of each worker by turn."""
        self.placed = {}
        for worker in self.handled:
            placed = sorted((r.turn, k + 1) for k, r in enumerate(self.records) if r.worker == worker and r.outcome == "placed")
            self.placed[worker] = [turn for turn, _ in placed], [node for _, node in placed]

    def earlier_nodes(self, record):
        """The start, and the nodes that its worker had placed before it handled the mark of a record."""
        turns, nodes = self.placed[record.worker]
        return [0] + nodes[: bisect.bisect_left(turns, record.turn)]

    def least_rank(self, mark, record):
        """The least pair of squared distance and number among the earlier nodes. Each node is looked at once for a point."""
        turns, nodes = self.placed[record.worker]
        count = bisect.bisect_left(turns, record.turn)
        begin = 0, (squared_distance(self.tree.points[0], mark), 0)
        seen, least = self.ranked.get((record.worker, mark), begin)
        if seen > count:
            seen, least = begin
        for node in nodes[seen:count]:
            least = min(least, (squared_distance(self.tree.points[node], mark), node))
        self.ranked[record.worker, mark] = count, least
        return least

    def first_cost(self, n):
        """What a node cost when it was placed."""
        return 0 if n == 0 else self.records[n - 1].first_cost

    def check_record(self, k, record):
        """What the record of mark k says is borne out by the tree and the earlier nodes of its worker."""
        points, mark, what = self.tree.points, self.marks[k], f"mark {k}"
        m = record.nearest
        if record.outcome == "skipped":
            self.check_skipped(m, mark, what)
            return
        self.check_unskipped(mark, record, what)
        need(m in points, f"{what}: there is no nearest node")
        need((squared_distance(points[m], mark), m) <= self.least_rank(mark, record), f"{what}: an earlier node is nearer")
        p = steer(points[m], mark, self.scene.step)
        if record.outcome == "same":
            need(points.get(record.other) == p, f"{what}: the node stands at another point")
        elif record.outcome == "blocked":
            need(not self.space.is_clear(points[m], p), f"{what}: the edge is clear")
            need(all(points[i] != p for i in self.earlier_nodes(record)), f"{what}: an earlier node stands there")
        else:
            self.check_placed(k, record, self.earlier_nodes(record), p)

    def bound(self, mark):
        """What a path over a mark costs at least."""
        return bound(self.scene.start, self.scene.goals, mark)

    def check_skipped(self, g, mark, what):
        """A skipped mark names a goal node that costs no more than the bound of the mark."""
        need(g in self.tree.points and self.scene.is_goal_point(self.tree.points[g]), f"{what}: node {g} lies in no goal")
        need(self.costs[g] <= self.bound(mark), f"{what}: node {g} costs more than the bound")

    def check_unskipped(self, mark, record, what):
        """Each earlier goal node of the worker cost more at first than the bound of a mark that is not skipped."""
        if self.scene.informed:
            goal_nodes = [n for n in self.earlier_nodes(record) if self.scene.is_goal_point(self.tree.points[n])]
            least = min(map(self.first_cost, goal_nodes), default=None)
            need(least is None or self.bound(mark) < least, f"{what}: it was to be skipped")

    def check_placed(self, k, record, earlier, p):
        """What holds of a mark that was placed at p."""
        points, costs, what = self.tree.points, self.costs, f"mark {k}"
        m, f, c, digits = record.nearest, record.first_parent, record.first_cost, record.other
        need(self.space.is_clear(points[m], p) and points[k + 1] == p, f"{what}: its node stands at another point")
        need(class_of(len(earlier)) <= digits <= class_of(len(points)), f"{what}: it has another class")
        need(f in points and k + 1 not in (m, f), f"{what}: it has no first parent")
        edge = self.edge(points[f], p, what)
        need(costs[f] + edge <= c <= self.first_cost(f) + edge, f"{what}: the first cost is not that of its parent")
        need(c <= self.first_cost(m) + cost(points[m], p), f"{what}: the nearest node is a cheaper parent")
        need(c <= 256 * self.scene.step * (len(points) - 1), f"{what}: the first cost is past the bound")
        need(costs[k + 1] <= c, f"{what}: its node costs more than at first")
        radius = radius_of_class(self.scene.step, self.scene.gamma, digits)
        for i in earlier:
            if squared_distance(points[i], p) <= radius * radius and self.space.is_clear(points[i], p):
                near = cost(points[i], p)
                need(c <= self.first_cost(i) + near, f"{what}: near node {i} is a cheaper parent")
                need(costs[i] <= c + near, f"{what}: near node {i} was not rewired")


def check_short(scene, text):
    """Checks what a short report alone can show: the path is clear and costs what it says, and each mark is counted once."""
    need(text.endswith("\n"), "the last line has no line feed")
    first, *middle, last = text[:-1].split("\n")
    counts = (INFORMED_COUNTS if scene.informed else COUNTS).fullmatch(last)
    need(counts, "there is no line of counts")
    nodes, *handled = map(int, counts.groups())
    marks = len(scene.marks) if scene.drawn is None else scene.drawn
    need(nodes == handled[0] + 1 and sum(handled) == marks, "the counts do not add up")
    if first == "no path":
        need(not middle and not scene.is_goal_point(scene.start), "there is a path")
        return
    matches = [PATH.fullmatch(first), *(POINT.fullmatch(line) for line in middle)]
    need(all(matches), "not the lines of a path")
    path = [(int(match[1]), int(match[2])) for match in matches[1:]]
    need(len(path) == int(matches[0][1]) >= 1, "the path has another number of points")
    need(path[0] == scene.start and scene.is_goal_point(path[-1]), "the path does not lead from the start into a goal")
    space, edges = Space(scene), list(zip(path, path[1:]))
    need(space.is_clear(path[0], path[0]) and all(space.is_clear(a, b) for a, b in edges), "the path is not clear")
    need(all(squared_distance(a, b) <= scene.step**2 for a, b in edges), "an edge of the path is too long")
    need(sum(cost(a, b) for a, b in edges) == int(matches[0][2]), "the cost of the path is not its sum")


def verdict(scene, text, full=True, most=None):
    """`lawful`, or the reason why the report is not. Of a short one, only what it shows is checked."""
    try:
        if full:
            Judge(scene, text, most).check()
        else:
            check_short(scene, text)
    except (Wrong, Broken) as found:
        return str(found)
    return "lawful"


if __name__ == "__main__":
    with open(words_or_usage(__doc__)[0], "rb") as file:
        answer = verdict(read(file.read()), sys.stdin.buffer.read().decode("latin-1"))
    print(answer)
    sys.exit(0 if answer == "lawful" else 1)
