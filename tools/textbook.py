#!/usr/bin/env python3
"""Textbook RRT* from the rules alone (docs/planning.md): a scene on standard input, its report on standard output.

It keeps no costs: every cost-to-come is the sum along the parents, taken anew. So it is slow, and has little to get wrong.
Usage: textbook.py short < SCENE, or textbook.py full < SCENE, for the short or the full report. It ends with the
statuses of the planner: 0, 1, 3 and 4.
"""

import sys
from dataclasses import dataclass

from kimorefo.geometry import Space, squared_distance
from kimorefo.scene_text import MOST_TEXT_BYTES, Fault, read
from rules import bound, class_of, cost, mark_points, radius_of_class, steer
from usage import words_or_usage


@dataclass
class Record:
    """What became of a mark: `outcome` is placed, same, blocked or skipped; `other` the class or the node of the first two.

    `nearest` is the nearest node, of a skipped mark the goal node by which it is skipped.
    """

    worker: int
    turn: int
    nearest: int
    outcome: str
    other: int = 0
    first_parent: int = 0
    first_cost: int = 0


class Tree:
    """Nodes by number, each with a point and a parent; a mark that was not placed has none."""

    def __init__(self, start):
        self.points = {0: start}
        self.parents = {0: 0}

    def chain(self, node):
        """The node, its parent, and so on up to node 0."""
        chain = [node]
        while chain[-1] != 0:
            chain.append(self.parents[chain[-1]])
        return chain

    def sum(self, node):
        """The cost-to-come of a node: the costs of the edges along its chain."""
        chain = self.chain(node)
        return sum(cost(self.points[a], self.points[b]) for a, b in zip(chain[1:], chain))


def plan(scene, space, marks):
    """The tree and the records of the textbook run."""
    tree, records = Tree(scene.start), []
    for k, mark in enumerate(marks):
        records.append(handle(tree, scene, space, k, mark))
    return tree, records


def handle(tree, scene, space, k, mark):
    """Handles one mark, and gives its record."""
    points = tree.points
    best = best_node(tree, scene) if scene.informed else None
    if best is not None and tree.sum(best) <= bound(scene.start, scene.goals, mark):
        return Record(0, k, best, "skipped")
    nearest = min(points, key=lambda i: (squared_distance(points[i], mark), i))
    p = steer(points[nearest], mark, scene.step)
    for node, point in points.items():
        if point == p:
            return Record(0, k, nearest, "same", node)
    if not space.is_clear(points[nearest], p):
        return Record(0, k, nearest, "blocked")
    digits = class_of(len(points))
    radius = radius_of_class(scene.step, scene.gamma, digits)
    near = sorted(i for i in points if squared_distance(points[i], p) <= radius * radius)
    ways = sorted((tree.sum(i) + cost(points[i], p), i) for i in {nearest, *near})
    first_cost, parent = next(way for way in ways if space.is_clear(points[way[1]], p))
    points[k + 1], tree.parents[k + 1] = p, parent
    for i in near:
        if first_cost + cost(p, points[i]) < tree.sum(i) and space.is_clear(p, points[i]):
            tree.parents[i] = k + 1
    return Record(0, k, nearest, "placed", digits, parent, first_cost)


def best_node(tree, scene):
    """The goal node with the least pair of sum and number, or None."""
    inside = [n for n, p in tree.points.items() if scene.is_goal_point(p)]
    return min(inside, key=lambda n: (tree.sum(n), n), default=None)


def head_lines(tree, records, scene):
    """The lines of the short report."""
    best = best_node(tree, scene)
    if best is None:
        lines = ["no path"]
    else:
        path = [tree.points[n] for n in reversed(tree.chain(best))]
        lines = [f"path {len(path)} cost {tree.sum(best)}", *(f"{x} {y}" for x, y in path)]
    outcomes = ("placed", "same", "blocked", *(("skipped",) if scene.informed else ()))
    counts = (f"{outcome} {sum(r.outcome == outcome for r in records)}" for outcome in outcomes)
    return lines + [" ".join([f"nodes {len(tree.points)}", *counts])]


def mark_line(k, record):
    """The line of a mark in the full report."""
    if record.outcome == "skipped":
        return f"mark {k} worker {record.worker} turn {record.turn} skipped by {record.nearest}"
    outcome = {
        "placed": f"placed class {record.other} first {record.first_parent} {record.first_cost}",
        "same": f"same {record.other}",
        "blocked": "blocked",
    }[record.outcome]
    return f"mark {k} worker {record.worker} turn {record.turn} nearest {record.nearest} {outcome}"


def report(tree, records, scene, full):
    """The report as text."""
    lines = head_lines(tree, records, scene)
    if full:
        for n, (x, y) in sorted(tree.points.items()):
            lines.append(f"node {n} at {x} {y} parent {tree.parents[n]} cost {tree.sum(n)}")
        lines += [mark_line(k, record) for k, record in enumerate(records)]
    return "".join(line + "\n" for line in lines)


def answer(text, full):
    """What the planner is to write for the bytes of a scene, and its status."""
    if len(text) > MOST_TEXT_BYTES:
        return "text too long\n", 3
    try:
        scene = read(text)
    except Fault as fault:
        return f"{fault}\n", 3
    space = Space(scene)
    if not space.is_clear(scene.start, scene.start):
        return "start blocked\n", 4
    tree, records = plan(scene, space, mark_points(scene, space))
    status = 1 if best_node(tree, scene) is None else 0
    return report(tree, records, scene, full), status


if __name__ == "__main__":
    full = words_or_usage(__doc__) == ["full"]
    output, code = answer(sys.stdin.buffer.read(), full)
    sys.stdout.write(output)
    sys.exit(code)
