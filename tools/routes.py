#!/usr/bin/env python3
"""Looks whether listed routes are followed, and whether any chain of samples is cheaper than the path, on random scenes.

Usage: routes.py PROGRAM [COUNT [FIRST]], of 10,000 scenes from 0 on if left out. Of each it takes the full reports of
textbook.py and, by a built program, of `plan 1`, `plan 2` and `plan 4`. A link of a route is at most a step long, and
from each clear lattice point that is no farther from its end than its beginning is, the segment to its end is clear.
- followed: with one worker a node stands at each point of a route whose marks have rising numbers, or the scene is
  informed and some node lies in a goal; if the route ends in a goal, there is a path.
- handed: so it is with several, if one of them handled the marks of the route in rising turns, and each but the last
  ended placed, or the same as a node of its own that stood before.
- chains: no node costs more than a chain of nodes to it, from the start over nodes that one worker placed in rising
  turns, each within the radius of its class from the one before, over clear edges. The last two may change places.
- bounded: with one worker the path costs no more than a route into a goal whose links are no longer than the radius at
  as many nodes as there may be, if of its marks no two that follow each other ended at older nodes.
- skipped: nor more than the bound of a skipped mark, and that no more than a route over it into a goal.
- seen: the same as `followed` by eye: each rational point that is no farther from the end of a link than its beginning
  is clear, or, without a clearance, the body is clear at the end, and farther than the link from all obstacles.

All routes and chains of a report are looked at: the longest are counted, the cheapest held against it. It prints in how
many reports some route or chain of three links or more meets all premises, and ends with 1 if a statement was false, or
if fewer than 1,000 of the textbook have such a route for `bounded`.

Usage: routes.py --loosen PROGRAM [COUNT [FIRST]], of 1,000 scenes at most. It loosens one premise after another, names
the first scene in which the statement is false then, and ends with 1 if there is none for some premise:
"""

import os
import subprocess
import sys
from collections import Counter
from concurrent.futures import ProcessPoolExecutor
from functools import partial
from itertools import islice
from math import inf

from judge import Judge
from kimorefo.geometry import Space, squared_distance
from kimorefo.reports import PATH
from route_links import Links, around
from route_scenes import crowded_scene_of, least_radius, scene_of
from rules import bound, cost, radius_of_class
from textbook import answer
from usage import words_or_usage

# The premises that can be loosened, each with the statement that is false then, and how it is.
LOOSENED = {
    "step": ("followed", "a link may be one longer than a step"),
    "disc": ("followed", "a link has to be clear, and other segments to its end need not be"),
    "lattice": ("followed", "the lattice points in the disc of a link are clear, and segments to its end need not be"),
    "numbers": ("followed", "the marks of a route have falling numbers"),
    "hands": ("handed", "several workers may have handled the marks of a route"),
    "turns": ("chains", "the nodes of a chain were placed in falling turns"),
    "radius": ("chains", "an edge of a chain may be one longer than the radius"),
    "edges": ("chains", "the edges of a chain need not be clear"),
    "workers": ("chains", "several workers may have placed the nodes of a chain"),
    "least": ("bounded", "a link may be one longer than the least radius"),
    "older": ("bounded", "marks that follow each other may both have ended at older nodes"),
}
__doc__ += "".join(f"- {name}, of {what}: {how}.\n" for name, (what, how) in LOOSENED.items())

ONE_WORKER = ("textbook", "plan 1")
OF_ONE_WORKER = ("followed", "bounded")
SEVERAL_WORKERS = ("plan 2", "plan 4")
# One number in so many has a crowded scene too. Of its marks only so many of each worker are held against routes.
CROWDED_EVERY = 50
MOST_MARKS = 500
LEAST_LINKS = 3
LEAST_ROUTES = 1_000


class Run:
    """A full report beside the links of its scene, and what of the statements is false of it."""

    def __init__(self, links, report):
        read = Judge(links.scene, report)
        self.scene, self.loose, self.space, self.links = links.scene, links.loose, links.space, links
        self.marks, self.records = read.marks, read.records
        self.points, self.costs = read.tree.points, read.costs
        path = PATH.fullmatch(read.head[0])
        self.cost = int(path[2]) if path else inf
        self.stands = set(self.points.values())
        self.has_goal_node = any(map(self.scene.is_goal_point, self.stands))
        self.longest, self.false = Counter(), set()

    def note(self, what, links, holds):
        """Keeps the most links of a statement, and that it is false."""
        self.longest[what] = max(self.longest[what], links)
        if not holds:
            self.false.add(what)

    def point(self, k):
        """The point of mark k, or the start for None."""
        return self.scene.start if k is None else self.marks[k]

    def look_at_routes(self):
        """The statements of one worker."""
        order = list(range(len(self.marks)))
        if self.loose == "numbers":
            order.reverse()
        self.look_whether_followed("followed", order, self.links.may_have)
        self.look_whether_bounded(order)
        if not self.loose:
            self.look_whether_followed("seen", order, self.links.is_seen)

    def look_at_workers(self):
        """The statements of any number of workers."""
        for handled in self.handled_by_each("hands"):
            self.look_whether_followed("handed", handled[:MOST_MARKS], self.links.may_have, self.stood_by_its_worker)
        for handled in self.handled_by_each("workers"):
            self.look_at_chains([k + 1 for k in handled if k + 1 in self.costs])

    def handled_by_each(self, together):
        """The marks of each worker in their turns, or of all workers if the premise of this name is loosened."""
        marks = list(range(len(self.marks)))
        if self.loose == together == "hands":
            return [marks]
        marks.sort(key=lambda k: self.records[k].turn, reverse=self.loose == "turns")
        if self.loose == together == "workers":
            return [marks]
        return [[k for k in marks if self.records[k].worker == worker] for worker in {r.worker for r in self.records}]

    def stood_by_its_worker(self, k):
        """Whether mark k ended placed, or the same as a node that its worker had placed before, or as the start."""
        record = self.records[k]
        if record.outcome != "same" or record.other == 0:
            return record.outcome in ("placed", "same")
        other = self.records[record.other - 1]
        return self.loose == "hands" or other.worker == record.worker and other.turn < record.turn

    def look_whether_followed(self, what, order, may_have, may_go_on=None):
        """Looks for nodes at the ends of all routes over marks in this order: such links, and all marks but the last may go on."""
        links = {self.scene.start: 0}
        for k in order:
            p = self.marks[k]
            before = [q for q in around(p, self.links.longest) if q in links and may_have(q, p)]
            most = max((links[q] + 1 for q in before), default=0)
            if most:
                followed = p in self.stands or (self.scene.informed and self.has_goal_node)
                self.note(what, most, followed and not (self.scene.is_goal_point(p) and self.cost == inf))
                if may_go_on is None or may_go_on(k):
                    links[p] = max(links.get(p, 0), most)

    def look_at_chains(self, nodes):
        """Holds the nodes against the cheapest chains over nodes in this order."""
        links, least, numbers = {0: 0}, {0: 0}, {self.points[0]: 0}
        for n in nodes:
            near = self.near_before(n, numbers)
            before = [m for m in near if m in least]
            numbers[self.points[n]] = n
            if before:
                links[n] = 1 + max(links[m] for m in before)
                least[n] = min(least[m] + near[m] for m in before)
                for m, way in [(n, least[n]), *((m, least[n] + near[m]) for m in near)]:
                    in_goal = self.scene.is_goal_point(self.points[m])
                    self.note("chains", links[n], self.costs[m] <= way and not (in_goal and self.cost > way))

    def near_before(self, n, numbers):
        """The nodes at some points that are near, by the class of the later one, with a clear edge; each with the cost of that."""
        p, near = self.points[n], {}
        for q in around(p, self.radius_at(n)):
            m = numbers.get(q)
            if m is None or (self.loose == "turns" and squared_distance(p, q) > self.radius_at(m or n) ** 2):
                continue
            if self.loose == "edges" or self.space.is_clear(p, q):
                near[m] = cost(p, q)
        return near

    def radius_at(self, n):
        """The radius of the class in the record of a node's mark."""
        return radius_of_class(self.scene.step, self.scene.gamma, self.records[n - 1].other) + (self.loose == "radius")

    def look_whether_bounded(self, order):
        """Holds the path against the cheapest route into a goal over marks in this order."""
        radius = least_radius(self.scene, len(self.marks)) + (self.loose == "least")
        links, least, over = {None: 0}, {None: 0}, {None: []}
        for k in order:
            before = [i for i in links if self.may_follow(i, k, radius)]
            if before:
                ways = {i: least[i] + cost(self.point(i), self.point(k)) for i in before}
                best = min(ways, key=ways.get)
                links[k], least[k], over[k] = 1 + max(links[i] for i in before), ways[best], over[best] + [k]
                if self.scene.is_goal_point(self.point(k)):
                    self.note("bounded", links[k], self.cost <= least[k])
                    self.look_at_skipped(over[k], least[k])

    def may_follow(self, i, k, radius):
        """Whether a route may lead from mark i, or the start, to mark k."""
        a, b = self.point(i), self.point(k)
        older = i is not None and self.loose != "older" and self.records[i].outcome == self.records[k].outcome == "same"
        return not older and squared_distance(a, b) <= radius**2 and self.links.may_have(a, b)

    def look_at_skipped(self, route, least):
        """Holds the bounds of the skipped marks of a route between the path and the route."""
        for k in route:
            if self.records[k].outcome == "skipped":
                low = bound(self.scene.start, self.scene.goals, self.marks[k])
                self.note("skipped", len(route), self.cost <= low <= least)


def report_of(program, words, scene):
    """The full report of a built program for these words."""
    done = subprocess.run([program, *words.split(), "full"], input=scene.text().encode(), capture_output=True, check=False, timeout=600)
    return done.stdout.decode()


def runs(program, loose, number):
    """The runs of the scenes of a number, looked at, each with what gave it."""
    scene = scene_of(number)
    links = Links(scene, Space(scene), loose)
    for planner in ONE_WORKER:
        report = answer(scene.text().encode(), True)[0] if planner == "textbook" else report_of(program, planner, scene)
        run = Run(links, report)
        run.look_at_routes()
        run.look_at_workers()
        yield planner, run
    yield from runs_of_several(program, links)
    if number % CROWDED_EVERY == 0:
        crowded = crowded_scene_of(number)
        for planner, run in runs_of_several(program, Links(crowded, Space(crowded), loose)):
            yield f"{planner}, crowded", run


def runs_of_several(program, links):
    """The runs of a scene by several workers, looked at, each with what gave it."""
    for planner in SEVERAL_WORKERS:
        run = Run(links, report_of(program, planner, links.scene))
        run.look_at_workers()
        yield planner, run


def looked_at(program, number):
    """What is counted of the scenes of a number, and what is false of them."""
    counts, false = Counter(), []
    for planner, run in runs(program, None, number):
        counts.update((planner, what) for what, links in run.longest.items() if links >= LEAST_LINKS)
        counts[planner, "by several workers"] += len({record.worker for record in run.records}) > 1
        false += [(number, planner, what) for what in sorted(run.false)]
    return counts, false


def look(program, numbers):
    """Looks at the scenes of some numbers; gives the counts, and what is false."""
    counts, false = Counter(), []
    with ProcessPoolExecutor(os.cpu_count()) as pool:
        for counted, found in pool.map(partial(looked_at, program), numbers, chunksize=16):
            counts.update(counted)
            false += found
    return counts, false


def main(program, count="10000", first="0"):
    """Looks whether the statements hold, and gives the exit status."""
    counts, false = look(program, range(int(first), int(first) + int(count)))
    for (planner, what), times in sorted(counts.items()):
        print(f"{planner}, {what}: {times}")
    for number, planner, what in false:
        print(f"false: scene {number}, {planner}, {what}")
    enough = counts["textbook", "bounded"] >= LEAST_ROUTES
    print(f"{count} scenes, {len(false)} false" + ("" if enough else f", fewer than {LEAST_ROUTES} routes"))
    return 0 if enough and not false else 1


def main_loosened(program, count="1000", first="0"):
    """Looks whether each loosened premise is found out, and gives the exit status."""
    reported = 0
    for loose, (what, how) in LOOSENED.items():
        most = 1 if what in OF_ONE_WORKER else None
        looked = ((n, *run) for n in range(int(first), int(first) + int(count)) for run in islice(runs(program, loose, n), most))
        number, planner = next(((n, planner) for n, planner, run in looked if what in run.false), (None, None))
        reported += planner is not None
        print(f"{loose}, of {what}: {how}: " + (f"false, scene {number}, {planner}" if planner else "not found out"))
    print(f"{reported} of {len(LOOSENED)} loosened premises reported")
    return 0 if reported == len(LOOSENED) else 1


if __name__ == "__main__":
    words = words_or_usage(__doc__)
    sys.exit(main_loosened(*words[1:]) if words[0] == "--loosen" else main(*words))
