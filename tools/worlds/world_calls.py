"""The calls of a pass, one step at a time, by the planner's rules for a mark (docs/planning.md).

Each call is a generator: it yields a step, as the name of a method of `Steps` and its arguments, and is sent what the step
returned. It yields None where nothing is under way, so that the pass may make other steps in between.
"""

from kimorefo.geometry import squared_distance
from rules import class_of, cost, radius_of_class, steer
from textbook import Record
from world_words import best_in, goes_right


class Pass:
    """The calls of one view of a world."""

    def __init__(self, steps, i, rng):
        self.steps, self.run, self.i, self.rng = steps, steps.run, i, rng

    @property
    def view(self):
        """Its view now."""
        return self.steps.view(self.i)

    def tree(self):
        """The tree as far as it has seen it."""
        return self.steps.tree(self.i)

    def step(self, kind, *arguments):
        """One step."""
        return (yield kind, (self.i, *arguments))

    # ---- searches

    def search(self, p, reaches):
        """Visits each node that no line splits off by more than the search reaches: its number and its squared distance."""
        run, stack = self.run, [(0, 0, 0)]
        while stack:
            node, depth, gap = stack.pop()
            if gap * gap > reaches():
                continue
            yield from self.step("load", run.point(node))
            here = self.tree().point(node)
            self.visit(node, squared_distance(here, p))
            right, line = goes_right(depth, here, p), abs(here[depth % 2] - p[depth % 2])
            for side, split in ((not right, max(gap, line)), (right, gap)):
                child = 0
                if side == right or split * split <= reaches() or self.rng.random() < 0.1:
                    child = yield from self.step("load", run.child(node, int(side)))
                if child:
                    stack.append((child, depth + 1, split))

    def nearest(self, p):
        """The nearest node to p, of equally near ones that of the least number."""
        self.found = []
        self.visit = lambda node, distance: self.found.append((distance, node))
        yield from self.search(p, lambda: min(self.found)[0] if self.found else 1 << 40)
        return min(self.found)[1]

    def near(self, p, radius):
        """The nodes within the radius of p, in rising number."""
        self.found = []
        self.visit = lambda node, distance: distance <= radius**2 and self.found.append(node)
        yield from self.search(p, lambda: radius**2)
        return sorted(self.found)

    def walk(self, p):
        """Walks the way of p by loads. The depth and the node that it comes to: that is at p, or has no child on the side of p."""
        node = 0
        for depth in range(self.run.nodes + 1):
            yield from self.step("load", self.run.point(node))
            here = self.tree().point(node)
            if here == p:
                return depth, node
            child = yield from self.step("load", self.run.child(node, int(goes_right(depth, here, p))))
            if not child:
                return depth, node
            node = child
        raise RuntimeError("a way is longer than there are nodes")

    def find(self, p):
        """The node at p, or None."""
        _, node = yield from self.walk(p)
        return node if self.tree().point(node) == p else None

    # ---- marks

    def claim(self, limit):
        """A mark below the limit, or None."""
        run, worker = self.run, self.view.crew[0][0]

        def order(strip):
            return strip % run.workers != worker, self.view.seen[run.counter(strip)] * run.strips + strip

        while True:
            for strip in range(run.strips):
                yield from self.step("load", run.counter(strip))
            opened = [strip for strip in range(run.strips) if order(strip)[1] < limit]
            if not opened:
                return None
            if (yield from self.step("claim", min(opened, key=order), limit)):
                return self.view.hand.mark

    def extend(self):
        """The mark in hand, whole. Its record."""
        run, mark = self.run, self.run.marks[self.view.hand.mark]
        if run.goals:
            yield from self.step("load_best")
            if self.steps.is_skipped(self.view.hand):
                return (yield from self.finish(best_in(self.view.hand.best)[1], "skipped", 0))
        yield None
        nearest = yield from self.nearest(mark)
        start = self.tree().point(nearest)
        p = steer(start, mark, run.step)
        yield None
        digits = class_of((yield from self.step("load", self.run.count)))
        yield None
        near = yield from self.near(p, radius_of_class(run.step, run.gamma, digits))
        yield None
        if start == p:
            return (yield from self.finish(nearest, "same", nearest))
        if not run.is_clear(start, p):
            node = yield from self.find(p)
            return (yield from self.finish(nearest, *(("blocked", 0) if node is None else ("same", node))))
        yield from self.step("write_point", nearest, p)
        yield from self.hang(nearest, near)
        yield None
        node = yield from self.place()
        if node is not None:
            return (yield from self.finish(nearest, "same", node))
        if run.lies_in_goal(p):
            yield from self.step("post", self.view.hand.node)
        yield None
        yield from self.rewire(near)
        yield None
        return (yield from self.finish(nearest, "placed", digits))

    def hang(self, nearest, near):
        """Writes the parent and the cost of the node in hand: those by which it costs the least."""
        run, p = self.run, self.view.hand.point
        for node in [nearest, *near]:
            yield from self.step("load", run.tree(node))
        tree = self.tree()
        open_nodes = [n for n in {nearest, *near} if n == nearest or run.is_clear(tree.points[n], p)]
        kept, parent = min((tree.cost(n) + cost(tree.points[n], p), n) for n in open_nodes)
        yield from self.step("write_first", parent, kept)
        yield from self.step("write_tree")

    def place(self):
        """Links the node in hand and counts it: None, or the node that is at its point."""
        p = self.view.hand.point
        depth, node = yield from self.walk(p)
        while self.tree().point(node) != p:
            child = yield from self.step("link", node, int(goes_right(depth, self.tree().point(node), p)))
            if not child:
                yield from self.step("count")
                return None
            depth, node = depth + 1, child
            yield from self.step("load", self.run.point(node))
        return node

    # ---- rewiring

    def rewire(self, near):
        """The node in hand becomes the parent of each near node that is then cheaper, over a clear edge."""
        run, node, p = self.run, self.view.hand.node, self.view.hand.point
        for n in near:
            if self.tree().pair(n) is None:
                yield from self.step("load", run.tree(n))
            yield from self.step("load", run.point(n))
            at = self.tree().point(n)
            limit = self.tree().cost(node) + cost(p, at)
            if limit < self.tree().cost(n) and run.is_clear(p, at):
                while limit < self.tree().cost(n):
                    yield from self.lower(n, node, limit)
                yield from self.spread(n)

    def lower(self, node, parent, kept):
        """Lowers a node, and posts it if it lies in a goal. Whether it was lowered."""
        lowered = yield from self.step("lower", node, parent, kept)
        if lowered and self.run.goals:
            yield from self.step("load", self.run.point(node))
            if self.run.lies_in_goal(self.tree().point(node)):
                yield from self.step("post", node)
        return lowered

    def children(self, node):
        """The nodes whose parent this one was seen to be last."""
        tree = self.tree()
        return [n for n in range(1, self.run.nodes) if tree.pair(n) and tree.parent(n) == node]

    def spread(self, node):
        """Lowers the subtree of a node whose cost fell."""
        waiting = self.children(node)
        while waiting:
            n = waiting.pop()
            if (yield from self.settle(n)):
                waiting += [child for child in self.children(n) if child not in waiting]

    def settle(self, n):
        """Lowers a node until it costs no more than through its parent, both as seen last. Whether its cost fell."""
        fell = False
        while True:
            parent, kept = self.tree().pair(n)
            if self.tree().pair(parent) is None:
                return fell
            yield from self.step("load", self.run.point(n))
            yield from self.step("load", self.run.point(parent))
            tree = self.tree()
            through = tree.cost(parent) + cost(tree.point(parent), tree.point(n))
            if through >= kept:
                return fell
            fell = True
            if (yield from self.lower(n, parent, through)):
                return fell

    def shorten(self, times):
        """Lowers of some nodes below any parents, as no rule of the planner asks for, and what they let fall is spread."""
        for _ in range(times):
            tree = self.tree()
            seen = [n for n in tree.present if tree.pair(n)]
            ways = [(n, parent, self.steps.cost_below(self.i, tree.points[n], parent)) for n in seen for parent in seen if parent != n]
            ways = [way for way in ways if way[2] is not None and self.steps.may_lower(self.i, *way)]
            if ways:
                node, parent, kept = self.rng.choice(ways)
                yield from self.lower(node, parent, kept)
                yield from self.spread(node)
            yield None

    # ---- records

    def finish(self, nearest, outcome, other):
        """Stores the record of the mark in hand."""
        hand, (worker, turn) = self.view.hand, self.view.crew[0]
        parent, kept = (hand.parent, hand.cost) if outcome == "placed" else (0, 0)
        entry = Record(worker, turn, nearest, outcome, other, parent, kept)
        yield from self.step("finish", entry)
        return entry
