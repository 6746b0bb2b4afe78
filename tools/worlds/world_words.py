"""The words of a shared run by their names, what a pass knows, and the tree that words say. See docs/words.md and docs/worlds.md."""

from dataclasses import dataclass

from kimorefo.geometry import Space, squared_distance
from rules import bound, mark_points
from textbook import Record

WRITTEN = 1 << 63
STAGES = ("claimed", "pointed", "half", "treed", "linked", "counted", "posted")
OUTCOMES = ("placed", "same", "blocked", "skipped")
NO_BEST = (1 << 64) - 1


def point_word(p):
    """A point as a word."""
    return WRITTEN + (p[1] << 20) + p[0]


def point_of_word(word):
    """The point that a word holds, or None."""
    return (word % (1 << 20), (word >> 20) % (1 << 20)) if word >= WRITTEN else None


def tree_word(parent, cost):
    """A parent and a cost as a word."""
    return WRITTEN + (cost << 18) + parent


def parent_in(word):
    """The parent in a tree word or a first word."""
    return word % (1 << 18)


def cost_in(word):
    """The cost in it."""
    return (word >> 18) % (1 << 44)


def best_word(kept, node):
    """The cost of a goal node as the best word."""
    return (kept << 18) + node


def best_in(word):
    """The cost and the goal node in the best word."""
    return word >> 18, word % (1 << 18)


def record_word(entry):
    """A record as a word."""
    outcome = OUTCOMES.index(entry.outcome)
    return WRITTEN + (entry.other << 44) + (outcome << 42) + (entry.nearest << 24) + (entry.turn << 6) + entry.worker


def record_of_word(word, first):
    """The record that a word holds, with the first word of its node, or None."""
    if word < WRITTEN:
        return None
    outcome = OUTCOMES[(word >> 42) % 4]
    entry = Record(word % 64, (word >> 6) % (1 << 18), (word >> 24) % (1 << 18), outcome)
    if outcome in ("placed", "same"):
        entry.other = (word >> 44) % (1 << 18)
    if outcome == "placed":
        entry.first_parent, entry.first_cost = parent_in(first), cost_in(first)
    return entry


def quota(strips, strip, limit):
    """How many marks below the limit a strip has."""
    return sum(k % strips == strip for k in range(limit))


def goes_right(depth, p, q):
    """Whether q goes to the right of a node at p: by column at even depth, by row at odd depth."""
    return q[0] >= p[0] if depth % 2 == 0 else q[1] >= p[1]


class Run:
    """What a shared run is told once, the places of its words, and the kind of each: rising, apart, once or falling."""

    def __init__(self, scene, workers, opening):
        self.scene, self.workers, self.opening = scene, workers, opening
        self.space = Space(scene)
        self.start, self.step, self.gamma, self.strips = scene.start, scene.step, scene.gamma, scene.strips
        self.marks = mark_points(scene, self.space)
        self.goals = scene.goals if scene.informed else []
        self.nodes = len(self.marks) + 1
        self.names = [("count",), ("best",), *(("counter", g) for g in range(self.strips))]
        for n in range(self.nodes):
            self.names += [("point", n), ("child", n, 0), ("child", n, 1), ("tree", n), ("first", n)]
        self.names += [("record", k) for k in range(len(self.marks))]
        self.size = len(self.names)
        self.kinds = [{"count": "rising", "best": "apart", "counter": "rising", "tree": "falling"}.get(name[0], "once") for name in self.names]
        self.numbers = [self.count, *(self.counter(g) for g in range(self.strips))]
        self.child_places = [place for place, name in enumerate(self.names) if name[0] == "child"]
        self.tree_places = [place for place, name in enumerate(self.names) if name[0] == "tree"]
        # the words that passes load while others change them
        self.loaded_places = [place for place, name in enumerate(self.names) if name[0] in ("count", "best", "counter", "child", "tree")]
        self.tested, self.kept = {}, {}

    count, best = 0, 1

    def counter(self, strip):
        """The place of the counter of a strip."""
        return 2 + strip

    def point(self, node):
        """The place of the point of a node; its other words follow."""
        return 2 + self.strips + 5 * node

    def child(self, node, side):
        """The place of a child of a node: 0 is the left side, 1 the right."""
        return self.point(node) + 1 + side

    def tree(self, node):
        """The place of the tree word of a node."""
        return self.point(node) + 3

    def first(self, node):
        """The place of the first word of a node."""
        return self.point(node) + 4

    def record(self, mark):
        """The place of the record of a mark."""
        return self.point(self.nodes) + mark

    def lies_in_goal(self, p):
        """Whether a point lies in a goal by which marks are skipped."""
        return bool(self.goals) and p is not None and self.scene.is_goal_point(p)

    def bound(self, mark):
        """The bound of a mark."""
        return bound(self.start, self.goals, self.marks[mark])

    def is_clear(self, a, b):
        """Whether the body is clear along the segment."""
        if (a, b) not in self.tested:
            self.tested[a, b] = self.space.is_clear(a, b)
        return self.tested[a, b]

    def is_allowed(self, a, b):
        """Whether a tree may have this edge: it is clear and no longer than the step."""
        return squared_distance(a, b) <= self.step**2 and self.is_clear(a, b)

    def most_cost(self, nodes):
        """The bound on the costs of a tree with so many nodes."""
        return 256 * self.step * max(0, nodes - 1)


@dataclass(frozen=True)
class Hand:
    """A mark that is claimed and not yet recorded."""

    mark: int
    stage: str = "claimed"
    # the best word that was loaded for the mark
    best: int | None = None
    nearest: int = 0
    point: tuple = (0, 0)
    parent: int = 0
    cost: int = 0

    def has(self, stage):
        """Whether it has come as far as this stage."""
        return STAGES.index(self.stage) >= STAGES.index(stage)

    @property
    def node(self):
        """The node of its mark."""
        return self.mark + 1

    @property
    def pair(self):
        """Its parent and its cost as a word."""
        return tree_word(self.parent, self.cost)


@dataclass(frozen=True)
class View:
    """What a pass knows and has in hand. A crew is a tuple of workers with their next turns; the pass works as the first."""

    run: Run | None
    crew: tuple
    most: int
    hand: Hand | None
    seen: tuple
    best: int
    took: tuple
    steps: int
    looked: tuple
    found_zero: tuple
    # the changes that it has made of words which others load, or took over: the place, what was left, and the steps of all views by then
    notes: tuple = ()


    def last_seen(self, place):
        """A word as it last saw it, the best word too."""
        return self.best if place == self.run.best else self.seen[place]


# What is left of a view that was taken over.
SPENT = View(None, (), 0, None, (), NO_BEST, (), 0, (), ())


@dataclass
class World:
    """The words of a run and the views of its passes, at a moment between two steps."""

    run: Run
    words: list
    views: list

    def copy(self):
        """The same world, to be changed apart."""
        return World(self.run, list(self.words), list(self.views))


def linked_nodes(run, words):
    """Node 0, and all nodes that stand in a child word."""
    return {0, *(words[place] for place in run.child_places)}


class Tree:
    """The tree in a table of words: of the nodes that are linked, of those that are recorded as placed, or of all with a point."""

    def __init__(self, run, words, present="linked"):
        self.run, self.words = run, words
        self.records = [record_of_word(words[run.record(k)], words[run.first(k + 1)]) for k in range(run.nodes - 1)]
        self.nodes = {
            "linked": lambda: linked_nodes(run, words),
            "placed": lambda: {n for n in range(run.nodes) if self.has_placed(n)},
            "seen": lambda: set(range(run.nodes)),
        }[present]()
        self.points = [point_of_word(words[run.point(n)]) if n in self.nodes else None for n in range(run.nodes)]
        self.present = [n for n in range(run.nodes) if self.points[n] is not None]

    def has_placed(self, node):
        """Whether node 0, or the mark of the node is recorded as placed."""
        return node == 0 or (entry := self.record(node - 1)) is not None and entry.outcome == "placed"

    def record(self, mark):
        """The record of a mark, or None."""
        return self.records[mark] if mark < len(self.records) else None

    def point(self, node):
        """Where a node stands, if it is present."""
        return self.points[node] if node < len(self.points) else None

    def child(self, node, side):
        """The child of a node on a side, or 0."""
        return self.words[self.run.child(node, side)] if node < self.run.nodes else 0

    def pair(self, node):
        """The parent and the cost of a node, if its tree word is written."""
        word = self.words[self.run.tree(node)] if node < self.run.nodes else 0
        return (parent_in(word), cost_in(word)) if word >= WRITTEN else None

    def parent(self, node):
        """The parent of a node."""
        return parent_in(self.words[self.run.tree(node)])

    def cost(self, node):
        """The kept cost of a node."""
        return cost_in(self.words[self.run.tree(node)])

    def first_cost(self, node):
        """What a node was placed at: by the record of its mark, or as it is written while the mark is in hand."""
        if node == 0:
            return 0
        entry = self.record(node - 1)
        return cost_in(self.words[self.run.first(node)]) if entry is None else entry.first_cost

    def way(self, q):
        """The way of a point: its nodes with their depths, and the place where it ends, or None if it ends at a node at q."""
        nodes, node = [], 0
        for depth in range(self.run.nodes + 1):
            nodes.append((node, depth))
            p = self.point(node)
            if p is None or p == q:
                return nodes, None
            side = goes_right(depth, p, q)
            if not self.child(node, side):
                return nodes, self.run.child(node, side)
            node = self.child(node, side)
        return nodes, None

    def is_goal_node(self, node):
        """Whether a node is present, and lies in a goal by which marks are skipped."""
        return self.run.lies_in_goal(self.point(node))

    def leads_to(self, q, node):
        """Whether a node is on the way of q."""
        return any(node == on for on, _ in self.way(q)[0])


def keep(run, key, make):
    """What was made of this key already, or is made now: most words and views stay from one world to the next."""
    if key not in run.kept:
        if len(run.kept) > 1000:
            run.kept.clear()
        run.kept[key] = make()
    return run.kept[key]


def seen_tree(run, seen):
    """The tree in the words that a view has seen."""
    return keep(run, ("tree", seen), lambda: Tree(run, seen, "seen"))


def sees(run, view):
    """Each word as the view last saw it."""
    return view.seen if view.run is run and len(view.seen) == run.size else (0,) * run.size
