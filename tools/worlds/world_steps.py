"""The kinds of step on a world, each with what it asks of the view that makes it. See docs/worlds.md.

A step loads, stores or exchanges one word. The view after it is a function of the view before. `Steps` makes lawful steps
alone.
"""

from dataclasses import replace

from kimorefo.geometry import squared_distance
from rules import class_of, cost, radius_of_class, steer
from world_law import is_earlier, is_not_above, turns_by_worker
from world_words import (
    NO_BEST,
    SPENT,
    WRITTEN,
    Hand,
    Tree,
    View,
    World,
    best_in,
    best_word,
    cost_in,
    goes_right,
    point_word,
    record_word,
    seen_tree,
    tree_word,
)


class Refused(Exception):
    """A step that its view may not make."""


def need(holds, what):
    """Refuses a step unless the condition holds."""
    if not holds:
        raise Refused(what)


def put(table, place, word):
    """A table with one word changed."""
    return table[:place] + (word,) + table[place + 1 :]


def newcomer(run, words):
    """The world in which a run begins: one view, with the share of all workers, has seen all words."""
    made = turns_by_worker(Tree(run, words, "placed"))
    crew = tuple((worker, len(made.get(worker, ()))) for worker in range(run.workers))
    none = (0,) * run.size
    best = least_best(run, words)
    words = put(tuple(words), run.best, best)
    return World(run, list(words), [View(run, crew, run.opening, None, words, best, (), 0, none, none)])


def least_best(run, words):
    """The best word with which passes go on from a run: the least pair of kept cost and number of its goal nodes."""
    tree = Tree(run, words, "placed")
    return min((best_word(tree.cost(n), n) for n in tree.present if tree.is_goal_node(n)), default=NO_BEST)


def start_words(run):
    """The words of a run that is the start alone."""
    words = [0] * run.size
    words[run.count] = 1
    words[run.point(0)] = point_word(run.start)
    words[run.tree(0)] = words[run.first(0)] = tree_word(0, 0)
    return words


def cleared(run, words):
    """The words, with those of numbers without a node taken as 0."""
    tree, words = Tree(run, words, "placed"), list(words)
    for n in set(range(run.nodes)) - tree.nodes:
        words[run.point(n)] = words[run.tree(n)] = words[run.first(n)] = 0
    return words


def later_word(kind, one, other):
    """Of two words that may both become one word, the later."""
    if kind == "apart":
        return one
    if kind == "rising":
        return max(one, other)
    if one == 0:
        return other
    return other if kind == "falling" and other >= WRITTEN and cost_in(other) < cost_in(one) else one


class Steps:
    """The steps of the views of one world. `i` is the number of the view that steps."""

    def __init__(self, world):
        self.world, self.run = world, world.run

    # ---- what is changed

    def view(self, i):
        """The view of this number."""
        return self.world.views[i]

    def hand(self, i, stage):
        """Its hand, which has come just so far."""
        hand = self.view(i).hand
        need(hand and hand.stage == stage, "stage")
        return hand

    def tree(self, i):
        """The tree as far as it has seen it."""
        return seen_tree(self.run, self.view(i).seen)

    def set_view(self, i, **fields):
        """The view changes so."""
        self.world.views[i] = replace(self.view(i), **fields)

    def saw(self, i, place, found, left):
        """One step more, on a word that was found so and is left so."""
        view = self.view(i)
        steps = view.steps + 1
        found_zero = view.found_zero if found else put(view.found_zero, place, steps)
        self.world.words[place] = left
        seen, looked = put(view.seen, place, left), put(view.looked, place, steps)
        self.set_view(i, seen=seen, steps=steps, looked=looked, found_zero=found_zero)
        return found

    def stepped(self, i, **fields):
        """One step more, by which no word is seen."""
        self.set_view(i, steps=self.view(i).steps + 1, **fields)

    def saw_best(self, i, best, hand):
        """One step more, on the best word, which is left so."""
        view = self.view(i)
        self.world.words[self.run.best] = best
        self.stepped(i, best=best, hand=hand, looked=put(view.looked, self.run.best, view.steps + 1))

    def note(self, i, place):
        """The step that was made notes what it left in a word, and how many steps each view has made."""
        made = tuple(view.steps for view in self.world.views)
        self.set_view(i, notes=((place, self.world.words[place], made), *self.view(i).notes))

    # ---- loads

    def sees_node(self, i, node):
        """Whether node 0, or a child that the view has seen."""
        run, seen = self.run, self.view(i).seen
        return node == 0 or any(seen[run.child(n, side)] == node for n in range(run.nodes) for side in (0, 1))

    def load(self, i, place):
        """A load: of the count, of a counter, or of a seen node's point, child or tree word."""
        name = self.run.names[place]
        need(name[0] not in ("best", "first", "record"), "no such load")
        need(name[0] in ("count", "counter") or self.sees_node(i, name[1]), "seen")
        word = self.world.words[place]
        return self.saw(i, place, word, word)

    # ---- claims and records

    def may_claim(self, i, strip, limit):
        """A view with a share and nothing in hand, and a mark below a limit that is at most the number of marks."""
        view = self.view(i)
        mark = view.seen[self.run.counter(strip)] * self.run.strips + strip
        return bool(view.crew) and view.hand is None and mark < limit <= len(self.run.marks)

    def claim(self, i, strip, limit):
        """An exchange of a counter that is as it was seen last. Whether it was."""
        need(self.may_claim(i, strip, limit), "claim")
        place = self.run.counter(strip)
        found, expected = self.world.words[place], self.view(i).seen[place]
        if found != expected:
            self.saw(i, place, found, found)
            return False
        self.saw(i, place, expected, expected + 1)
        hand = Hand(expected * self.run.strips + strip)
        self.set_view(i, hand=hand, most=max(self.view(i).most, limit))
        self.note(i, place)
        return True

    def finish(self, i, entry):
        """A store of the record of the mark in hand."""
        view = self.view(i)
        need(view.hand and view.crew and (entry.worker, entry.turn) == view.crew[0], "turn")
        need(self.may_end(view.hand, entry), "stage")
        need(self.may_record(i, view.hand, entry), "record")
        word = record_word(entry)
        self.saw(i, self.run.record(view.hand.mark), word, word)
        (worker, turn), *others = view.crew
        self.set_view(i, hand=None, crew=((worker, turn + 1), *others))

    def may_end(self, hand, entry):
        """A mark is recorded as placed once its node is counted, and posted if it lies in a goal, as skipped if nothing is written, and as
        anything else only if it is not linked."""
        placed = entry.outcome == "placed"
        if placed and self.run.lies_in_goal(hand.point) != (hand.stage == "posted") or entry.outcome == "skipped" and hand.stage != "claimed":
            return False
        return placed == hand.has("linked") and placed == hand.has("counted")

    def may_record(self, i, hand, entry):
        """Whether what the view has seen bears out the record."""
        run, tree = self.run, self.tree(i)
        if entry.outcome == "skipped":
            return self.is_skipped(hand) and best_in(hand.best)[1] == entry.nearest
        if entry.outcome != "placed" and not self.is_unskipped(hand):
            return False
        start, mark = tree.point(entry.nearest), run.marks[hand.mark]
        own = [n for n in range(run.nodes) if is_earlier(tree, entry, n)]
        if start is None or not all(is_not_above(lambda n: squared_distance(tree.points[n], mark), entry.nearest, n) for n in own):
            return False
        p = steer(start, mark, run.step)
        if entry.outcome == "same":
            return tree.point(entry.other) == p
        if entry.outcome == "blocked":
            return not run.is_clear(start, p) and all(tree.points[n] != p for n in own)
        return run.is_clear(start, p) and self.may_place(tree, hand, entry, own)

    def is_skipped(self, hand):
        """Whether the best that was loaded for a mark costs no more than its bound."""
        return hand.best not in (None, NO_BEST) and best_in(hand.best)[0] <= self.run.bound(hand.mark)

    def is_unskipped(self, hand):
        """Whether no marks are skipped, or the best that was loaded for this one costs more than its bound."""
        return not self.run.goals or hand.best is not None and not self.is_skipped(hand)

    def may_place(self, tree, hand, entry, own):
        """Whether the record of a placed mark is borne out by what was seen."""
        run, p = self.run, hand.point
        if (entry.nearest, entry.first_parent, entry.first_cost) != (hand.nearest, hand.parent, hand.cost):
            return False
        if not class_of(len(own)) <= entry.other <= class_of(tree.words[run.count]):
            return False
        radius = radius_of_class(run.step, run.gamma, entry.other)
        near = [n for n in own if squared_distance(tree.points[n], p) <= radius**2 and run.is_clear(tree.points[n], p)]
        edges = {n: cost(tree.points[n], p) for n in near}
        chosen = all(hand.cost <= tree.first_cost(n) + edges[n] for n in near)
        return chosen and all(tree.pair(n) and tree.cost(n) <= hand.cost + edges[n] for n in near)

    # ---- the node in hand

    def write_point(self, i, nearest, p):
        """A store of the point of the node in hand, a step from a seen node towards the mark."""
        hand = self.hand(i, "claimed")
        start = self.tree(i).point(nearest)
        need(start is not None and steer(start, self.run.marks[hand.mark], self.run.step) == p, "steered")
        need(self.is_unskipped(hand), "unskipped")
        self.world.words[self.run.point(hand.node)] = point_word(p)
        self.stepped(i, hand=replace(hand, stage="pointed", nearest=nearest, point=p))

    def cost_below(self, i, p, parent):
        """What a node at p may cost below a parent, by what was seen of that; None if it may not hang there."""
        tree = self.tree(i)
        above, pair = tree.point(parent), tree.pair(parent)
        if above is None or pair is None or not self.run.is_allowed(above, p):
            return None
        return pair[1] + cost(above, p)

    def write_first(self, i, parent, kept):
        """A store of the first word of the node in hand: it may hang so by what was seen, and at no more than below the nearest."""
        hand = self.hand(i, "pointed")
        need(self.cost_below(i, hand.point, parent) == kept, "hangs")
        tree = self.tree(i)
        nearest = tree.pair(hand.nearest)
        need(nearest and kept <= nearest[1] + cost(tree.point(hand.nearest), hand.point), "chosen")
        self.world.words[self.run.first(hand.node)] = tree_word(parent, kept)
        self.stepped(i, hand=replace(hand, stage="half", parent=parent, cost=kept))

    def write_tree(self, i):
        """A store of the tree word of the node in hand, as its first word is."""
        hand = self.hand(i, "half")
        self.world.words[self.run.tree(hand.node)] = hand.pair
        self.stepped(i, hand=replace(hand, stage="treed"))

    def leads_to(self, i, p, node, side):
        """Whether the way of p over what was seen leads on from a node to its child on this side; no node on it is at p."""
        tree = self.tree(i)
        depth = dict(tree.way(p)[0]).get(node)
        at = tree.point(node)
        return depth is not None and at is not None and at != p and goes_right(depth, at, p) == side

    def link(self, i, node, side):
        """An exchange of an empty child word for the node in hand. What the word was."""
        hand = self.hand(i, "treed")
        need(self.leads_to(i, hand.point, node, side), "leads")
        place, run = self.run.child(node, side), self.run
        found = self.world.words[place]
        if found:
            return self.saw(i, place, found, found)
        self.saw(i, place, 0, hand.node)
        seen = put(self.view(i).seen, run.point(hand.node), point_word(hand.point))
        seen = put(put(seen, run.tree(hand.node), hand.pair), run.first(hand.node), hand.pair)
        self.set_view(i, seen=seen, hand=replace(hand, stage="linked"))
        self.note(i, place)
        return 0

    def count(self, i):
        """An addition to the count."""
        hand = self.hand(i, "linked")
        self.world.words[self.run.count] += 1
        self.stepped(i, hand=replace(hand, stage="counted"))
        self.note(i, self.run.count)

    # ---- lowers

    def may_lower(self, i, node, parent, kept):
        """Whether a node may get this parent and this cost: it was seen dearer."""
        tree = self.tree(i)
        at, pair = tree.point(node), tree.pair(node)
        if not self.view(i).crew or at is None or pair is None or kept >= pair[1]:
            return False
        return self.cost_below(i, at, parent) == kept

    def lower(self, i, node, parent, kept):
        """An exchange of the tree word that was seen last. Whether it was there."""
        need(self.may_lower(i, node, parent, kept), "lower")
        place = self.run.tree(node)
        found, expected = self.world.words[place], self.view(i).seen[place]
        if found != expected:
            self.saw(i, place, found, found)
            return False
        self.saw(i, place, expected, tree_word(parent, kept))
        self.note(i, place)
        return True

    # ---- the best word

    def load_best(self, i):
        """A load of the best word, which a hand takes for whose mark nothing is written."""
        need(self.run.goals, "informed")
        word, hand = self.world.words[self.run.best], self.view(i).hand
        takes = hand and hand.stage == "claimed"
        self.saw_best(i, word, replace(hand, best=word) if takes else hand)
        return word

    def may_post(self, i, node):
        """Whether a node may be posted: it was seen with its point and its cost, and lies in a goal."""
        tree = self.tree(i)
        return bool(self.view(i).crew) and tree.pair(node) is not None and self.run.lies_in_goal(tree.point(node))

    def post(self, i, node):
        """The best word becomes the lesser of what it was and the pair of a goal node, by what that was seen to cost."""
        need(self.may_post(i, node), "post")
        word = min(self.world.words[self.run.best], best_word(self.tree(i).cost(node), node))
        hand = self.view(i).hand
        own = hand and hand.stage == "counted" and hand.node == node
        self.saw_best(i, word, replace(hand, stage="posted") if own else hand)
        self.note(i, self.run.best)

    # ---- splits and joins

    def split(self, i, hand_on):
        """A new view that has seen as much: without a share, or with the second worker of the crew. Its number."""
        view = self.view(i)
        need(not hand_on or len(view.crew) > 1, "crew")
        given = view.crew[1:2] if hand_on else ()
        none = (0,) * self.run.size
        self.world.views.append(replace(view, crew=given, hand=None, looked=none, found_zero=none, notes=()))
        self.stepped(i, crew=tuple(member for member in view.crew if member not in given))
        return len(self.world.views) - 1

    def join(self, i, j):
        """A view takes over another: the later of what both saw of each word, both crews, the lesser best, and the notes of both."""
        view, other = self.view(i), self.view(j)
        need(i != j and other != SPENT and not view.hand and not other.hand, "hand")
        seen = tuple(map(later_word, self.run.kinds, view.seen, other.seen))
        best, most = min(view.best, other.best), max(view.most, other.most)
        crew, notes = view.crew + other.crew, view.notes + other.notes
        self.stepped(i, crew=crew, most=most, seen=seen, best=best, took=other.seen, notes=notes)
        self.world.views[j] = SPENT
