"""The law of worlds: what holds of the words of a shared run and of all views between any two steps. See docs/worlds.md.

Each part is a generator of the clauses that do not hold. The names are those of `IsWorld`, in its order.
"""

from itertools import chain

from kimorefo.geometry import squared_distance
from rules import class_of, cost, radius_of_class, steer
from world_words import (
    NO_BEST,
    SPENT,
    WRITTEN,
    Tree,
    best_in,
    best_word,
    cost_in,
    keep,
    linked_nodes,
    parent_in,
    point_of_word,
    point_word,
    quota,
    record_word,
    seen_tree,
    sees,
    tree_word,
)

MOST_WORKERS = 64


def may_become(kind, word, later):
    """Whether a word of this kind may become the later one."""
    if kind == "apart":
        return True
    if kind == "rising":
        return word <= later
    if word in (0, later):
        return True
    return kind == "falling" and later >= WRITTEN and cost_in(later) < cost_in(word)


def are_behind(run, words, later):
    """Whether each word may become the one that stands there in the other table."""
    return all(word == later_word or may_become(kind, word, later_word) for kind, word, later_word in zip(run.kinds, words, later))


def is_not_above(key, m, i):
    """Whether the pair of key and number of m is not above that of i."""
    return (key(m), m) <= (key(i), i)


# ---- numbers, turns and shares


def of_run(run, words, views, tree):
    """Each view is spent, or is of this run, and all its looks are by steps that it has made."""
    for view in views:
        tables = (view.seen, view.took, view.looked, view.found_zero)
        if view == SPENT:
            continue
        if view.run is not run or any(len(table) not in (run.size, 0) for table in tables) or len(view.seen) != run.size:
            yield "run"
        elif max(view.looked) > view.steps or max(view.found_zero) > view.steps:
            yield "looks"


def claimed_marks(run, words, views, tree):
    """Claimed marks are recorded or in one hand, once, and no others."""
    most = max((view.most for view in views if view.crew), default=0)
    if any(words[run.counter(g)] > quota(run.strips, g, most) for g in range(run.strips)):
        yield "quotas"
    held = [view.hand.mark for view in views if view.hand]
    beyond = {quota(run.strips, g, len(run.marks)) * run.strips + g for g in range(run.strips)}
    for k in {*range(len(run.marks)), *held, *beyond}:
        claimed = k // run.strips < words[run.counter(k % run.strips)]
        if (tree.record(k) is not None) + held.count(k) != claimed:
            yield "each_once"
    if any(view.most > len(run.marks) for view in views):
        yield "limits"
    for k, entry in enumerate(tree.records):
        if words[run.record(k)] != (record_word(entry) if entry else 0):
            yield "packed"


def turns_by_worker(tree):
    """The turns of each worker's records."""
    turns = {}
    for entry in filter(None, tree.records):
        turns.setdefault(entry.worker, []).append(entry.turn)
    return turns


def turns(run, words, views, tree):
    """The turns of each worker run from 0; each worker is in one crew, which has seen all its records."""
    made = turns_by_worker(tree)
    if any(sorted(ones) != list(range(len(ones))) for ones in made.values()):
        yield "workers"
    for view in views:
        seen = sees(run, view)
        for worker, turn in view.crew:
            if turn != len(made.get(worker, ())):
                yield "members.turn"
            own = (run.record(k) for k, entry in enumerate(tree.records) if entry and entry.worker == worker)
            if any(seen[place] != words[place] for place in own):
                yield "members.own"
    crews = [worker for view in views for worker, _ in view.crew]
    if sorted(crews) != list(range(run.workers)):
        yield "in_one_crew"


def shares(run, words, views, tree):
    """The shares add up to the number of workers, and a view without one has nothing in hand."""
    if sum(len(view.crew) for view in views) != run.workers:
        yield "add_up"
    if any(not view.crew and view.hand for view in views):
        yield "idle"


# ---- what was seen


def seen_behind(run, words, views, tree):
    """What was seen may become what the words are."""
    if any(0 < words[place] < WRITTEN for place in run.tree_places):
        yield "pairs"
    at_cost, now = {}, tuple(words)
    for view in views:
        table = sees(run, view)
        if not keep(run, ("behind", table, now), lambda: are_behind(run, table, words)):
            yield "behind"
        if len(view.took) == run.size and not keep(run, ("behind", view.took, table), lambda: are_behind(run, view.took, table)):
            yield "took"
        if any(0 < table[place] < WRITTEN for place in run.tree_places):
            yield "pairs_seen"
        for place in run.tree_places:
            if table[place] >= WRITTEN and at_cost.setdefault((place, cost_in(table[place])), table[place]) != table[place]:
                yield "agree"


def is_rooted(tree):
    """Whether all that is seen is seen from node 0 on."""
    run, found = tree.run, linked_nodes(tree.run, tree.words)
    pairs = (n for n in range(run.nodes) if tree.pair(n))
    parents = (n for n in range(run.nodes) if tree.child(n, 0) or tree.child(n, 1))
    return tree.points[0] is not None and all(n in found for n in chain(parents, tree.present, pairs))


def trees_seen(run, words, views, tree):
    """A view sees its tree from node 0 on, the nodes of placed records, and what its hand came from."""
    for view in live(run, views):
        yield from keep(run, ("sights", view.seen, view.hand), lambda: list(sights_of(run, view)))


def sights_of(run, view):
    """What of that a view does not keep."""
    shown = seen_tree(run, view.seen)
    if not is_rooted(shown):
        yield "rooted"
    placed = [n for n in range(1, run.nodes) if shown.has_placed(n)]
    if any(shown.point(n) is None for n in placed):
        yield "placed"
    if any(view.seen[run.first(n)] < WRITTEN for n in placed):
        yield "placed_first"
    if view.hand and view.hand.mark < len(run.marks):
        yield from hand_sights(run, view, shown)


def hand_sights(run, view, shown):
    """A node in hand is steered from a seen one, which is another, and was not skipped; once it is linked, it is seen; it is posted in a goal."""
    hand = view.hand
    if hand.has("pointed"):
        start = shown.point(hand.nearest)
        if start is None or hand.point != steer(start, run.marks[hand.mark], run.step):
            yield "steered_from"
        if hand.nearest == hand.node:
            yield "other"
        if run.goals and (hand.best is None or hand.best != NO_BEST and best_in(hand.best)[0] <= run.bound(hand.mark)):
            yield "unskipped"
    if hand.stage == "posted" and not run.lies_in_goal(hand.point):
        yield "goal"
    if hand.has("linked"):
        if shown.point(hand.node) != hand.point:
            yield "shown"
        if view.seen[run.first(hand.node)] < WRITTEN:
            yield "first_shown"


def live(run, views):
    """The views of the run that are not spent."""
    return [view for view in views if view.run is run and len(view.seen) == run.size]


def copies(run, words, views, tree):
    """Each word that tells of the run is seen as it is by some view with a share."""
    told = [run.counter(g) for g in range(run.strips)] + [run.record(k) for k in range(len(run.marks))]
    told += [run.point(n) + i for n in tree.nodes if n < run.nodes for i in range(5)]
    sharing = [view for view in live(run, views) if view.crew]
    for place in told:
        if all(view.seen[place] != words[place] for view in sharing):
            yield "copy"


def best_copy(run, words, views, tree):
    """Some view with a share saw the best word last as it is."""
    if all(view.best != words[run.best] for view in live(run, views) if view.crew):
        yield "copy"


def goes_to(run, place, word, later):
    """Whether a word that others load may become the later one; the best word falls."""
    return later <= word if place == run.best else word == later or may_become(run.kinds[place], word, later)


def notes(run, words, views, tree):
    """What was left in a word may become what it is; who looked at it since has seen that; and what a view sees otherwise was noted."""
    told = {note for view in views for note in view.notes}
    if any(made and (i >= len(views) or views[i].run is run and made > views[i].steps) for _, _, by in told for i, made in enumerate(by)):
        yield "made"
    if any(not goes_to(run, place, word, words[place]) for place, word, _ in told):
        yield "still"
    left = {(place, word) for place, word, _ in told}
    for i, view in enumerate(views):
        if view.run is not run:
            continue
        made = lambda by: by[i] if i < len(by) else 0
        if any(made(by) < view.looked[place] and not goes_to(run, place, word, view.last_seen(place)) for place, word, by in told):
            yield "fresh"
        otherwise = [place for place in run.loaded_places if view.last_seen(place) != words[place] and (place, words[place]) not in left]
        if any(run.names[place][0] != "tree" or view.seen[place] or words[place] != words[place + 1] for place in otherwise):
            yield "noted"


def empties(run, words, views, tree):
    """No view has found a filled place empty by a step after those that it had made by then, as a note says."""
    told = {note for view in views for note in view.notes}
    for i, view in enumerate(views):
        found = [place for place in run.child_places if view.run and words[place] and view.found_zero[place]]
        if any(all(at != place or i >= len(by) or by[i] < view.found_zero[place] for at, _, by in told) for place in found):
            yield "filled"


# ---- links


def follows_ways(tree):
    """The clauses on ways: each node but node 0 is a child once, at the end of the way of its point, and no other has a child."""
    run = tree.run
    if not all(tree.leads_to(tree.points[n], n) for n in tree.present):
        yield "ways.on_way"
    links = [tree.child(n, side) for n in range(run.nodes) for side in (0, 1)]
    named = [n for n in links if n]
    if len(set(named)) != len(named):
        yield "ways.once"
    if any(tree.point(n) is None for n in named):
        yield "ways.present"
    if any(tree.point(n) is None and (tree.child(n, 0) or tree.child(n, 1)) for n in range(run.nodes)):
        yield "ways.empty"


def linked_tree(run, words, views, tree):
    """Linked are the nodes of placed marks, and those that a hand has linked; counted are those that are placed or counted."""
    if words[run.point(0)] != point_word(run.start):
        yield "start"
    yield from follows_ways(tree)
    hands = [view.hand for view in views if view.hand]
    has_linked = [hand.node for hand in hands if hand.has("linked")]
    has_counted = [hand.node for hand in hands if hand.has("counted")]
    for n in range(1, run.nodes):
        if (n in tree.nodes) != tree.has_placed(n) + has_linked.count(n):
            yield "linked"
    counted = sum(tree.has_placed(n) + has_counted.count(n) for n in range(1, run.nodes))
    if words[run.count] != 1 + counted:
        yield "count"


# ---- parents and costs


def hangs(run, tree, node, p, parent, kept):
    """Whether a node may hang at p below this parent at this cost."""
    above = tree.point(parent)
    if above is None or parent == node or p is None:
        return False
    return run.is_allowed(above, p) and tree.cost(parent) + cost(above, p) <= kept


def order_law(run, tree):
    """The clauses of the order law."""
    points = [tree.points[n] for n in tree.present]
    if len(set(points)) != len(points):
        yield "order.distinct"
    if tree.points[0] != run.start or not run.is_clear(run.start, run.start):
        yield "order.start"
    if tree.parent(0) != 0 or tree.cost(0) != 0:
        yield "order.start_pair"
    if not all(hangs(run, tree, n, tree.points[n], tree.parent(n), tree.cost(n)) for n in tree.present if n):
        yield "order.hangs"
    if any(tree.cost(n) > run.most_cost(len(tree.present)) for n in tree.present):
        yield "order.bounded"


def is_written(run, words, node):
    """Whether the words of a node are written as they are packed."""
    p, pair, first = words[run.point(node)], words[run.tree(node)], words[run.first(node)]
    packed = [tree_word(parent_in(word), cost_in(word)) == word for word in (pair, first)]
    return p >= WRITTEN and point_word(point_of_word(p)) == p and all(packed)


def trees(run, words, views, tree):
    """The linked nodes keep the order law, and none costs more than it was placed at."""
    yield from order_law(run, tree)
    if any(tree.cost(n) > tree.first_cost(n) for n in tree.present):
        yield "first_costs.kept"
    if any(tree.first_cost(n) > run.most_cost(len(tree.present)) for n in tree.present):
        yield "first_costs.bounded"
    if not all(is_written(run, words, n) for n in tree.nodes if n < run.nodes):
        yield "written"
    if words[run.first(0)] != tree_word(0, 0):
        yield "start_first"


def hands(run, words, views, tree):
    """The point of a node is written by the hand that has its mark, and not before."""
    yield from writes_in_turn(run, words, views, tree, "pointed", run.point, lambda hand: point_word(hand.point), "written", "blank")


def writes_in_turn(run, words, views, tree, stage, place, word, written, blank):
    """A word of a node in hand is as the hand has it from a stage on; unless there was such a hand, it is 0."""
    pointed = [view.hand for view in views if view.hand and view.hand.has(stage) and view.hand.mark < len(run.marks)]
    if written and any(words[place(hand.node)] != word(hand) for hand in pointed):
        yield written
    nodes = {hand.node for hand in pointed}
    if any(words[place(k + 1)] for k, entry in enumerate(tree.records) if entry is None and k + 1 not in nodes):
        yield blank


def pairs(run, words, views, tree):
    """The first word and then the tree word of a node are written by the hand that has its mark, and not before."""
    for hand in (view.hand for view in views if view.hand and view.hand.mark < len(run.marks)):
        if hand.has("half"):
            yield from first_of(run, words, tree, hand)
        if hand.has("treed") and not hand.has("linked") and words[run.tree(hand.node)] != hand.pair:
            yield "tree"
    yield from writes_in_turn(run, words, views, tree, "half", run.first, None, None, "no_first")
    yield from writes_in_turn(run, words, views, tree, "treed", run.tree, None, None, "no_tree")


def first_of(run, words, tree, hand):
    """What the node in hand is placed with: it may hang so, and at no more than below its nearest node."""
    if words[run.first(hand.node)] != hand.pair:
        yield "first.word"
    if not hangs(run, tree, hand.node, hand.point, hand.parent, hand.cost):
        yield "first.hangs"
    for clause, node in (("first.below_first", hand.parent), ("first.below_nearest", hand.nearest)):
        above = tree.point(node)
        if above is None or hand.cost > tree.first_cost(node) + cost(above, hand.point):
            yield clause
    if hand.cost > run.most_cost(len(tree.present) + 1):
        yield "first.bounded"


def seen_pairs(run, words, views, tree):
    """Each node may hang below the parent that a view has seen of it, at the cost that was seen, and was placed at no less."""
    for view in live(run, views):
        for n in range(run.nodes):
            word = view.seen[run.tree(n)]
            if word < WRITTEN:
                continue
            if tree.point(n) is None:
                yield "present"
            elif n and not hangs(run, tree, n, tree.points[n], parent_in(word), cost_in(word)):
                yield "hangs"
            elif cost_in(word) > tree.first_cost(n):
                yield "first"
            elif n == 0 and (parent_in(word), cost_in(word)) != (0, 0):
                yield "start"


# ---- records


def is_earlier(tree, entry, n):
    """Whether a node stood already when the worker of a record handled its mark, by its own records."""
    if n == 0:
        return True
    other = tree.record(n - 1)
    return other is not None and other.outcome == "placed" and other.worker == entry.worker and other.turn < entry.turn


def is_lawful_record(run, tree, k, entry):
    """Whether the tree bears out the record of mark k."""
    mark, start = run.marks[k], tree.point(entry.nearest)
    if entry.outcome == "skipped":
        return tree.is_goal_node(entry.nearest) and tree.cost(entry.nearest) <= run.bound(k)
    earlier = [n for n in range(run.nodes) if is_earlier(tree, entry, n)]
    if any(tree.is_goal_node(n) and tree.first_cost(n) <= run.bound(k) for n in earlier):
        return False
    if start is None or any(tree.points[n] is None for n in earlier):
        return False
    if not all(is_not_above(lambda n: squared_distance(tree.points[n], mark), entry.nearest, n) for n in earlier):
        return False
    p = steer(start, mark, run.step)
    if entry.outcome == "same":
        return tree.point(entry.other) == p
    if entry.outcome == "blocked":
        return not run.is_clear(start, p) and all(tree.points[n] != p for n in earlier)
    return run.is_clear(start, p) and hung_lawfully(run, tree, k, entry, p) and chosen_lawfully(run, tree, entry, p, earlier)


def hung_lawfully(run, tree, k, entry, p):
    """Whether the node of mark k may hang as it was placed."""
    if tree.point(k + 1) != p or entry.nearest == k + 1:
        return False
    if not hangs(run, tree, k + 1, p, entry.first_parent, entry.first_cost):
        return False
    ways = (tree.first_cost(n) + cost(tree.points[n], p) for n in (entry.first_parent, entry.nearest))
    bound = run.most_cost(len(tree.present))
    return all(entry.first_cost <= way for way in ways) and tree.cost(k + 1) <= entry.first_cost <= bound


def chosen_lawfully(run, tree, entry, p, earlier):
    """Whether no node that the worker had placed was a cheaper parent, or is dearer than by way of the new node."""
    if not class_of(len(earlier)) <= entry.other <= class_of(len(tree.present)):
        return False
    radius = radius_of_class(run.step, run.gamma, entry.other)
    near = [n for n in earlier if squared_distance(tree.points[n], p) <= radius**2 and run.is_clear(tree.points[n], p)]
    edges = {n: cost(tree.points[n], p) for n in near}
    return all(
        entry.first_cost <= tree.first_cost(n) + edges[n] and tree.cost(n) <= entry.first_cost + edges[n] for n in near
    )


def records(run, words, views, tree):
    """Each record is borne out by the linked nodes, and is by a worker of the run, if it was made in it."""
    for k, entry in enumerate(tree.records):
        if entry and not is_lawful_record(run, tree, k, entry):
            yield "lawful"
        if entry and entry.worker >= (run.workers if run.opening <= k else MOST_WORKERS):
            yield "workers"


# ---- the best word


def is_best_pair(run, tree, word):
    """Whether a best word tells of no goal node, or of a linked one that costs no more now."""
    if word == NO_BEST:
        return True
    kept, node = best_in(word)
    return tree.is_goal_node(node) and tree.cost(node) <= kept < 1 << 44


def least_placed(tree):
    """The least pair of first cost and number of the goal nodes that are the start or recorded as placed."""
    placed = (n for n in range(tree.run.nodes) if tree.has_placed(n) and tree.is_goal_node(n))
    return min((best_word(tree.first_cost(n), n) for n in placed), default=NO_BEST)


def best(run, words, views, tree):
    """The best word is the pair of a goal node, and at most that of each goal node that is recorded."""
    if not is_best_pair(run, tree, words[run.best]):
        yield "pair"
    if words[run.best] > least_placed(tree):
        yield "placed"


def bests(run, words, views, tree):
    """So are the best words that views saw last and that hands have taken, by what was seen; and the word now is no greater."""
    for view in live(run, views):
        if not is_best_pair(run, tree, view.best):
            yield "pair"
        if words[run.best] > view.best:
            yield "falls"
        yield from best_sights(run, view)
        if view.hand and view.hand.best is not None and not is_best_pair(run, tree, view.hand.best):
            yield "taken_pair"


def best_sights(run, view):
    """What of that a view does not keep by itself."""
    least, hand = least_placed(seen_tree(run, view.seen)), view.hand
    if view.best > least:
        yield "placed"
    if hand and hand.best is not None and not view.best <= hand.best <= least:
        yield "taken"
    if hand and hand.stage == "posted" and view.best > best_word(hand.cost, hand.node):
        yield "posted"


# ---- the law

PARTS = (
    of_run, claimed_marks, turns, shares, linked_tree, hands, trees, pairs, records, seen_pairs, trees_seen, seen_behind, copies, best_copy,
    notes, empties, best, bests,
)


def broken_parts(world):
    """The clauses that do not hold, in the order of the law, each as part and clause."""
    run, words, views = world.run, world.words, world.views
    now = tuple(words)
    tree = keep(run, ("words", now), lambda: Tree(run, now))
    for part in PARTS:
        of_words = part in (trees, records)
        clauses = keep(run, (part, now), lambda: list(part(run, words, views, tree))) if of_words else part(run, words, views, tree)
        for clause in clauses:
            yield part.__name__, clause


def is_world(world):
    """The first broken part with its clause, or None if the law holds."""
    return next(broken_parts(world), None)
