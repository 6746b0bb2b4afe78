"""Changes of lawful worlds in the tree: of links, parents and costs, hands and records. See world_mutants.py."""

from dataclasses import replace

from rules import class_of, cost, steer
from world_law import hangs, is_earlier
from world_mutants import MUTANTS, changed_record, everywhere, linked, must, mutant, pick, see
from world_words import OUTCOMES, WRITTEN, Tree, cost_in, parent_in, point_word, tree_word

# Those of both files: a mutant of this one is kept with the others.
__all__ = ["MUTANTS"]


def holder(rng, world, test):
    """A view whose hand passes the test, by its number."""
    return pick(rng, (i for i, view in enumerate(world.views) if view.hand and test(view.hand)))


# ---- links


@mutant
def child_on_the_other_side(rng, world):
    """A node is the child of its parent in the kd-tree on the other side."""
    run = world.run
    place = pick(rng, (place for place in run.child_places if world.words[place]))
    if place is None:
        return None
    other = place + 1 if run.names[place][2] == 0 else place - 1
    one, two = world.words[place], world.words[other]
    for where, word in ((place, two), (other, one)):
        everywhere(world, where, word)
    return ""


@mutant
def link_gone(rng, world):
    """A child word is empty again."""
    place = pick(rng, (place for place in world.run.child_places if world.words[place]))
    if place is None:
        return None
    everywhere(world, place, 0)
    return ""


@mutant
def linked_once_more(rng, world):
    """An empty child word names a node, linked or not."""
    run = world.run
    place = pick(rng, (place for place in run.child_places if not world.words[place]))
    world.words[place] = rng.randint(1, run.nodes + 1)
    return ""


@mutant
def count_off_by_one(rng, world):
    """The count is 1 more or less."""
    everywhere(world, world.run.count, world.words[world.run.count] + rng.choice([1, -1]))
    return ""


@mutant
def node_moved(rng, world):
    """A linked node stands at another point."""
    run, n = world.run, pick(rng, [0, *linked(world)])
    place = run.point(n)
    everywhere(world, place, world.words[place] + rng.choice([1, 1 << 20]))
    return ""


# ---- parents and costs


def changed_pair(rng, world, change):
    """Changes the tree word of a linked node everywhere: refused, unless it may hang so and was placed at no less."""
    run, n = world.run, pick(rng, linked(world))
    if n is None:
        return None
    word = world.words[run.tree(n)]
    parent, kept = change(parent_in(word), cost_in(word))
    if kept < 0:
        return None
    everywhere(world, run.tree(n), tree_word(parent, kept))
    tree = Tree(run, world.words)
    lawful = hangs(run, tree, n, tree.points[n], parent, kept) and kept <= tree.first_cost(n)
    return "the node may hang so" if lawful else ""


@mutant
def cost_lowered(rng, world):
    """A node costs less, and all have seen it."""
    return changed_pair(rng, world, lambda parent, kept: (parent, kept - rng.randint(1, 300)))


@mutant
def cost_raised(rng, world):
    """A node costs more, and all have seen it."""
    return changed_pair(rng, world, lambda parent, kept: (parent, kept + rng.randint(1, 300)))


@mutant
def another_parent(rng, world):
    """A node has another parent, and all have seen it."""
    node = rng.randrange(world.run.nodes + 1)
    return changed_pair(rng, world, lambda parent, kept: (node, kept) if node != parent else (parent, -1))


@mutant
def another_first_cost(rng, world):
    """A node was placed at another cost, and all have seen it."""
    run, n = world.run, pick(rng, linked(world))
    if n is None:
        return None
    word = world.words[run.first(n)] + rng.choice([-1, 1]) * (rng.randint(1, 300) << 18)
    everywhere(world, run.first(n), word)
    tree = Tree(run, world.words)
    parent, first = parent_in(word), cost_in(word)
    edge = cost(tree.points[parent], tree.points[n])
    within = tree.cost(parent) + edge <= first <= tree.first_cost(parent) + edge and tree.cost(n) <= first
    held = any(view.hand and view.hand.node == n for view in world.views)
    return "it lies between what the parent costs now and was placed at" if within and not held else ""


@mutant
def pair_of_the_start(rng, world):
    """Node 0 has a parent, or a cost."""
    place = world.run.tree(0)
    everywhere(world, place, world.words[place] + rng.choice([1, 1 << 18]))
    return ""


@mutant
def pair_half_written(rng, world):
    """A tree word that has no bit 63, or a view has seen one."""
    place = world.run.tree(pick(rng, [0, *linked(world)]))
    half = world.words[place] & ~WRITTEN or 1
    if rng.random() < 0.5:
        world.words[place] = half
        return ""
    return must(see(rng, world, lambda view: [place], lambda *_: half))


@mutant
def pair_with_a_stray_bit(rng, world):
    """A tree word or a first word has a bit that no packed word has."""
    place = world.run.tree(pick(rng, [0, *linked(world)])) + rng.choice([0, 1])
    everywhere(world, place, world.words[place] | 1 << 62)
    return ""


# ---- hands


@mutant
def word_of_the_hand_changed(rng, world):
    """A word of a node in hand is not what the hand has written."""
    run = world.run
    i = holder(rng, world, lambda hand: hand.has("pointed") and not hand.has("linked"))
    if i is None:
        return None
    hand = world.views[i].hand
    places = [run.point(hand.node)] + [run.first(hand.node)] * hand.has("half") + [run.tree(hand.node)] * hand.has("treed")
    place = rng.choice(places)
    world.words[place] = rng.choice([0, world.words[place] + 1, world.words[place] + (1 << 20)])
    return ""


@mutant
def written_too_early(rng, world):
    """A word of a node is written whose mark is in no hand, or not so far."""
    run, tree = world.run, Tree(world.run, world.words)
    blank = [run.point(k + 1) + i for k, entry in enumerate(tree.records) if entry is None for i in (0, 3, 4)]
    place = pick(rng, (place for place in blank if not world.words[place]))
    if place is None:
        return None
    world.words[place] = rng.choice([point_word((1, 1)), tree_word(0, 256)])
    return ""


@mutant
def left_behind_otherwise(rng, world):
    """A word of a number without a node, whose mark is recorded, is another one."""
    run, tree = world.run, Tree(world.run, world.words)
    k = pick(rng, (k for k, entry in enumerate(tree.records) if entry and entry.outcome != "placed"))
    if k is None:
        return None
    world.words[run.point(k + 1) + rng.choice([0, 3, 4])] = rng.choice([0, point_word((1, 1)), tree_word(0, 256)])
    return "nothing reads the words of a mark that came to nothing"


@mutant
def hand_of_a_looker(rng, world):
    """A mark is in the hand of a view without a share."""
    i = holder(rng, world, lambda hand: True)
    j = pick(rng, (j for j, view in enumerate(world.views) if view.run and not view.crew))
    if i is None or j is None:
        return None
    world.views[j] = replace(world.views[j], hand=world.views[i].hand)
    world.views[i] = replace(world.views[i], hand=None)
    return ""


@mutant
def another_stage(rng, world):
    """A mark in hand has come less far, or farther."""
    stage = rng.choice(["claimed", "pointed", "half", "treed", "linked", "counted"])
    i = holder(rng, world, lambda hand: hand.stage != stage)
    if i is None:
        return None
    hand = world.views[i].hand
    world.views[i] = replace(world.views[i], hand=replace(hand, stage=stage))
    return "a node that is posted may be taken for one that is not" if (hand.stage, stage) == ("posted", "counted") else ""


@mutant
def another_nearest_in_hand(rng, world):
    """The point in hand is steered from another node."""
    run, m = world.run, rng.randrange(world.run.nodes)
    i = holder(rng, world, lambda hand: hand.nearest != m)
    if i is None:
        return None
    view = world.views[i]
    world.views[i] = replace(view, hand=replace(view.hand, nearest=m))
    if not view.hand.has("pointed"):
        return "a hand that has written nothing says nothing"
    start = Tree(run, view.seen, "seen").point(m)
    steered = start is not None and m != view.hand.node and steer(start, run.marks[view.hand.mark], run.step) == view.hand.point
    return "another seen node steers to the same point" if steered else ""


@mutant
def another_point_in_hand(rng, world):
    """The point in hand is another, and is written so."""
    run = world.run
    i = holder(rng, world, lambda hand: hand.has("pointed"))
    if i is None:
        return None
    hand = world.views[i].hand
    point = (hand.point[0] + rng.choice([0, 1]), hand.point[1] + 1)
    everywhere(world, run.point(hand.node), point_word(point))
    world.views[i] = replace(world.views[i], hand=replace(hand, point=point))
    return ""


@mutant
def another_pair_in_hand(rng, world):
    """The parent or the cost in hand is another, and is written so."""
    run, tree = world.run, Tree(world.run, world.words)
    i = holder(rng, world, lambda hand: hand.has("half") and not hand.has("linked"))
    if i is None:
        return None
    hand = world.views[i].hand
    parent = rng.choice([hand.parent, hand.parent, rng.randrange(run.nodes)])
    changed = replace(hand, parent=parent, cost=max(0, hand.cost + rng.randint(-400, 400)))
    for place, stage in ((run.first(hand.node), "half"), (run.tree(hand.node), "treed")):
        if hand.has(stage):
            world.words[place] = changed.pair
    world.views[i] = replace(world.views[i], hand=changed)
    p, above = hand.point, tree.point(parent)
    lawful = hangs(run, tree, hand.node, p, parent, changed.cost) and all(
        changed.cost <= tree.first_cost(n) + cost(tree.point(n), p) for n in (parent, hand.nearest)
    )
    return "it may hang so, at no more than its parent and its nearest node were placed at" if lawful and above else ""


@mutant
def node_in_hand_seen(rng, world):
    """A view has seen the words of a node that is not linked."""
    run = world.run
    i = holder(rng, world, lambda hand: hand.has("treed") and not hand.has("linked"))
    if i is None:
        return None
    place = run.point(world.views[i].hand.node) + rng.choice([0, 3])
    return must(see(rng, world, lambda view: [place], lambda view, place: world.words[place]))


# ---- records


@mutant
def record_of_another_nearest(rng, world):
    """A record names another nearest node."""
    m = rng.randrange(world.run.nodes)
    reason = lambda k, before, after: "no node that its worker had placed is nearer, and the outcome is the same"
    return changed_record(rng, world, lambda entry: entry.nearest != m, lambda entry: {"nearest": m}, reason)


@mutant
def record_of_another_class(rng, world):
    """The record of a placed mark has another class."""
    run, tree = world.run, Tree(world.run, world.words)

    def reason(k, before, after):
        own = sum(is_earlier(tree, before, n) for n in range(run.nodes))
        within = class_of(own) <= after.other <= class_of(len(tree.present))
        return "it is that of a number between its worker's own nodes and all" if within else ""

    change = lambda entry: {"other": max(0, entry.other + rng.choice([1, -1]))}
    return changed_record(rng, world, lambda entry: entry.outcome == "placed", change, reason)


@mutant
def record_of_another_node(rng, world):
    """The record of a mark that ended at a node names another."""
    change = lambda entry: {"other": entry.other + rng.choice([1, 2])}
    return changed_record(rng, world, lambda entry: entry.outcome == "same", change, lambda *_: "")


@mutant
def record_of_another_outcome(rng, world):
    """A record has another outcome."""
    outcome = rng.choice(OUTCOMES)

    def reason(k, before, after):
        return "" if "placed" in (before.outcome, after.outcome) else "the outcome is true as well"

    change = lambda entry: {"outcome": outcome, "other": 0 if outcome in ("blocked", "skipped") else rng.randrange(world.run.nodes)}
    return changed_record(rng, world, lambda entry: entry.outcome != outcome, change, reason)
