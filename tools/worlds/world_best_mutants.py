"""Changes of lawful worlds in the best word, and in what was seen of it. See world_mutants.py."""

from dataclasses import replace

from world_law import least_placed
from world_mutants import change_view, must, mutant, pick
from world_tree_mutants import MUTANTS, holder
from world_words import NO_BEST, Tree, best_word, seen_tree

# Those of all files: a mutant of this one is kept with the others.
__all__ = ["MUTANTS"]


def everywhere_best(world, word):
    """Changes the best word, and what any view has seen or taken of it as it is."""
    old = world.words[world.run.best]
    world.words[world.run.best] = word
    for i, view in enumerate(world.views):
        if view.run and view.best == old:
            hand = view.hand and replace(view.hand, best=word if view.hand.best == old else view.hand.best)
            world.views[i] = replace(view, best=word, hand=hand)


@mutant
def best_below_the_cost(rng, world):
    """The best word has a goal node at less than it costs."""
    tree = Tree(world.run, world.words)
    node = pick(rng, (n for n in tree.present if tree.is_goal_node(n) and tree.cost(n)))
    if node is None:
        return None
    everywhere_best(world, best_word(tree.cost(node) - 1, node))
    return ""


@mutant
def best_of_no_goal_node(rng, world):
    """The best word has a node that lies in no goal, or is not there."""
    tree = Tree(world.run, world.words)
    node = pick(rng, (n for n in range(world.run.nodes) if not tree.is_goal_node(n)))
    if node is None or not world.run.goals:
        return None
    everywhere_best(world, best_word(tree.cost(node), node))
    return ""


@mutant
def best_forgotten(rng, world):
    """The best word says that no goal node is known, and a goal node is recorded."""
    if least_placed(Tree(world.run, world.words)) == NO_BEST:
        return None
    everywhere_best(world, NO_BEST)
    return ""


@mutant
def best_seen_too_low(rng, world):
    """A view has seen less in the best word than there is."""
    best = world.words[world.run.best]
    lower = max(0, best - rng.choice([1, 1 << 18]))
    return must(best and change_view(rng, world, lambda view: True, lambda view: {"best": lower})) or None


@mutant
def best_not_seen(rng, world):
    """A view has seen no best, and a goal node that is recorded."""
    knows = lambda view: least_placed(seen_tree(world.run, view.seen)) != NO_BEST
    return must(change_view(rng, world, knows, lambda view: {"best": NO_BEST}))


@mutant
def best_seen_by_none(rng, world):
    """The best word is lower than what any view has seen of it."""
    tree, old = Tree(world.run, world.words), world.words[world.run.best]
    lower = (best_word(tree.cost(n), n) for n in tree.present if tree.is_goal_node(n))
    word = pick(rng, (word for word in lower if word < old))
    if word is None:
        return None
    world.words[world.run.best] = word
    return ""


@mutant
def best_taken_too_low(rng, world):
    """A hand has taken a best word that is less than the one that was seen last."""
    taken = lambda view: view.hand and view.hand.best is not None and view.best
    return must(change_view(rng, world, taken, lambda view: {"hand": replace(view.hand, best=view.best - 1)}))


@mutant
def posted_unseen(rng, world):
    """A hand has posted its node, and the view has seen no best."""
    i = holder(rng, world, lambda hand: hand.stage == "posted")
    if i is None:
        return None
    world.views[i] = replace(world.views[i], best=NO_BEST)
    return ""
