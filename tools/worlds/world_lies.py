"""What a view may say of its next step that is not so: stale loads, lowers that were not made, and posts of what it had seen.

The words stay as they are, and the view is a later one. It notes nothing of the word, or falsely what it tells, or what the word is.
"""

from dataclasses import replace

from world_steps import put
from world_words import NO_BEST, WRITTEN, best_word, cost_in, seen_tree, tree_word


def lies(world, i):
    """Each lie of a view: its kind, and the world afterwards."""
    for kind, place, then in [*stale_loads(world, i), *false_lowers(world, i), *stale_posts(world, i)]:
        by = tuple(view.steps for view in put(tuple(world.views), i, then))
        told, left = then.last_seen(place), world.words[place]
        for notes in ((), ((place, told, by),), ((place, left, by),)):
            changed = world.copy()
            changed.views[i] = replace(then, notes=(*notes, *then.notes))
            yield kind, changed


def looked(view, place, word):
    """The view after a step that looked at a word, and tells that it was so."""
    steps = view.steps + 1
    view = replace(view, steps=steps, looked=put(view.looked, place, steps), seen=put(view.seen, place, word))
    return view if word else replace(view, found_zero=put(view.found_zero, place, steps))


def stale_loads(world, i):
    """Loads that tell once more what the view had seen, and of a child that it is none; of a tree word only if it had seen one."""
    run, view = world.run, world.views[i]
    for place in run.loaded_places:
        kind = run.names[place][0]
        if kind == "best":
            if view.best != world.words[place]:
                steps = view.steps + 1
                yield "load of the best word", place, replace(view, steps=steps, looked=put(view.looked, place, steps))
            continue
        for word in {view.seen[place], 0} if kind == "child" else {view.seen[place]}:
            if word != world.words[place] and (word or kind != "tree"):
                yield f"load of a {kind}", place, looked(view, place, word)


def false_lowers(world, i):
    """Lowers that say that the word is the new pair, where it was another than was seen: a cheaper one, or one that is dearer still."""
    run, view = world.run, world.views[i]
    for place in run.tree_places:
        seen, now = view.seen[place], world.words[place]
        if seen < WRITTEN or now == seen:
            continue
        for kind, kept in (("cheaper", cost_in(now) + 1), ("dearer", cost_in(now) - 1)):
            if 0 <= kept < cost_in(seen):
                yield f"lower on a {kind} word", place, looked(view, place, tree_word(0, kept))


def stale_posts(world, i):
    """Posts that leave the lesser of what was seen of the best word and a pair, where the word is less."""
    run, view = world.run, world.views[i]
    tree = seen_tree(run, view.seen)
    for node in tree.present:
        if run.lies_in_goal(tree.points[node]) and tree.pair(node):
            word = min(view.best, best_word(tree.cost(node), node))
            if word not in (NO_BEST, world.words[run.best]):
                steps = view.steps + 1
                yield "post of what was seen", run.best, replace(view, best=word, steps=steps, looked=put(view.looked, run.best, steps))
