"""Changes of lawful worlds, each of which is to break a named part of the law, or says why it may not.

A mutant changes a copy of a world. It returns "" if the law has to refuse that, a reason if it may be lawful all the same, and
None if there is nothing to change. `everywhere` changes a word together with what was seen of it, so that no view gives it away.
"""

from dataclasses import replace

from world_law import hangs
from world_lies import lies
from world_steps import put
from world_words import SPENT, WRITTEN, Tree, cost_in, linked_nodes, parent_in, quota, record_word, tree_word

MUTANTS = {}


def mutant(change):
    """Keeps a mutant under its name."""
    MUTANTS[change.__name__] = change
    return change


def pick(rng, items):
    """One of the items, or None."""
    items = list(items)
    return rng.choice(items) if items else None


def everywhere(world, place, word):
    """Changes a word, and what any view has seen of it as it is."""
    old = world.words[place]
    world.words[place] = word
    for i, view in enumerate(world.views):
        if view.run and view.seen[place] == old:
            world.views[i] = replace(view, seen=put(view.seen, place, word))


def change_view(rng, world, test, change):
    """Changes one view that passes the test. Whether there is one."""
    i = pick(rng, (i for i, view in enumerate(world.views) if view.run and test(view)))
    if i is not None:
        world.views[i] = replace(world.views[i], **change(world.views[i]))
    return i is not None


def must(changed):
    """A change that the law has to refuse."""
    return "" if changed else None


def see(rng, world, places, word):
    """One view sees a word otherwise, at a place that it may be changed at."""
    i = pick(rng, (i for i, view in enumerate(world.views) if view.run and any(places(view))))
    if i is None:
        return None
    view = world.views[i]
    place = pick(rng, places(view))
    world.views[i] = replace(view, seen=put(view.seen, place, word(view, place)))
    return view, place


def linked(world):
    """The linked nodes but node 0."""
    return sorted(linked_nodes(world.run, world.words) - {0})


# ---- views and numbers


@mutant
def look_by_a_step_to_come(rng, world):
    """A view has looked at a word, or found it 0, by a step that it has not made."""
    field = rng.choice(["looked", "found_zero"])
    place = rng.randrange(world.run.size)
    return must(change_view(rng, world, lambda view: True, lambda view: {field: put(getattr(view, field), place, view.steps + 1)}))


@mutant
def other_step_numbers(rng, world):
    """A view has made more steps, or found a word 0 by another of its steps."""
    place = rng.randrange(world.run.size)
    change = rng.choice([lambda view: {"steps": view.steps + 1}, lambda view: {"found_zero": put(view.found_zero, place, view.steps)}])
    change_view(rng, world, lambda view: True, change)
    return "the law bounds the numbers of steps, and no more"


@mutant
def found_empty_after_its_fill(rng, world):
    """A view has found a place of a child empty by a step that it made after the place was filled, as that is noted."""
    run = world.run
    late = [
        (i, place)
        for i, view in enumerate(world.views)
        if view.run
        for place in run.child_places
        if world.words[place] and view.steps > max((by[i] for _, (at, _, by) in notes_of(world) if at == place and i < len(by)), default=0)
    ]
    found = pick(rng, late)
    if found is None:
        return None
    i, place = found
    world.views[i] = replace(world.views[i], found_zero=put(world.views[i].found_zero, place, world.views[i].steps))
    return ""


def notes_of(world):
    """The notes of views, each with the number of its view."""
    return [(i, note) for i, view in enumerate(world.views) for note in view.notes]


def change_note(rng, world, test, change):
    """Changes a note that passes the test, wherever it stands. The note, or None."""
    found = pick(rng, (note for _, note in notes_of(world) if test(note)))
    if found is not None:
        then = change(found)
        for i, view in enumerate(world.views):
            world.views[i] = replace(view, notes=tuple(then if note == found else note for note in view.notes))
    return found


@mutant
def note_of_steps_to_come(rng, world):
    """A note tells of more steps of a view than it has made, or of steps of a view that is not there."""
    views = world.views
    live = [j for j in range(len(views)) if views[j].run]

    def later(note):
        place, word, by = note
        j = pick(rng, (j for j in live if j < len(by)))
        beyond = j is None or len(by) == len(views) and rng.random() < 0.3
        return place, word, (*by, *(0,) * (len(views) - len(by)), 1) if beyond else put(by, j, views[j].steps + 1)

    return must(change_note(rng, world, lambda note: True, later))


@mutant
def note_of_a_word_to_come(rng, world):
    """A note tells of a word that is later than the word is now."""
    run = world.run
    later = {
        "count": lambda word: word + 1,
        "counter": lambda word: word + 1,
        "child": lambda word: word + 1,
        "best": lambda word: word - 1,
        "tree": lambda word: word - (1 << 18),
    }
    test = lambda note: world.words[note[0]] and (run.names[note[0]][0] != "tree" or cost_in(world.words[note[0]]))
    return must(change_note(rng, world, test, lambda note: (note[0], later[run.names[note[0]][0]](world.words[note[0]]), note[2])))


@mutant
def change_not_noted(rng, world):
    """No view notes what a word is, which some view sees otherwise."""
    run, words = world.run, world.words
    placed = lambda view, place: run.names[place][0] == "tree" and not view.seen[place] and words[place] == words[place + 1]
    otherwise = {p for view in world.views if view.run for p in run.loaded_places if view.last_seen(p) != words[p] and not placed(view, p)}
    place = pick(rng, sorted(otherwise))
    if place is None:
        return None
    for i, view in enumerate(world.views):
        world.views[i] = replace(view, notes=tuple(note for note in view.notes if note[:2] != (place, words[place])))
    return ""


@mutant
def lie_of_the_next_step(rng, world):
    """A view says of its next step what is not so."""
    told = pick(rng, (lie for i, view in enumerate(world.views) if view.run for lie in lies(world, i)))
    if told is None:
        return None
    world.views[:] = told[1].views
    return ""


@mutant
def spent_view_has_something(rng, world):
    """A view that was taken over has a hand, a share or a limit still."""
    i = pick(rng, (i for i, view in enumerate(world.views) if view == SPENT))
    if i is None:
        return None
    hand = pick(rng, (view.hand for view in world.views if view.hand))
    world.views[i] = replace(SPENT, **rng.choice([{"most": 1}, {"steps": 3}, {"crew": ((0, 0),)}, {"hand": hand, "most": 1}]))
    return ""


@mutant
def counter_off_by_one(rng, world):
    """A counter is 1 more or less."""
    place = world.run.counter(rng.randrange(world.run.strips))
    everywhere(world, place, max(0, world.words[place] + rng.choice([1, -1])))
    return ""


@mutant
def hand_dropped(rng, world):
    """A mark in hand is in no hand."""
    return must(change_view(rng, world, lambda view: view.hand, lambda view: {"hand": None}))


@mutant
def mark_in_two_hands(rng, world):
    """A second view has the same mark in hand."""
    hand = pick(rng, (view.hand for view in world.views if view.hand))
    return must(hand and change_view(rng, world, lambda view: view.crew and not view.hand, lambda view: {"hand": hand}))


@mutant
def another_mark_in_hand(rng, world):
    """A hand has another mark."""
    k = rng.randrange(world.run.nodes + 2)
    change = lambda view: {"hand": replace(view.hand, mark=k)}
    return must(change_view(rng, world, lambda view: view.hand and view.hand.mark != k, change))


@mutant
def limit_beyond_the_marks(rng, world):
    """A view has used a limit above the number of marks."""
    return must(change_view(rng, world, lambda view: True, lambda view: {"most": world.run.nodes}))


@mutant
def another_limit(rng, world):
    """A view has used another limit."""
    most = rng.randrange(world.run.nodes)
    change_view(rng, world, lambda view: True, lambda view: {"most": most})
    limits = [view.most for view in world.views if view.crew]
    within = all(
        world.words[world.run.counter(g)] <= quota(world.run.strips, g, max(limits, default=0)) for g in range(world.run.strips)
    )
    return "no counter is above its quota below the limits that are left" if within else ""


@mutant
def record_with_a_stray_bit(rng, world):
    """A record word has a bit that no packed word has."""
    k = pick(rng, (k for k in range(len(world.run.marks)) if world.words[world.run.record(k)]))
    if k is None:
        return None
    everywhere(world, world.run.record(k), world.words[world.run.record(k)] | 1 << 62)
    return ""


@mutant
def record_erased(rng, world):
    """A mark's record is gone."""
    k = pick(rng, (k for k in range(len(world.run.marks)) if world.words[world.run.record(k)]))
    if k is None:
        return None
    everywhere(world, world.run.record(k), 0)
    return ""


# ---- turns and shares


@mutant
def turn_off_by_one(rng, world):
    """A worker's next turn is another one."""

    def change(view):
        (worker, turn), *others = view.crew
        return {"crew": ((worker, turn + 1), *others)}

    return must(change_view(rng, world, lambda view: view.crew, change))


@mutant
def worker_twice_or_gone(rng, world):
    """A worker is in two crews, or in none, or is not one of the run's."""
    run, member = world.run, pick(rng, (member for view in world.views for member in view.crew))
    change = rng.choice([
        lambda view: {"crew": view.crew[1:]},
        lambda view: {"crew": (*view.crew, member)},
        lambda view: {"crew": ((run.workers, 0), *view.crew[1:])},
    ])
    return must(change_view(rng, world, lambda view: view.crew, change))


@mutant
def worker_in_another_crew(rng, world):
    """A worker moves to the crew of another view."""
    i = pick(rng, (i for i, view in enumerate(world.views) if view.crew))
    *crew, member = world.views[i].crew
    world.views[i] = replace(world.views[i], crew=tuple(crew))
    change_view(rng, world, lambda view: view is not world.views[i], lambda view: {"crew": (*view.crew, member)})
    idle = not crew and world.views[i].hand
    return "" if idle else "a view that has seen the records of a worker may have its share"


@mutant
def own_record_not_seen(rng, world):
    """A view has not seen a record of a worker of its crew."""
    run, tree = world.run, Tree(world.run, world.words)

    def places(view):
        workers = {worker for worker, _ in view.crew}
        return [run.record(k) for k, entry in enumerate(tree.records) if entry and entry.worker in workers]

    return must(see(rng, world, places, lambda view, place: 0))


@mutant
def record_of_another_turn(rng, world):
    """A record is of another turn of its worker."""
    return changed_record(rng, world, lambda entry: True, lambda entry: {"turn": entry.turn + rng.choice([1, 2])}, lambda *_: "")


@mutant
def record_of_another_worker(rng, world):
    """A record is of another worker."""
    run, worker = world.run, rng.randrange(world.run.workers + 2)

    def reason(k, before, after):
        known = before.worker < run.workers or after.worker < run.workers or k >= run.opening
        return "" if known else "a record of the opening run may be by another worker of that"

    return changed_record(rng, world, lambda entry: entry.worker != worker, lambda entry: {"worker": worker}, reason)


def changed_record(rng, world, test, change, reason):
    """Changes a record everywhere."""
    run, tree = world.run, Tree(world.run, world.words)
    k = pick(rng, (k for k, entry in enumerate(tree.records) if entry and test(entry)))
    if k is None:
        return None
    before = tree.records[k]
    after = replace(before, **change(before))
    everywhere(world, run.record(k), record_word(after))
    return reason(k, before, after)


# ---- what was seen


@mutant
def seen_otherwise(rng, world):
    """A view has seen another point, child, first word or record than there is."""
    places = lambda view: [place for place, word in enumerate(view.seen) if word and world.run.kinds[place] == "once"]
    return must(see(rng, world, places, lambda view, place: view.seen[place] + rng.choice([1, 2, 1 << 20])))


@mutant
def number_seen_too_high(rng, world):
    """A view has seen a counter or the count above what it is."""
    places = lambda view: world.run.numbers
    return must(see(rng, world, places, lambda view, place: world.words[place] + rng.randint(1, 3)))


@mutant
def older_number_seen(rng, world):
    """A view has seen a lower number of a counter or of the count."""
    places = lambda view: [place for place in world.run.numbers if view.seen[place]]
    see(rng, world, places, lambda view, place: rng.randrange(view.seen[place]))
    return "what was seen of a number may be old, where another view with a share has seen it as it is"


@mutant
def cost_seen_too_low(rng, world):
    """A view has seen a node at less than it costs, or at that cost below another parent."""
    places = lambda view: [place for place in world.run.tree_places[1:] if view.seen[place]]
    lower = rng.choice([lambda word: word - (1 << 18), lambda word: word ^ 1])
    return must(see(rng, world, places, lambda view, place: lower(world.words[place])))


@mutant
def cost_seen_too_high(rng, world):
    """A view has seen a node at more than it was placed at."""
    run = world.run
    places = lambda view: [place for place in run.tree_places[1:] if view.seen[place]]
    return must(see(rng, world, places, lambda view, place: world.words[place + 1] + (1 << 18)))


@mutant
def two_parents_at_one_cost(rng, world):
    """Two views have seen a node at one cost, below different parents."""
    run, n = world.run, pick(rng, linked(world))
    views = [i for i, view in enumerate(world.views) if view.run]
    if n is None or len(views) < 2:
        return None
    word = world.words[run.tree(n)] + (1 << 18)
    for i, parent in zip(rng.sample(views, 2), (0, n)):
        seen = put(world.views[i].seen, run.tree(n), word - parent_in(word) + parent)
        world.views[i] = replace(world.views[i], seen=seen)
    return ""


@mutant
def older_pair_seen(rng, world):
    """A view has seen a node at a higher cost, below this or another parent."""
    run, tree, n = world.run, Tree(world.run, world.words), pick(rng, linked(world))
    if n is None:
        return None
    parent, kept = rng.choice([tree.parent(n), rng.randrange(run.nodes)]), tree.cost(n) + rng.randint(1, 900)
    if see(rng, world, lambda view: [run.tree(n)] * bool(view.seen[run.tree(n)]), lambda *_: tree_word(parent, kept)) is None:
        return None
    lawful = hangs(run, tree, n, tree.points[n], parent, kept) and kept <= tree.first_cost(n)
    return "it may have been seen so earlier" if lawful else ""


@mutant
def taken_over_otherwise(rng, world):
    """A pass that was taken over had seen what its taker has not."""
    place = rng.choice([place for place in range(world.run.size) if place != world.run.best])
    other = (lambda word: word ^ 1) if world.run.kinds[place] == "falling" else (lambda word: word + 1)
    change = lambda view: {"took": put(view.took, place, other(view.seen[place] or WRITTEN))}
    return must(change_view(rng, world, lambda view: len(view.took) == world.run.size, change))


@mutant
def word_forgotten(rng, world):
    """A view has not seen a word that it had seen."""
    return forget(rng, world, lambda view, place: True, "a view may have seen less, where another with a share has seen it")


@mutant
def needed_word_forgotten(rng, world):
    """A view has not seen node 0, or the point or the first word of a node whose record it has, or what its hand came from."""
    run = world.run

    def is_needed(view, place):
        name = run.names[place]
        held = view.hand and view.hand.has("pointed") and name == ("point", view.hand.nearest)
        placed = name[0] in ("point", "first") and name[1] and Tree(run, view.seen, "seen").has_placed(name[1])
        return held or placed or name == ("point", 0)

    return forget(rng, world, is_needed, "")


def forget(rng, world, test, reason):
    """One view forgets a word."""
    places = lambda view: [place for place, word in enumerate(view.seen) if word and test(view, place)]
    return None if see(rng, world, places, lambda view, place: 0) is None else reason


@mutant
def nobody_sees_a_counter(rng, world):
    """No view with a share has seen a counter as it is."""
    place = pick(rng, (place for place in world.run.numbers[1:] if world.words[place]))
    return unseen_by_all(world, place, lambda word: word - 1)


@mutant
def nobody_sees_a_cost(rng, world):
    """No view with a share has seen the tree word of a node as it is."""
    n = pick(rng, (n for n in linked(world) if cost_in(world.words[world.run.first(n)]) > cost_in(world.words[world.run.tree(n)])))
    return unseen_by_all(world, n and world.run.tree(n), lambda word: world.words[world.run.first(n)])


@mutant
def nobody_sees_an_end(rng, world):
    """No view with a share has seen the last link of a way."""
    run = world.run
    ends = [n for n in linked(world) if not world.words[run.child(n, 0)] and not world.words[run.child(n, 1)]]
    n = pick(rng, ends)
    if n is None:
        return None
    for i, view in enumerate(world.views):
        if view.crew and view.run:
            forgotten = [run.point(n), run.tree(n), run.first(n), *(place for place in run.child_places if view.seen[place] == n)]
            seen = view.seen
            for place in forgotten:
                seen = put(seen, place, 0)
            world.views[i] = replace(view, seen=seen)
    return ""


def unseen_by_all(world, place, older):
    """All views with a share see an older word at a place."""
    if place is None:
        return None
    for i, view in enumerate(world.views):
        if view.crew and view.seen[place] == world.words[place]:
            world.views[i] = replace(view, seen=put(view.seen, place, older(view.seen[place])))
    return ""
