#!/usr/bin/env python3
"""Says how much the law of worlds asks: which changed worlds it refuses, and which stale loads. See docs/worlds.md.

That each step keeps the law is proved; that the law says enough is not. So shared runs are played at random, one atomic step
at a time, for worlds that are lawful.

Usage: worlds.py FIRST [COUNT] plays the runs of so many numbers (50 if left out) from the first on, changes worlds in
between, and prints which part of the law refused them, and which changes are lawful all the same, with the reason.
`worlds.py --stale [FIRST [COUNT]]` (0 and 15 if left out) lets views say of their next steps what is not so: stale loads, and
lowers and posts that were not made. It ends with 1 if a lawful run was reported, or a world was taken for lawful that is none.
"""

import random
import sys
from collections import Counter
from pathlib import Path

# what plays worlds shares exact geometry, rules and scenes with the scripts of the folder above
sys.path.append(str(Path(__file__).resolve().parent.parent))

from kimorefo.scene_text import SceneText
from make_scenes import polygon
from usage import words_or_usage
from world_best_mutants import MUTANTS
from world_calls import Pass
from world_law import broken_parts, is_world
from world_lies import lies
from world_steps import Refused, Steps, cleared, newcomer, start_words
from world_words import SPENT, Run

MOST_VIEWS = 7


class Report(Exception):
    """A world that is not lawful."""


def ring(rng, width, height, step):
    """Points round the room, each about a step from the one before, so that the tree winds; and some points anywhere."""
    around = [(x, 0) for x in range(width)] + [(width, y) for y in range(height)]
    around += [(x, height) for x in range(width, 0, -1)] + [(0, y) for y in range(height, 0, -1)]
    points = around[:: rng.randint(2, step)][:10]
    return points + [(rng.randint(0, width), rng.randint(0, height)) for _ in range(rng.randint(0, 4))]


def goal_round(rng, x, y):
    """A small goal from this corner on."""
    return x, y, x + rng.randint(0, 2), y + rng.randint(0, 2)


def tiny_scene(rng):
    """A scene of a few marks on a small lattice, whose start is clear. In some the marks are crowded, in some they lie in a ring."""
    while True:
        width, height = rng.randint(2, 12), rng.randint(2, 12)
        step, is_ring = rng.choice([4, 4, 4, 5, 6, 12]), rng.random() < 0.5
        width = rng.choice([step, width]) if is_ring else width
        place = lambda: (rng.randint(0, width), rng.randint(0, height))
        scene = SceneText(room=(width, height), start=(0, 0) if is_ring else place(), goals=[(0, 0, 0, 0)], step=step)
        scene.gamma = rng.choice([0, 4, 10, 100, 100])
        scene.strips = rng.choice([1, 1, 2, 3, 4])
        for _ in range(rng.choice([0, 0, 1, 2])):
            (x, y), size = place(), rng.randint(1, 4)
            scene.obstacles.append(polygon(rng, (x, x + size), (y, y + size), 64))
        places = [place() for _ in range(rng.choice([2, 6, 20, 20]))]
        scene.marks = ring(rng, width, height, step) if is_ring else [rng.choice(places) for _ in range(rng.randint(1, 9))]
        scene.informed = rng.random() < 0.5
        if scene.informed:
            scene.goals = [goal_round(rng, *place()) for _ in range(rng.choice([1, 1, 2]))]
        if not is_ring and rng.random() < 0.2:
            scene.drawn, scene.seed = len(scene.marks), rng.getrandbits(64)
        if Run(scene, 1, 0).is_clear(scene.start, scene.start):
            return scene


class Player:
    """A world and the passes that step in it, in turns that are drawn."""

    def __init__(self, rng, world, counts):
        self.rng, self.run, self.counts = rng, world.run, counts
        self.steps = Steps(world)
        self.world = self.steps.world
        self.calls = {}
        self.pending = {}
        self.weights = {}
        self.check("the beginning")

    # ---- steps

    def step(self, kind, arguments):
        """Makes one atomic step, and looks at the world after it."""
        result = getattr(self.steps, kind)(*arguments)
        name = kind if kind != "load" else "load " + self.run.names[arguments[1]][0]
        if kind == "split":
            name = "split, worker" if arguments[1] else "split, looker"
        missed = kind in ("claim", "lower") and not result or kind == "link" and result
        self.counts[name + (", failed" if missed else "")] += 1
        self.check(name)
        return result

    def check(self, name):
        """The law holds."""
        broken = is_world(self.world)
        if broken is not None:
            raise Report(".".join(broken), name)

    # ---- passes

    def caller(self, i):
        """The calls of a view."""
        return Pass(self.steps, i, self.rng)

    def employ(self, i, most):
        """The view makes the calls of a worker, up to limits that are drawn."""
        self.calls[i], self.pending[i] = self.work(self.caller(i), most), None
        self.weights[i] = self.rng.choice([1, 4, 16])

    def work(self, one, most):
        """Marks until none is left below a limit, for one limit or more."""
        limit = self.rng.randint(self.run.opening, most)
        while True:
            yield None
            if self.rng.random() < 0.3:
                yield from one.shorten(self.rng.randint(1, 8))
            mark = yield from one.claim(limit)
            if mark is not None:
                entry = yield from one.extend()
                self.counts[f"marks {entry.outcome}"] += 1
            elif limit >= most or self.rng.random() < 0.3:
                return (yield from one.shorten(self.rng.choice([0, 8])))
            else:
                limit = self.rng.randint(limit, most)

    def look(self, one):
        """Some searches of a pass that only looks."""
        for _ in range(self.rng.randint(1, 3)):
            yield None
            p = (self.rng.randint(0, self.run.scene.room[0]), self.rng.randint(0, self.run.scene.room[1]))
            call = self.rng.choice([one.nearest, one.find, lambda p: one.near(p, self.rng.randint(0, 8))])
            yield from call(p)

    def is_free(self, i):
        """Whether no call of the view is under way."""
        return self.world.views[i] != SPENT and (i not in self.calls or self.pending[i] is None)

    def advance(self, i):
        """The next step of a pass, if it has one."""
        try:
            result = None if self.pending[i] is None else self.step(*self.pending[i])
            self.pending[i] = self.calls[i].send(result)
        except StopIteration:
            del self.calls[i], self.pending[i]

    # ---- odd steps

    def odd_step(self):
        """A lawful step that no rule of the planner asks for, of a view that is free."""
        free = [i for i in range(len(self.world.views)) if self.is_free(i)]
        if free:
            i = self.rng.choice(free)
            self.rng.choice([self.odd_load, self.odd_load, self.odd_lower, self.odd_best, self.odd_split, self.odd_join])(i)

    def odd_load(self, i):
        """A load of anything that the view may load; of the count only with nothing in hand."""
        run, view = self.run, self.world.views[i]
        places = [run.counter(g) for g in range(run.strips)] + ([] if view.hand else [run.count])
        places += [run.point(n) + j for n in range(run.nodes) if self.steps.sees_node(i, n) for j in range(4)]
        self.step("load", (i, self.rng.choice(places)))

    def odd_lower(self, i):
        """A lower of any node below any parent, if it may be made."""
        tree = self.steps.tree(i)
        seen = [n for n in tree.present if tree.pair(n)]
        for _ in range(6):
            node, parent = self.rng.choice(seen), self.rng.choice(seen)
            kept = self.steps.cost_below(i, tree.points[node], parent)
            if node != parent and kept is not None and self.steps.may_lower(i, node, parent, kept):
                self.step("lower", (i, node, parent, kept))
                return

    def odd_best(self, i):
        """A load of the best word, but for a mark that is looked at, or a post of any goal node, if it may be made."""
        hand = self.world.views[i].hand
        posts = [n for n in range(self.run.nodes) if self.steps.may_post(i, n)]
        if self.run.goals and not (hand and hand.stage == "claimed") and (not posts or self.rng.random() < 0.5):
            self.step("load_best", (i,))
        elif posts:
            self.step("post", (i, self.rng.choice(posts)))

    def odd_split(self, i):
        """A split: the second worker gets a view of its own, or a new view looks."""
        if len(self.world.views) >= MOST_VIEWS + self.run.workers:
            return
        hand_on = len(self.world.views[i].crew) > 1
        j = self.step("split", (i, hand_on))
        if hand_on:
            self.employ(j, len(self.run.marks))
        else:
            self.calls[j], self.pending[j] = self.look(self.caller(j)), None
            self.weights[j] = 2

    def odd_join(self, i):
        """A join of two views without a hand. A view that takes over a worker goes on with its work."""
        views = self.world.views
        others = [j for j in range(len(views)) if j != i and self.is_free(j) and not views[j].hand]
        if views[i].hand or not others or self.rng.random() < 0.5:
            return
        self.take_over(i, self.rng.choice(others))

    def take_over(self, i, j):
        """One view takes over another."""
        works = i in self.calls and self.world.views[i].crew
        self.step("join", (i, j))
        self.calls.pop(j, None)
        self.pending.pop(j, None)
        if self.world.views[i].crew and not works:
            self.employ(i, len(self.run.marks))

    # ---- a whole run

    def begin(self):
        """Each worker gets a view of its own."""
        for _ in range(1, self.run.workers):
            self.step("split", (0, True))
        for i in range(self.run.workers):
            self.employ(i, len(self.run.marks))

    def play(self, mutate):
        """Steps of all passes, until none works any more."""
        while any(self.world.views[i].crew for i in self.calls):
            ready = list(self.calls)
            if self.rng.random() < 0.12:
                self.odd_step()
            else:
                self.advance(self.rng.choices(ready, [self.weights[i] for i in ready])[0])
            mutate(self.world)

    def end(self):
        """One view takes over all, and finds no mark left. The closed run that the words have come to: its limit and its words."""
        run, views = self.run, self.world.views
        self.calls.clear()
        self.pending.clear()
        rest = [i for i in range(len(views)) if views[i] != SPENT]
        self.rng.shuffle(rest)
        for j in rest[1:]:
            self.step("join", (rest[0], j))
        i = rest[0]
        self.calls[i], self.pending[i], self.weights[i] = self.finish_all(self.caller(i)), None, 1
        while i in self.calls:
            self.advance(i)
        return views[i].most, cleared(run, self.world.words)

    def finish_all(self, one):
        """The marks that are left below the greatest limit."""
        while (yield from one.claim(one.view.most)) is not None:
            yield from one.extend()


def play_number(number, counts, mutate=lambda rng, world: None):
    """Plays the run of a number: from the start alone, and mostly on from where that came to, by another number of workers."""
    rng = random.Random(f"worlds {number}")
    scene = tiny_scene(rng)
    opening, words, workers = 0, None, rng.choice([1, 2, 2, 3, 4])
    for _ in range(rng.randint(1, 3)):
        run = Run(scene, workers, opening)
        player = Player(rng, newcomer(run, words or start_words(run)), counts)
        player.begin()
        player.play(lambda world: mutate(rng, world))
        opening, words = player.end()
        counts["runs"] += 1
        workers = rng.randint(1, 4)


class Mutants:
    """Changes of worlds at random moments, and what the law said of them."""

    def __init__(self):
        self.first, self.alone, self.kinds, self.lawful, self.missed = Counter(), Counter(), Counter(), Counter(), []

    def mutate(self, rng, world):
        """Now and then changes a copy of the world, and looks whether the law refuses it."""
        if rng.random() > 0.12:
            return
        name, mutant = rng.choice(list(MUTANTS.items()))
        changed = world.copy()
        reason = mutant(rng, changed)
        if reason is None or changed == world:
            return
        broken = list(dict.fromkeys(broken_parts(changed)))
        self.kinds[name] += 1
        if broken:
            self.first[broken[0][0]] += 1
            self.alone[broken[0][0]] += len({part for part, _ in broken}) == 1
        elif reason == "":
            self.missed.append(name)
        else:
            self.lawful[f"{name}: {reason}"] += 1


class Lies:
    """Lies of views at random moments, and those that the law took for lawful."""

    def __init__(self):
        self.refused, self.missed = Counter(), []

    def tell(self, rng, world):
        """Now and then lets each view tell each lie of its next step."""
        if rng.random() > 0.1:
            return
        for kind, changed in (lie for i, view in enumerate(world.views) if view.run for lie in lies(world, i)):
            if is_world(changed) is None:
                self.missed.append(kind)
            else:
                self.refused[kind] += 1


def print_counts(title, counts):
    """A table of counts."""
    print(f"{title}:")
    for what, times in sorted(counts.items()):
        print(f"  {what}: {times}")


def play_runs(first, count, change):
    """Plays so many runs, with a change now and then. The counts of steps, and the reports."""
    counts, reports = Counter(), []
    for number in range(first, first + count):
        try:
            play_number(number, counts, change)
        except (Report, Refused) as found:
            reports.append((number, found))
    return counts, reports


def print_end(reports, missed, what):
    """What was reported and taken for lawful. The exit status."""
    for number, found in reports:
        print(f"reported: run {number}, {type(found).__name__} {found.args}")
    for name, times in sorted(Counter(missed).items()):
        print(f"taken for lawful: {name} ({times})")
    print(f"{len(reports)} reports, {len(missed)} {what} taken for lawful")
    return 1 if reports or missed else 0


def play_all(first, count):
    """Changes worlds of so many runs, and gives the exit status."""
    mutants = Mutants()
    counts, reports = play_runs(first, count, mutants.mutate)
    print_counts("steps", counts)
    print_counts("mutants", mutants.kinds)
    print_counts("refused, by the first part that is broken", mutants.first)
    print_counts("refused, by one part alone", mutants.alone)
    print_counts("lawful all the same", mutants.lawful)
    return print_end(reports, mutants.missed, "mutants")


def play_stale(first, count):
    """Lets views of so many runs say what is not so, and gives the exit status."""
    told = Lies()
    _, reports = play_runs(first, count, told.tell)
    print_counts("lies refused, beside no note, a false one and a true one", told.refused)
    return print_end(reports, told.missed, "lies")


if __name__ == "__main__":
    words = words_or_usage(__doc__)
    arguments = [word for word in words if word != "--stale"]
    play, count = (play_stale, "15") if "--stale" in words else (play_all, "50")
    sys.exit(play(*(int(word) for word in arguments + ["0", count][len(arguments) :])))
