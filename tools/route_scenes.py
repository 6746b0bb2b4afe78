#!/usr/bin/env python3
"""Makes random scenes whose marks have a route among them, each point of which the planner is sure to follow, and others.

Usage: route_scenes.py NUMBER writes the text of the scene of that number; route_scenes.py NUMBER crowded that of one with
so many marks that several workers have some of them.
"""

import random
import sys

from kimorefo.geometry import Space, squared_distance
from kimorefo.scene_text import SceneText
from make_scenes import body, small_obstacle
from route_links import Links
from rules import class_of, radius_of_class
from usage import words_or_usage

MOST_OTHERS = 18
CROWD = 3_000
LINE = 500
TRIES = 40


def needle(rng, width, height):
    """A thin triangle, which passes between lattice points."""
    length = rng.randint(6, 14)
    corners = [(0, 0), (length, 1), (length - 1, 1)]
    if rng.random() < 0.5:
        corners = [(-y, x) for x, y in corners]
    x, y = rng.randint(-2, width), rng.randint(-2, height)
    return [(x + a, y + b) for a, b in corners]


def empty_scene(rng):
    """A scene without marks, whose goal is yet to be moved."""
    width, height = rng.randint(6, 28), rng.randint(6, 28)
    sharp = rng.random() < 0.4
    obstacles = [small_obstacle(rng, (-2, width), (-2, height)) for _ in range(rng.choice([0, 1, 2, 3, 4]))]
    return SceneText(
        version=2,
        room=(width, height),
        start=(rng.randint(0, width), rng.randint(0, height)),
        goals=[(0, 0, 0, 0)],
        step=rng.choice([4, 5, 6, 8]),
        gamma=rng.choice([5, 7, 9, 12, 20, 40]),
        body=[(0, 0)] if sharp else body(rng, 2),
        obstacles=obstacles + [needle(rng, width, height) for _ in range(3 * sharp)],
        clearance=rng.choice([0, 0, 0, 1]),
        informed=rng.random() < 0.4,
        strips=rng.choice([1, 1, 2, 4]),
    )


def least_radius(scene, marks):
    """The rewiring radius at the most nodes that so many marks may give."""
    return radius_of_class(scene.step, scene.gamma, class_of(marks + 1))


def leads_on(here, p, aim):
    """Whether a link leads roughly in a direction; each does in none."""
    ahead = sum((p[i] - here[i]) * aim[i] for i in (0, 1))
    return aim == (0, 0) or (ahead > 0 and ahead**2 * 4 > 3 * squared_distance(here, p) * squared_distance((0, 0), aim))


def route_in(rng, scene, links):
    """A route of some random links, often nearly straight; most have none that is longer than the radius may be in the end."""
    wanted = rng.randint(3, 6)
    longest = min(scene.step, least_radius(scene, wanted + MOST_OTHERS)) if rng.random() < 0.8 else scene.step
    aim = rng.choice([(0, 0), (rng.randint(-9, 9), rng.randint(-9, 9))])
    route = [scene.start]
    for _ in range(wanted * TRIES):
        here = route[-1]
        p = tuple(c + rng.randint(-longest, longest) for c in here)
        if p not in route and squared_distance(here, p) <= longest**2 and leads_on(here, p, aim) and links.may_have(here, p):
            route.append(p)
        if len(route) > wanted:
            break
    return route[1:]


def with_others(rng, scene, route):
    """The marks of the route in their order among others, many of which fall on it or beside it; or after much of it came before."""
    width, height = scene.room
    places = [*route, scene.start]

    def other():
        if rng.random() < 0.4:
            return rng.randint(0, width), rng.randint(0, height)
        return tuple(max(0, c + rng.choice([0, 0, 0, -1, 1, 2])) for c in rng.choice(places))

    if rng.random() < 0.3:
        return [other() for _ in range(rng.randint(1, 4))] + route[1:] + [other()] * rng.randint(0, 1) + route
    others = [other() for _ in range(rng.randint(0, MOST_OTHERS))]
    spots = set(rng.sample(range(len(route) + len(others)), len(route)))
    ordered, rest = iter(route), iter(others)
    return [next(ordered) if k in spots else next(rest) for k in range(len(route) + len(others))]


def scene_of(number):
    """The scene of a number. Its start is clear, and most routes end in its first goal."""
    rng = random.Random(f"route {number}")
    while True:
        scene = empty_scene(rng)
        space = Space(scene)
        if space.is_clear(scene.start, scene.start):
            break
    route = route_in(rng, scene, Links(scene, space))
    scene.marks = with_others(rng, scene, route)
    x, y = route[-1] if route and rng.random() < 0.9 else (rng.randint(0, scene.room[0]), rng.randint(0, scene.room[1]))
    scene.goals = [(x, y, x + rng.choice([0, 0, 1, 3]), y + rng.choice([0, 0, 1, 3]))]
    if rng.random() < 0.2:
        scene.goals.append((0, 0, rng.randint(0, 2), rng.randint(0, 2)))
    return scene


def line_of(rng):
    """A scene with marks in a line, each a step from the one before: with several workers a mark may come too early."""
    step, count = rng.choice([4, 5]), LINE
    marks = [(step * n, 0) for n in range(1, count + 1)]
    return SceneText(version=2, room=(step * count, 2), start=(0, 0), goals=[(*marks[-1], *marks[-1])], step=step, gamma=step, marks=marks)


def crowd_of(rng):
    """A scene with many drawn marks in a larger room. Its start is clear."""
    while True:
        scene = empty_scene(rng)
        width, height = rng.randint(50, 100), rng.randint(50, 100)
        scene.room, scene.start = (width, height), (rng.randint(0, width), rng.randint(0, height))
        scene.obstacles += [small_obstacle(rng, (0, width), (0, height)) for _ in range(12)]
        scene.step, scene.gamma, scene.drawn = rng.choice([4, 5]), rng.choice([20, 40, 60]), CROWD
        scene.seed, scene.goals = rng.getrandbits(64), [(width - 4, height - 4, width, height)]
        if Space(scene).is_clear(scene.start, scene.start):
            return scene


def crowded_scene_of(number):
    """The crowded scene of a number."""
    rng = random.Random(f"crowded route {number}")
    return line_of(rng) if rng.random() < 0.3 else crowd_of(rng)


if __name__ == "__main__":
    words = words_or_usage(__doc__)
    make = crowded_scene_of if words[1:] == ["crowded"] else scene_of
    sys.stdout.write(make(int(words[0])).text())
