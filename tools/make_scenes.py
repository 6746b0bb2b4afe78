#!/usr/bin/env python3
"""Makes random scenes on small lattices, where ties, touching and blocked edges are frequent; and texts with faults.

Usage: make_scenes.py NUMBER [VERSION] writes the text of the scene of that number, in version 1 or 2; the same words give the same
scene. A scene of version 2 is that of version 1 with more goals and a clearance; every other is informed.
"""

import random
import sys

from kimorefo.geometry import hull
from kimorefo.scene_text import KEYS, SceneText
from usage import words_or_usage

MOST_BODY = 4_096
MOST_CLEARANCE = 4_096


def polygon(rng, low, high, most_corners):
    """A strictly convex polygon with corners in a box."""
    while True:
        corners = hull([(rng.randint(*low), rng.randint(*high)) for _ in range(rng.randint(3, 7))])
        if 3 <= len(corners) <= most_corners:
            turn = rng.randrange(len(corners))
            return corners[turn:] + corners[:turn]


def body(rng, reach):
    """The body: often a point, else a polygon round its origin or beside it."""
    if rng.random() < 0.4:
        return [(0, 0)] if rng.random() < 0.8 else [(rng.randint(-1, 1), rng.randint(-1, 1))]
    shift = rng.randint(0, reach)
    return polygon(rng, (-shift, reach - shift), (-shift, reach - shift), 16)


def marks(rng, width, height, most):
    """Listed marks; some families crowd many of them into few places."""
    count = rng.randint(0, most)
    family = rng.choice(["spread", "spread", "column", "one point", "two points", "branch"])
    places = [(rng.randint(0, width), rng.randint(0, height)) for _ in range(2)]
    column = rng.randint(0, width)
    choose = {
        "spread": lambda k: (rng.randint(0, width + 2), rng.randint(0, height + 2)),
        "column": lambda k: (column, rng.randint(0, height)),
        "one point": lambda k: places[0],
        "two points": lambda k: rng.choice(places),
        "branch": lambda k: (min(k + 1, width), 0),
    }[family]
    return [choose(k) for k in range(count)]


def small_scene(rng):
    """A scene on a lattice of some dozen points a side."""
    width, height = rng.randint(3, 40), rng.randint(3, 40)
    reach = max(1, min(width, height) // 6)
    box = (-2, width + 2), (-2, height + 2)
    low = (rng.randint(0, width), rng.randint(0, height))
    scene = SceneText(
        room=(width, height),
        start=(rng.randint(0, width), rng.randint(0, height)),
        goals=[(*low, low[0] + rng.randint(0, 6), low[1] + rng.randint(0, 6))],
        step=rng.choice([4, 5, 7, 10, 25, 50]),
        body=body(rng, reach),
        obstacles=[small_obstacle(rng, *box) for _ in range(rng.choice([0, 1, 1, 2, 3, 5]))],
        gamma=rng.choice([0, 3, 10, 30, 100, 10_000]),
        seed=rng.choice([0, 1, rng.getrandbits(64), (1 << 64) - 1]),
        strips=rng.choice([1, 1, 2, 3, 8, 64]),
    )
    if rng.random() < 0.5:
        scene.drawn = rng.randint(0, 60)
    else:
        scene.marks = marks(rng, width, height, 60)
    return scene


def small_obstacle(rng, columns, rows):
    """An obstacle of a few steps, which may reach out of the room."""
    x, y, size = rng.randint(*columns), rng.randint(*rows), rng.randint(1, 12)
    return polygon(rng, (x, x + size), (y, y + size), 64)


def large_scene(rng, version):
    """A scene with coordinates near the greatest that a text of the version may have."""
    scene = small_scene(rng)
    most_side, most_step = KEYS[version][b"room"][1][1], KEYS[version][b"step"][1][1]
    factor = most_side // max(*scene.room, *scene.goals[0], *(c for mark in scene.marks for c in mark), 45)
    grown = lambda points: [(x * factor, y * factor) for x, y in points]
    scene.room, scene.start = grown([scene.room, scene.start])
    scene.goals = [tuple(c * factor for c in goal) for goal in scene.goals]
    scene.marks, scene.obstacles = grown(scene.marks), [grown(obstacle) for obstacle in scene.obstacles]
    most = max(abs(c) for corner in scene.body for c in corner)
    scale = min(factor, MOST_BODY // max(1, most))
    scene.body = [(x * scale, y * scale) for x, y in scene.body]
    scene.step = rng.choice([4, most_step, min(most_step, scene.step * factor)])
    scene.gamma = rng.choice([0, 4_096, 16_777_215])
    return scene


def as_second(rng, scene):
    """The scene in version 2, with up to 15 more goals, some of them there already or outside the room, and with a clearance; or informed."""
    width, height = scene.room
    for _ in range(rng.choice([0, 0, 1, 2, 15])):
        x, y = rng.randint(0, width), rng.randint(0, height)
        far = min(KEYS[2][b"goal"][1][1], x + rng.randint(0, width // 3)), min(KEYS[2][b"goal"][1][1], y + rng.randint(0, height // 3))
        scene.goals.insert(rng.randint(0, len(scene.goals)), rng.choice([(x, y, *far), (x, y, x, y), scene.goals[0]]))
    scene.clearance = rng.choice([0, 0, 1, min(MOST_CLEARANCE, max(1, min(scene.room) // 20)), min(MOST_CLEARANCE, min(scene.room) // 4)])
    scene.informed = rng.random() < 0.5
    return scene.converted()


def scene_of(number, version=1):
    """The scene of a number in a version; one in eight has large coordinates."""
    rng = random.Random(number)
    scene = large_scene(rng, version) if number % 8 == 7 else small_scene(rng)
    return scene if version == 1 else as_second(rng, scene)


def with_faults(number, version=1):
    """The bytes of a scene text in which some words or lines are changed: mostly a text with faults."""
    rng = random.Random(f"faults {number}" if version == 1 else f"faults {number} {version}")
    lines = [line.split() for line in scene_of(number, version).text().splitlines()]
    for _ in range(rng.randint(1, 3)):
        change(rng, lines)
    text = "\n".join(rng.choice([" ", "  "]).join(words) for words in lines)
    return (text + rng.choice(["", "\n", "\n\n"])).encode()


# Lines that a change puts in.
ADDED = ["", "# note", "#", "marks 3", "mark 1 1", "clearance 1", "goal 1 1 2 2", "goal 1 1", "informed 1", "informed x", "gaol 1"]


def change(rng, lines):
    """One change of a text, at a random line."""
    i = rng.randrange(len(lines))
    words = lines[i]
    kind = rng.randrange(9)
    if kind == 0:
        lines.insert(rng.randrange(len(lines) + 1), list(words))
    elif kind == 1 and len(lines) > 1:
        del lines[i]
    elif kind == 2 and words:
        words[rng.randrange(len(words))] = rng.choice(
            ["-0", "+1", "04", "-", "x", "1.5", "-1", "65536", "131072", "1048576", "99999999999999999999999", "#", "prrt", "1", "2", "\t3"]
        )
    elif kind == 3:
        words.append(rng.choice(["0", "1", "7"]))
    elif kind == 4 and words:
        words.pop()
    elif kind == 5:
        lines.insert(i, rng.choice(ADDED).split())
    elif kind == 6:
        words[1:] = reversed(words[1:])
    elif kind == 7:
        j = rng.randrange(len(lines))
        lines[i], lines[j] = lines[j], lines[i]
    else:
        words[1:] = words[1:] + words[1:3]


if __name__ == "__main__":
    sys.stdout.write(scene_of(*map(int, words_or_usage(__doc__))).text())
