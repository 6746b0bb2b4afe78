#!/usr/bin/env python3
"""Scenes whose free space is narrow or winding, to measure a planner on. They are of version 1, and draw 20,000 marks
without strips.

Usage: mazes.py NAME writes the text of the scene of that name; the same name gives the same bytes.

    maze_serpent   one way along 5 walls, open above and below in turn
    maze_grid      a maze of 10 by 10 cells with one way between any two
    narrow         two halves of a room, and a passage that is 40 lattice steps wider than the body
    bug_trap       the start inside a trap that opens away from the goal, by a neck
    many_1024      1,024 small obstacles, one in each of 32 by 32 cells
"""

import random
import sys

from kimorefo.scene_text import SceneText

SIDE = 9_999
BODY = 20
MARKS = 20_000
# With this seed one worker finds a path in each scene.
SEED = 4_000_000


def box(left, low, right, high):
    """The corners of a box."""
    return [(left, low), (right, low), (right, high), (left, high)]


def maze_serpent():
    """Walls from below and from above in turn; the start is at one end of the way between them, and the goal at the other."""
    walls, gap, thickness = 5, 800, 60
    pitch = (SIDE + 1) // (walls + 1)
    obstacles = []
    for wall in range(walls):
        left = pitch * (wall + 1) - thickness // 2
        low, high = (0, SIDE - gap) if wall % 2 == 0 else (gap, SIDE)
        obstacles.append(box(left, low, left + thickness, high))
    return obstacles, (200, 200), (SIDE - 400, 200, SIDE - 200, 400)


def maze_grid():
    """A maze drawn by a walk that turns back where all cells about it were seen; a box stands on each side that is not open."""
    cells, thickness = 10, 40
    pitch = (SIDE + 1) // cells
    half = thickness // 2
    open_sides = open_sides_of(cells, random.Random(1))
    obstacles = []
    for column in range(cells):
        for row in range(cells):
            right, high = pitch * (column + 1), pitch * (row + 1)
            if column + 1 < cells and ((column, row), (column + 1, row)) not in open_sides:
                obstacles.append(box(right - half, high - pitch - half, right + half, high + half))
            if row + 1 < cells and ((column, row), (column, row + 1)) not in open_sides:
                obstacles.append(box(right - pitch - half, high - half, right + half, high + half))
    middle = pitch // 2
    far = SIDE - middle
    return obstacles, (middle, middle), (far - 100, far - 100, far + 100, far + 100)


def open_sides_of(cells, rng):
    """The sides without a wall, each as its two cells, the lower one first."""
    seen, way, sides = {(0, 0)}, [(0, 0)], set()
    while way:
        column, row = way[-1]
        about = [(column - 1, row), (column + 1, row), (column, row - 1), (column, row + 1)]
        about = [cell for cell in about if cell not in seen and min(cell) >= 0 and max(cell) < cells]
        if not about:
            way.pop()
            continue
        cell = rng.choice(about)
        seen.add(cell)
        sides.add(tuple(sorted([way[-1], cell])))
        way.append(cell)
    return sides


def narrow():
    """A wall with one passage through it; start and goal are in opposite corners."""
    left, right = 4_800, 5_200
    low, high = 5_000, 5_000 + BODY + 40
    return (
        [box(left, 0, right, low), box(left, high, right, SIDE)],
        (500, 500),
        (SIDE - 400, SIDE - 400, SIDE - 200, SIDE - 200),
    )


def bug_trap():
    """A box round the start with one opening on the left, from which a neck leads inwards; the goal is on the right."""
    left, low, right, high, thickness = 3_000, 3_000, 7_000, 7_000, 100
    mouth, neck = (4_800, 5_200), 1_500
    return (
        [
            box(left, low, right, low + thickness),
            box(left, high - thickness, right, high),
            box(right - thickness, low, right, high),
            box(left, low, left + thickness, mouth[0]),
            box(left, mouth[1], left + thickness, high),
            box(left, mouth[0] - thickness, left + neck, mouth[0]),
            box(left, mouth[1], left + neck, mouth[1] + thickness),
        ],
        (6_000, 5_000),
        (SIDE - 400, 4_900, SIDE - 200, 5_100),
    )


def many_1024():
    """A square or a triangle at a drawn place of each cell, away from its lower left corner, where the start has room."""
    cells = 32
    pitch = (SIDE + 1) // cells
    rng = random.Random(2)
    obstacles = []
    for cell in range(cells * cells):
        column, row = cell % cells, cell // cells
        side = rng.randint(30, 120)
        left = pitch * column + 60 + rng.randint(0, 100)
        low = pitch * row + 60 + rng.randint(0, 100)
        corners = box(left, low, left + side, low + side)
        obstacles.append(corners if cell % 2 == 0 else [corners[0], corners[1], corners[3]])
    return obstacles, (20, 20), (SIDE - 400, SIDE - 400, SIDE - 30, SIDE - 30)


SCENES = {maker.__name__: maker for maker in (maze_serpent, maze_grid, narrow, bug_trap, many_1024)}


def scene_of(name):
    """The scene of a name. Its body is a square of 20, and step and gamma are those of a generated scene."""
    obstacles, start, goal = SCENES[name]()
    return SceneText(
        room=(SIDE, SIDE),
        start=start,
        goals=[goal],
        step=400,
        body=box(0, 0, BODY, BODY),
        obstacles=obstacles,
        gamma=6_900,
        seed=SEED,
        drawn=MARKS,
    )


def main(words):
    """Writes one scene, or how to call this."""
    if len(words) != 1 or words[0] not in SCENES:
        sys.exit(__doc__)
    sys.stdout.write(scene_of(words[0]).text())


if __name__ == "__main__":
    main(sys.argv[1:])
