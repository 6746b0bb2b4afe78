"""Occupancy grids as scenes: what is not free is covered by few rectangles."""

from __future__ import annotations

from collections.abc import Iterable, Sequence
from typing import Any

from .errors import NotAShape
from .scenes import Scene
from .shapes import Point, exact, point_of
from .units import scaled

# So many lattice steps make a cell, if no unit is given.
STEPS_IN_CELL = 8
# Rows and columns from first to last, without the last.
Rectangle = tuple[int, int, int, int]


def scene_of(
    rows: Iterable[Iterable[Any]], cell: Any = 1, *, unit: Any = None, corner: Any = (0, 0), **given: Any
) -> Scene:
    """The scene of a grid whose cells are squares with a side of `cell`; all else is given as to `Scene.scaled`.

    A cell is free if its value is 0. The first row is the lowest, and the lower left corner of the grid is `corner`,
    as map servers of robots have it.
    """
    grid = masks_of(rows)
    side, (left, low) = exact(cell), point_of(corner)
    columns = max(width for _, width in grid)
    room = (left, low, left + columns * side, low + len(grid) * side)
    boxes = rectangles([mask for mask, _ in grid])
    obstacles = [corners_of(box, side, (left, low)) for box in boxes]
    return scaled(side / STEPS_IN_CELL if unit is None else unit, room=room, obstacles=obstacles, **given)


def masks_of(rows: Iterable[Iterable[Any]]) -> list[tuple[int, int]]:
    """For each row a number with a binary digit for each cell, 1 if it is not free, and how many cells it has."""
    grid = []
    for row in rows:
        cells = [bool(value != 0) for value in row]
        grid.append((sum(1 << column for column, is_taken in enumerate(cells) if is_taken), len(cells)))
    if len({width for _, width in grid}) != 1 or grid[0][1] == 0:
        raise NotAShape("a grid has a row at least, and all rows have as many cells, one at least")
    return grid


def corners_of(box: Rectangle, side: Any, corner: Point) -> list[Point]:
    """The corners of a rectangle of cells."""
    first_row, first, last_row, last = box
    left, right = (corner[0] + column * side for column in (first, last))
    low, high = (corner[1] + row * side for row in (first_row, last_row))
    return [(left, low), (right, low), (right, high), (left, high)]


def rectangles(taken: Sequence[int]) -> list[Rectangle]:
    """Rectangles that cover all cells that are taken, and no others; they may overlap.

    Each is one of those with the first cell that is not covered yet, as large as it can be, and covers most of such.
    """
    left, found = list(taken), []
    for row in range(len(taken)):
        while left[row]:
            column = (left[row] & -left[row]).bit_length() - 1
            box = best_rectangle(taken, left, row, column)
            found.append(box)
            for covered in range(box[0], box[2]):
                left[covered] &= ~span(box[1], box[3])
    return found


def span(first: int, last: int) -> int:
    """A number with a binary digit for each column from the first to the last, without that."""
    return (1 << last) - (1 << first)


def run_at(mask: int, column: int) -> tuple[int, int]:
    """The first and the last column, without that, of those of a mask that are joined to one of it."""
    free_right = ~(mask >> column)
    last = column + (free_right & -free_right).bit_length() - 1
    first = (~mask & ((1 << column) - 1)).bit_length()
    return first, last


def best_rectangle(taken: Sequence[int], left: Sequence[int], row: int, column: int) -> Rectangle:
    """Of the largest rectangles that begin or go on in a row and have a cell of it, the one that covers the most."""
    best, best_count = (row, column, row + 1, column + 1), 0
    mask, columns, count = taken[row], (0, 0), 0
    for end in range(row, len(taken)):
        mask &= taken[end]
        if not mask >> column & 1:
            break
        now = run_at(mask, column)
        whole = span(*now)
        if now == columns:
            count += (left[end] & whole).bit_count()
        else:
            columns, count = now, sum((left[i] & whole).bit_count() for i in range(row, end + 1))
        if count > best_count:
            best, best_count = (row, now[0], end + 1, now[1]), count
    first_row, whole = row, span(best[1], best[3])
    while first_row > 0 and taken[first_row - 1] & whole == whole:
        first_row -= 1
    return first_row, best[1], best[2], best[3]
