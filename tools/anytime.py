#!/usr/bin/env python3
"""Better paths slice by slice, from the rules alone (docs/planning.md): what `anytime 1 S` is to write for a scene.

After each whole number of slices and after all marks the textbook run over so many marks is planned anew, from nothing; its best
path is a better one if it costs less than all before it. Usage: anytime.py S < SCENE. It ends with the statuses of the planner.
"""

import re
import sys

from kimorefo.geometry import Space
from kimorefo.reports import BETTER
from kimorefo.scene_text import read
from rules import mark_points
from textbook import answer, best_node, plan
from usage import words_or_usage


def better_paths(scene, slice_size):
    """The cost of each better path, and after how many marks it comes."""
    space = Space(scene)
    marks = mark_points(scene, space)
    found = []
    for count in [*range(0, len(marks), slice_size), len(marks)]:
        tree, _ = plan(scene, space, marks[:count])
        node = best_node(tree, scene)
        if node is not None and (not found or tree.sum(node) < found[-1][0]):
            found.append((tree.sum(node), count))
    return found


def anytime_answer(text, slice_size):
    """What `anytime 1 S` is to write for the bytes of a scene, and its status."""
    output, status = answer(text, False)
    if status > 1:
        return output, status
    lines = (f"better {cost} marks {count}\n" for cost, count in better_paths(read(text), slice_size))
    return "".join(lines) + output, status


def split(output):
    """The items of an output, as pairs of cost and marks, and the report after them."""
    lines = output.splitlines(keepends=True)
    items = [BETTER.fullmatch(line.rstrip("\n")) for line in lines]
    count = next((i for i, item in enumerate(items) if not item), len(items))
    return [(int(item[1]), int(item[2])) for item in items[:count]], "".join(lines[count:])


def fit(output, slice_size, mark_count):
    """Whether costs fall and marks rise, each a number of whole slices or all marks, and the last item is the path of the report."""
    items, report = split(output)
    falls = all(a[0] > b[0] and a[1] < b[1] for a, b in zip(items, items[1:]))
    whole = all(marks == mark_count or marks % slice_size == 0 and marks < mark_count for _, marks in items)
    if report.startswith("no path\n"):
        return not items and falls and whole
    head = re.match(r"path \d+ cost (\d+)\n", report)
    return bool(head and items and items[-1][0] == int(head[1]) and falls and whole)


if __name__ == "__main__":
    (words,) = words_or_usage(__doc__)
    written, code = anytime_answer(sys.stdin.buffer.read(), int(words))
    sys.stdout.write(written)
    sys.exit(code)
