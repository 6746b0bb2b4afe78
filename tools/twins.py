#!/usr/bin/env python3
"""Two trees from both ends, from the rules alone (docs/planning.md): what `twin 1` is to write for a scene.

Both are textbook runs, the second of the scene that starts in the middle of the first goal and has the old start as its goal. The
bridge is the least of all clear pairs of a node of each, found by trying every pair. Usage: twins.py < SCENE. It ends with the
statuses of the planner: 0, 1, 3, 4 and 8.
"""

import sys
from dataclasses import replace

from judge import Wrong, need, verdict
from kimorefo.geometry import Space, squared_distance
from kimorefo.reports import GOAL, START
from kimorefo.scene_text import read
from rules import cost, mark_points
from textbook import answer, head_lines, plan


def turned(scene):
    """The scene from the other end."""
    return replace(scene, start=scene.goal_middle(), goals=[(*scene.start, *scene.start)])


def best_bridge(first, second, scene, space):
    """The least triple of what the way over two nodes costs and their numbers, or None."""
    sums = [{n: tree.sum(n) for n in tree.points} for tree in (first, second)]
    triples = [
        (sums[0][a] + cost(p, q) + sums[1][b], a, b)
        for a, p in first.points.items()
        for b, q in second.points.items()
        if squared_distance(p, q) <= scene.step**2 and space.is_clear(p, q)
    ]
    return min(triples, default=None)


def path_lines(first, second, bridge):
    """The lines of the path over a bridge: a point that both its ends share is there once."""
    total, a, b = bridge
    path = [first.points[n] for n in reversed(first.chain(a))]
    rest = [second.points[n] for n in second.chain(b)]
    path += rest[1:] if rest[0] == path[-1] else rest
    return [f"path {len(path)} cost {total}", *(f"{x} {y}" for x, y in path)]


def twin_answer(text):
    """What `twin 1` is to write for the bytes of a scene, and its status."""
    output, status = answer(text, False)
    if status > 1:
        return output, status
    scene = read(text)
    space = Space(scene)
    if not space.is_clear(scene.goal_middle(), scene.goal_middle()):
        return "goal blocked\n", 8
    marks, counts, trees = mark_points(scene, space), [], []
    for own in (scene, turned(scene)):
        tree, records = plan(own, space, marks)
        trees.append(tree)
        counts.append(head_lines(tree, records, own)[-1])
    bridge = best_bridge(*trees, scene, space)
    lines = path_lines(*trees, bridge) if bridge else ["no path"]
    lines += [START + counts[0], GOAL + counts[1]]
    return "".join(line + "\n" for line in lines), 0 if bridge else 1


def check_twin(scene, output):
    """Checks what a report of two trees shows: the path leads from the start to the goal's middle, and each tree counts each mark."""
    *head, start_counts, goal_counts = output.split("\n")[:-1]
    need(output.endswith("\n") and start_counts.startswith(START) and goal_counts.startswith(GOAL), "not the lines of two trees")
    end = scene.goal_middle()
    shown = replace(scene, goals=[] if head == ["no path"] else [(*end, *end)])
    for counts in (start_counts[len(START) :], goal_counts[len(GOAL) :]):
        said = verdict(shown, "".join(line + "\n" for line in [*head, counts]), False)
        need(said == "lawful", said)


def twin_verdict(scene, output):
    """`lawful`, or the reason why what is shown of a report of two trees is not."""
    try:
        check_twin(scene, output)
    except (Wrong, ValueError) as found:
        return str(found)
    return "lawful"


if __name__ == "__main__":
    written, code = twin_answer(sys.stdin.buffer.read())
    sys.stdout.write(written)
    sys.exit(code)
