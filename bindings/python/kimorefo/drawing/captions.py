"""What a picture says in words about a scene and its report. Nothing of the scene is in them but numbers."""

from math import isclose

from ..geometry import is_clear_at
from ..reports import GOAL_BLOCKED


def counted(number, thing):
    """A number of things."""
    return f"{number:,} {thing}" if number == 1 else f"{number:,} {thing}s"


def steps(cost):
    """A cost in lattice steps."""
    return f"{cost / 256:,.2f}".rstrip("0").rstrip(".")


def result(scene, report):
    """How the run ended. Without a report: what the room has, and whether the body is clear at the start."""
    if not is_clear_at(scene, scene.start):
        return "Start blocked: the body is not clear there"
    if report is None:
        return room_sentence(scene)
    if report.refusal == GOAL_BLOCKED:
        return "Goal blocked: the body is not clear in the middle of the first goal"
    if report.refusal:
        return "Not planned: another start is blocked"
    if report.cost is None:
        return "No path"
    unlisted = "" if report.path else " (its points are not listed)"
    return f"Path of {counted(report.length, 'point')}, cost {steps(report.cost)} lattice steps{unlisted}"


def tree_sentence(counts, tree):
    """The counts of a tree."""
    became = f"{counts.placed:,} placed, {counts.same:,} same, {counts.blocked:,} blocked"
    skipped = "" if counts.skipped is None else f", {counts.skipped:,} skipped"
    return f"{tree}: {counted(counts.nodes, 'node')}; of {counted(counts.marks(), 'mark')} {became}{skipped}"


def tree_sentences(report):
    """The counts of each tree."""
    counts = report.counts if report else []
    names = ("Tree",) if len(counts) < 2 else ("Tree from the start", "Tree from the goal")
    return [tree_sentence(own, tree) for own, tree in zip(counts, names)]


def notes(scene, width, height):
    """What a reader of a frame of this width and height has to know: that it is not to scale, and what is not in it."""
    found, (right, high) = [], scene.room
    stretch = (height / high) / (width / right)
    if not isclose(stretch, 1):
        axis = "y" if stretch > 1 else "x"
        found.append(f"Not to scale: {axis} is stretched {max(stretch, 1 / stretch):,.1f} times")
    if scene.start[0] > right or scene.start[1] > high:
        found.append("The start lies outside the room")
    outside = sum(x0 > right or y0 > high for x0, y0, _, _ in scene.goals)
    if outside:
        found.append(f"Outside the room: {counted(outside, 'goal')} of {len(scene.goals)}")
    return found


def room_sentence(scene):
    """What the room has."""
    parts = [counted(len(scene.obstacles), "obstacle"), counted(len(scene.goals), "goal")]
    clearance = f", clearance {scene.clearance:,}" if scene.clearance else ""
    return f"Room of {scene.room[0]:,} by {scene.room[1]:,} lattice steps with {' and '.join(parts)}{clearance}"


def description(runs, titles):
    """All that is said of some scenes and their reports, after a title of each."""
    said = [[title, room_sentence(scene), *tree_sentences(report)] for title, (scene, report) in zip(titles, runs)]
    return " ".join(f"{sentence}." for sentences in said for sentence in dict.fromkeys(sentences))
