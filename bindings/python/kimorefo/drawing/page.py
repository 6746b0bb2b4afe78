"""An HTML page of a scene and its report, on which the tree grows under a slider. It needs nothing but itself."""

from __future__ import annotations

import json
from pathlib import Path
from string import Template

from ..reports import Report, read_reports
from ..scene_text import SceneText
from .captions import result, tree_sentences
from .layers import STYLES, clearances, corners_of

TEMPLATE = Path(__file__).with_name("page.html")


def page(scene: SceneText, text: str) -> str:
    """The page of a scene and its report. Without the lines of nodes and marks it has the path alone."""
    report = read_reports(text)[0]
    return Template(TEMPLATE.read_text(encoding="utf-8")).substitute(
        title=result(scene, report),
        said=" ".join(f"{sentence}." for sentence in tree_sentences(report)),
        scene=written(scene_of(scene, report)),
        tree=written(tree_of(text)),
        style=written(styles()),
    )


def written(data: object) -> str:
    """Data as a script has it, in few bytes."""
    return json.dumps(data, separators=(",", ":"))


def scene_of(scene: SceneText, report: Report) -> dict:
    """What does not change on the page."""
    return {
        "room": scene.room,
        "start": scene.start,
        "body": scene.body,
        "clearances": clearances(scene),
        "obstacles": scene.obstacles,
        "goals": [corners_of(*goal) for goal in scene.goals],
        "path": report.path,
    }


def styles() -> dict:
    """The colours of each kind of thing."""
    return {
        kind: {"fill": own["fill"], "opacity": own.get("fill_opacity", 1), "stroke": own.get("stroke")}
        for kind, own in STYLES.items()
    }


def tree_of(text: str) -> dict:
    """The tree of a full report: its nodes with their last and first parents and costs, the records, and their order.

    `born` is after how many marks a node was there. A mark that has a node of a later one for its first parent, as
    several workers may have it, comes after that one.
    """
    rows = [line.split(" ") for line in text.splitlines()]
    last = {int(row[1]): [int(row[i]) for i in (3, 4, 6, 8)] for row in rows if row[0] == "node"}
    first = {int(row[1]) + 1: (int(row[12]), int(row[13])) for row in rows if row[0] == "mark" and "placed" in row}
    order = growth([int(row[1]) for row in rows if row[0] == "mark"], {n: parent for n, (parent, _) in first.items()})
    born = {mark + 1: count for count, mark in enumerate(order, 1)}
    return {
        "nodes": [[number, *numbers, *first.get(number, (0, 0))] for number, numbers in last.items()],
        "born": [born.get(number, 0) for number in last],
        "order": order,
        "records": [" ".join(row[2:]) for row in rows if row[0] == "mark"],
    }


def growth(marks: list[int], parents: dict[int, int]) -> list[int]:
    """The marks in an order in which each comes after that of its first parent."""
    order, done = [], {-1}
    for mark in marks:
        waiting = [mark]
        while waiting:
            parent = parents.get(waiting[-1] + 1, 0) - 1
            if waiting[-1] in done:
                waiting.pop()
            elif parent in done or parent in waiting:
                done.add(waiting[-1])
                order.append(waiting.pop())
            else:
                waiting.append(parent)
    return order
