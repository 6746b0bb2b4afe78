#!/usr/bin/env python3
"""Draws a scene, and its report if there is one, as an SVG picture or an HTML page.

Usage: draw.py SCENE [REPORT] > picture.svg
       draw.py --page SCENE REPORT > page.html

Both are names of files; `-` is standard input. REPORT is what a word wrote for SCENE: `plain` or `plan`, each with
`full` or not, `smooth`, `anytime`, `watch`, `twin`, `batch` or `trial`. SCENE may have several, as `batch` reads them;
each is drawn.

The picture shows the room, its obstacles with the clearance round them, goals, start, body and path; with `full` the
tree; with `anytime` and `batch` the cost of the cheapest path against marks. The page, of one scene, needs nothing but
a browser: with `full` the tree grows there mark by mark under a slider. If a text is no scene or no report of it,
draw.py says why, and ends with 1.
"""

import sys

from kimorefo.batches import read_batch
from kimorefo.drawing.page import page
from kimorefo.drawing.pictures import picture
from kimorefo.geometry import is_clear_at
from kimorefo.reports import GOAL_BLOCKED, START_BLOCKED, NoReport, check_scene, read_reports
from kimorefo.scene_text import MOST_TEXT_BYTES, Fault, SceneText
from usage import words_or_usage

# Where the body is not clear, by the refusal that says so.
PLACES = {START_BLOCKED: lambda scene: scene.start, GOAL_BLOCKED: SceneText.goal_middle}


def bytes_of(name):
    """The bytes of a file, or of standard input."""
    if name == "-":
        return sys.stdin.buffer.read()
    with open(name, "rb") as file:
        return file.read()


class NoScene(Exception):
    """A text is no scene, for this reason."""


def scenes_of(text):
    """The scenes of a text."""
    if len(text) > MOST_TEXT_BYTES:
        raise NoScene("text too long")
    return read_batch(text)


def reports_of(text, scenes):
    """The report of each scene. If a start is blocked, nothing is planned: each has the same."""
    reports = read_reports(text.decode("latin-1"))
    refusal = reports[0].refusal
    if refusal and all(is_clear_at(scene, PLACES[refusal](scene)) for scene in scenes):
        raise NoReport("the report of another scene: in this one the body is clear there")
    if refusal == START_BLOCKED:
        reports *= len(scenes)
    if len(reports) != len(scenes):
        raise NoReport(f"the report of {len(reports)} scenes in place of {len(scenes)}")
    for scene, report in zip(scenes, reports):
        check_scene(scene, report)
    return reports


def taken(name, take):
    """What is taken from the bytes of a file. If they are not what they are to be, the program ends with why."""
    try:
        return take(bytes_of(name))
    except OSError as fault:
        sys.exit(f"draw.py: {name}: {fault.strerror}")
    except (Fault, NoScene, NoReport) as fault:
        sys.exit(f"draw.py: {name}: {fault}")


def drawn(words):
    """The picture of what the files have that the words name."""
    scenes = taken(words[0], scenes_of)
    reports = taken(words[1], lambda text: reports_of(text, scenes)) if words[1:] else [None] * len(scenes)
    return picture(list(zip(scenes, reports)))


def page_of(text, scenes):
    """The page of one scene and the bytes of its report."""
    if len(scenes) != 1:
        raise NoReport("a page shows one scene")
    reports_of(text, scenes)
    return page(scenes[0], text.decode("latin-1"))


def main(words):
    """Writes the picture or the page of what the files have that the words name."""
    if words[0] == "--page" and len(words) == 3:
        scenes = taken(words[1], scenes_of)
        sys.stdout.write(taken(words[2], lambda text: page_of(text, scenes)))
    elif words[0] != "--page" and len(words) <= 2:
        sys.stdout.write(drawn(words))
    else:
        sys.exit(__doc__)


if __name__ == "__main__":
    main(words_or_usage(__doc__))
