"""Pictures of scenes and their reports, as SVG: `picture` draws one scene, or several beside each other."""

from dataclasses import dataclass
from math import ceil, sqrt

from .captions import description, notes, result, tree_sentences
from .charts import chart_margins, cost_panel
from .layers import EDGE, STYLES, ground_layers, run_layers
from .svg import (
    BELOW,
    LETTER_WIDTH,
    Axes,
    Panel,
    document,
    element,
    heading,
    in_rows,
    label,
    short,
    stacked,
    whole_ticks,
    width_of,
)


@dataclass(frozen=True)
class Size:
    """The most that the frame of a room takes up, and the least width of all that is drawn of it."""

    width: float
    height: float
    least_width: float


ALONE, BESIDE = Size(960, 640, 480), Size(440, 320, 500)
# If the shorter side of a room would have less than the least, it is stretched.
LEAST_SIDE, STRETCHED_SIDE = 48, 160
MARGIN, GAP = 16, 24
TICK_HEIGHT = 36
SYMBOL_WIDTH, SYMBOL_HEIGHT, LEGEND_ROW = 28, 14, 22
LEGEND = ("start", "goal", "small goal", "obstacle", "clearance", "tree", "body", "path")


def picture(runs):
    """The picture of a scene and its report, or of several, given as pairs; a report may be None."""
    alone, results = len(runs) == 1, [result(*run) for run in runs]
    titles = results if alone else [f"Scene {number}: {ended}" for number, ended in enumerate(results)]
    drawn = [run_panel(*run, title, ALONE if alone else BESIDE) for run, title in zip(runs, titles)]
    rooms = in_rows([panel for panel, _ in drawn], ceil(sqrt(len(runs))), GAP)
    shown = legend([kind for kind in LEGEND if any(kind in kinds for _, kinds in drawn)], rooms.width)
    title = titles[0] if alone else f"{len(runs)} scenes"
    return document(stacked([rooms, shown], GAP / 2), MARGIN, title, description(runs, titles))


def run_panel(scene, report, title, size):
    """The panel of a scene, with a chart if the report has better paths; and the kinds of things in it."""
    (width, height), chart = frame_size(scene.room, size), chart_margins(report)
    left = max(width_of(scene.room[1]) + 12, chart[0])
    right = max(EDGE, width_of(scene.room[0]) / 2, chart[1])
    whole = max(left + width + right, size.least_width)
    said = [title, *tree_sentences(report), *notes(scene, width, height)]
    texts, top = heading(left, whole - left, said)
    axes = Axes(left, top + EDGE, width, height, (0, 0), scene.room)
    drawn, kinds = room(scene, report, axes)
    panels = [Panel(whole, axes.top + height + BELOW, [*texts, *drawn])]
    if report and report.better:
        panels.append(cost_panel(report, left, whole - left - right, right))
    return stacked(panels, GAP), kinds


def frame_size(room_size, size):
    """The width and the height of a room's frame: to scale, but for a side that would show nothing."""
    scale = min(size.width / room_size[0], size.height / room_size[1])
    return tuple(side * scale if side * scale >= LEAST_SIDE else STRETCHED_SIDE for side in room_size)


def room(scene, report, axes):
    """The frame of a room with all that is in it, and the kinds of things in it."""
    ground, run = ground_layers(scene, axes), run_layers(scene, report, axes)
    content = [
        axes.window(0, *filter(None, ground.values())),
        axes.frame("room"),
        axes.window(EDGE, *filter(None, run.values())),
        axes.x_ticks("lattice steps"),
        axes.y_ticks(whole_ticks(scene.room[1], max(2, int(axes.height / TICK_HEIGHT)))),
    ]
    return content, {kind for kind, drawn in (ground | run).items() if drawn}


def symbol(kind):
    """A small picture of a kind of thing."""
    middle, style = SYMBOL_HEIGHT / 2, STYLES[kind]
    if kind in ("start", "small goal"):
        return element("circle", cx=SYMBOL_WIDTH / 2, cy=middle, r=5, **style)
    if kind in ("tree", "path"):
        return element("path", d=f"M1 {middle:g}h{SYMBOL_WIDTH - 2}", **style)
    return element("rect", x=1, y=1, width=SYMBOL_WIDTH - 2, height=SYMBOL_HEIGHT - 2, **style)


def legend(kinds, width):
    """What each kind of thing looks like, in rows of a width."""
    content, x, y = [], 0, 0
    for kind in kinds:
        own = SYMBOL_WIDTH + 6 + len(kind) * LETTER_WIDTH
        if x > 0 and x + own > width:
            x, y = 0, y + LEGEND_ROW
        words = label(SYMBOL_WIDTH + 6, SYMBOL_HEIGHT - 2, kind)
        content.append(element("g", symbol(kind), words, transform=f"translate({short(x)} {y})"))
        x += own + GAP
    return Panel(width, y + LEGEND_ROW, [element("g", *content, class_="legend")])
