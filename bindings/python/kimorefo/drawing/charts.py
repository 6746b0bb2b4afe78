"""The chart of `anytime`: what the cheapest path costs after so many marks."""

from decimal import Decimal
from math import ceil, floor

from .svg import (
    BELOW,
    LETTER_WIDTH,
    RED,
    ROUND,
    Axes,
    Panel,
    dots,
    element,
    heading,
    label,
    line_through,
    short,
    tick_step,
    ticks_within,
    width_of,
)

HEIGHT = 180
MOST_TICKS = 5
# Left of the numbers, for the name of the axis.
NAME = 24
STYLE = {"fill": "none", "stroke": RED, **ROUND}


def steps_of(better, last):
    """The corners of the line that falls from cost to cost: each lasts until the next one, or to the last mark."""
    marks = [marks for marks, _ in better] + [last]
    return [(m, cost) for i, (_, cost) in enumerate(better) for m in marks[i : i + 2]]


def cost_ticks(least, greatest):
    """The ticks of an axis of costs, from one below all to one above all."""
    step = tick_step(greatest - least or MOST_TICKS, MOST_TICKS)
    low, high = floor(least / step) * step, ceil(greatest / step) * step
    if low == high:
        low, high = max(Decimal(0), low - step), high + step
    return ticks_within(low, high, step)


def ticks_of(report):
    """The ticks of the costs of a report's better paths."""
    return cost_ticks(Decimal(report.better[-1][0]) / 256, Decimal(report.better[0][0]) / 256)


def chart_margins(report):
    """What a chart takes up left and right of its frame, with the name and the numbers of its axis; 0 without one."""
    if not report or not report.better:
        return 0, 0
    longest = max(len(f"{tick:,f}") for tick in ticks_of(report))
    return NAME + longest * LETTER_WIDTH + 8, width_of(report.counts[0].marks()) / 2


def cost_panel(report, left, width, right):
    """The chart of a report with better paths: a frame of a width, and what is left and right of it."""
    last, ticks = report.counts[0].marks(), ticks_of(report)
    texts, top = heading(left, width + right, ["Cost of the cheapest path after so many marks"])
    axes = Axes(left, top + 8, width, HEIGHT, (0, float(ticks[0])), (max(1, last), float(ticks[-1])))
    at, better, middle = axes.mapping(), [(marks, cost / 256) for cost, marks in report.better], axes.top + HEIGHT / 2
    turned = {"text_anchor": "middle", "transform": f"rotate(-90 12 {short(middle)})"}
    content = [
        *texts,
        axes.frame("chart"),
        axes.x_ticks("marks"),
        axes.y_ticks(ticks),
        label(12, middle, "cost in lattice steps", **turned),
        element("path", class_="cost", d=line_through(map(at, steps_of(better, last))), stroke_width=2, **STYLE),
        element("path", class_="better", d=dots(map(at, better)), stroke_width=7, **STYLE),
    ]
    return Panel(left + width + right, axes.top + HEIGHT + BELOW, content)
