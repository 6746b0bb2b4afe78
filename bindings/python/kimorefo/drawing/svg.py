"""Pieces of SVG pictures: elements, outlines in short numbers, lines of text, panels, and axes with ticks.

All lengths are pixels, but those that an `Axes` maps. Callers pass words of their own and numbers, so nothing is
escaped. There are no ids and no style sheet, which could meet those of other pictures in one page.
"""

from dataclasses import dataclass, field
from decimal import Decimal
from math import floor, log10

TEXT_SIZE = 13
LINE_HEIGHT = 18
LETTER_WIDTH = 7.5
TICK = 5
# Below a frame: ticks, their numbers, and what the axis has.
BELOW = 42
# The least between the numbers of two ticks beside each other.
APART = 16

# Colours that colour-blind readers tell apart (Okabe and Ito).
INK, GREEN, BLUE, RED = "#222222", "#009e73", "#0072b2", "#d55e00"
ROUND = {"stroke_linecap": "round", "stroke_linejoin": "round"}


def short(number):
    """A number with at most two decimals."""
    text = f"{number:.2f}".rstrip("0").rstrip(".")
    return "0" if text == "-0" else text


def element(name, *content, **attributes):
    """An element with others, or a text, in it. An underscore of an attribute is a hyphen, or nothing at the end."""
    given = ((key.rstrip("_").replace("_", "-"), value) for key, value in attributes.items())
    written = "".join(f' {key}="{value if isinstance(value, str) else short(value)}"' for key, value in given)
    inside = "\n".join(content)
    return f"<{name}{written}>{inside}</{name}>" if inside else f"<{name}{written}/>"


def line_through(points):
    """The path data of a line through points."""
    return "M" + "L".join(f"{short(x)} {short(y)}" for x, y in points)


def outline(points):
    """The path data of a closed outline."""
    return line_through(points) + "Z"


def dots(points):
    """The path data of a dot at each point, for a stroke with round ends."""
    return "".join(f"M{short(x)} {short(y)}h0" for x, y in points)


def label(x, y, words, **attributes):
    """A line of text."""
    return element("text", words, x=x, y=y, **attributes)


def wrapped(words, width):
    """A text in lines that fit into a width."""
    lines = [""]
    for word in words.split(" "):
        longer = f"{lines[-1]} {word}".lstrip()
        if lines[-1] and len(longer) * LETTER_WIDTH > width:
            lines.append(word)
        else:
            lines[-1] = longer
    return lines


def heading(x, width, sentences):
    """Sentences below each other, wrapped to a width, the first one bold; and their height."""
    lines = [(line, i == 0) for i, sentence in enumerate(sentences) for line in wrapped(sentence, width)]
    texts = [
        label(x, (i + 1) * LINE_HEIGHT - 4, line, **({"font_weight": "bold"} if is_bold else {}))
        for i, (line, is_bold) in enumerate(lines)
    ]
    return texts, len(lines) * LINE_HEIGHT


@dataclass
class Panel:
    """A part of a picture of its own size, with its own coordinates from the upper left corner."""

    width: float
    height: float
    content: list = field(default_factory=list)

    def placed(self, x, y):
        """The panel as an element of a larger one."""
        return element("svg", *self.content, x=x, y=y, width=self.width, height=self.height)


def stacked(panels, gap):
    """Panels one below the other."""
    below, content = 0, []
    for panel in panels:
        content.append(panel.placed(0, below))
        below += panel.height + gap
    return Panel(max(panel.width for panel in panels), below - gap, content)


def in_rows(panels, columns, gap):
    """Panels beside each other in rows, with room for the widest in each column."""
    width = max(panel.width for panel in panels) + gap
    rows = [panels[i : i + columns] for i in range(0, len(panels), columns)]
    parts = [Panel(width * len(row) - gap, max(panel.height for panel in row)) for row in rows]
    for part, row in zip(parts, rows):
        part.content += [panel.placed(column * width, 0) for column, panel in enumerate(row)]
    return stacked(parts, gap)


def document(panel, margin, title, description):
    """A whole picture on white ground."""
    width, height = panel.width + 2 * margin, panel.height + 2 * margin
    content = [
        element("title", title),
        element("desc", description),
        element("rect", width=width, height=height, fill="#ffffff"),
        panel.placed(margin, margin),
    ]
    own = {"xmlns": "http://www.w3.org/2000/svg", "width": width, "height": height}
    own |= {"viewBox": f"0 0 {short(width)} {short(height)}", "role": "img"}
    return element("svg", *content, **own, font_family="sans-serif", font_size=TEXT_SIZE, fill=INK) + "\n"


@dataclass(frozen=True)
class Axes:
    """A frame in a panel, and the part of the plane that it shows, with y upwards."""

    left: float
    top: float
    width: float
    height: float
    low: tuple
    high: tuple

    def scale(self):
        """How many pixels a unit of x has, and one of y."""
        return self.width / (self.high[0] - self.low[0]), self.height / (self.high[1] - self.low[1])

    def mapping(self):
        """The function from points of the plane to the panel."""
        (x_scale, y_scale), bottom = self.scale(), self.top + self.height
        return lambda p: (self.left + (p[0] - self.low[0]) * x_scale, bottom - (p[1] - self.low[1]) * y_scale)

    def grown(self, edge):
        """The lower left and the upper right corner of what the frame shows with an edge round it."""
        x_edge, y_edge = (edge / scale for scale in self.scale())
        return (self.low[0] - x_edge, self.low[1] - y_edge), (self.high[0] + x_edge, self.high[1] + y_edge)

    def window(self, edge, *content):
        """What shows of the content in the frame with an edge round it."""
        x, y, width, height = self.left - edge, self.top - edge, self.width + 2 * edge, self.height + 2 * edge
        box = " ".join(map(short, (x, y, width, height)))
        return element("svg", *content, x=x, y=y, width=width, height=height, viewBox=box)

    def frame(self, name):
        """The frame itself."""
        place = {"x": self.left, "y": self.top, "width": self.width, "height": self.height}
        return element("rect", class_=name, **place, fill="none", stroke=INK)

    def x_ticks(self, words):
        """Ticks at whole numbers from 0 below the frame, each with its number, and below them what the axis has."""
        at, bottom, last = self.mapping(), self.top + self.height, self.high[0]
        ticks = whole_ticks(last, max(1, int(self.width / (width_of(last) + APART))))
        places = [(at((float(tick), self.low[1]))[0], f"{tick:,f}") for tick in ticks]
        lines = "".join(f"M{short(x)} {short(bottom)}v{TICK}" for x, _ in places)
        numbers = [label(x, bottom + 18, number) for x, number in places]
        name = label(self.left + self.width / 2, bottom + 36, words)
        return element("g", element("path", d=lines, stroke=INK), *numbers, name, class_="ticks", text_anchor="middle")

    def y_ticks(self, ticks):
        """Ticks left of the frame, each with its number."""
        at = self.mapping()
        places = [(at((self.low[0], float(tick)))[1], f"{tick:,f}") for tick in ticks]
        lines = "".join(f"M{short(self.left)} {short(y)}h-{TICK}" for y, _ in places)
        numbers = [label(self.left - 8, y + 4.5, number) for y, number in places]
        return element("g", element("path", d=lines, stroke=INK), *numbers, class_="ticks", text_anchor="end")


def tick_step(span, most):
    """The least of 1, 2 and 5 times a power of ten that goes into a span at most so many times."""
    power = Decimal(10) ** floor(log10(span / most))
    return next(power * m for m in (1, 2, 5, 10, 20) if power * m * most >= span)


def ticks_within(low, high, step):
    """The multiples of a step in a range."""
    first, last = -floor(-low / step), floor(high / step)
    return [step * i for i in range(first, last + 1)]


def whole_ticks(last, most):
    """Ticks at so many whole numbers from 0 to the last at most, or at these two."""
    step = max(Decimal(1), tick_step(last, most))
    ticks = ticks_within(Decimal(0), Decimal(last), step)
    return ticks if len(ticks) > 1 else [Decimal(0), Decimal(last)]


def width_of(number):
    """The width of a whole number."""
    return len(f"{number:,}") * LETTER_WIDTH
