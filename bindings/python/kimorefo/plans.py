"""Plans as values: what a report says of a scene."""

from __future__ import annotations

from dataclasses import dataclass
from fractions import Fraction
from functools import cached_property
from typing import Any

from .drawing.page import page
from .drawing.pictures import picture
from .reports import Counts, Report, read_reports
from .scenes import Scene

Point = tuple[int, int] | tuple[Fraction, Fraction]


@dataclass(frozen=True, repr=False)
class Plan:
    """A scene and the report of its run. All else is read from the report."""

    scene: Scene
    report: str

    def __repr__(self) -> str:
        if not self.found:
            return f"<Plan without a path, {self.counts.nodes:,} nodes>"
        return f"<Plan of {len(self.lattice_points):,} points, cost {float(self.cost or 0):.2f}>"

    def __reduce__(self) -> tuple[Any, ...]:
        return Plan, (self.scene, self.report)

    @cached_property
    def _read(self) -> Report:
        return read_reports(self.report)[0]

    @property
    def found(self) -> bool:
        """Whether there is a path."""
        return self._read.cost is not None

    @cached_property
    def lattice_points(self) -> tuple[tuple[int, int], ...]:
        """The points of the path on the lattice; none if there is no path."""
        return tuple(self._read.path)

    @cached_property
    def points(self) -> tuple[Point, ...]:
        """The points of the path; of a scaled scene in real units, as exact fractions."""
        frame = self.scene.frame
        return tuple(frame.real(point) for point in self.lattice_points) if frame else self.lattice_points

    @property
    def floats(self) -> tuple[tuple[float, float], ...]:
        """The points of the path, each coordinate rounded to the nearest float."""
        return tuple((float(x), float(y)) for x, y in self.points)

    @property
    def cost(self) -> Fraction | None:
        """What the path costs, in lattice steps: its length, each edge rounded up to a 256th; None without a path."""
        return None if self._read.cost is None else Fraction(self._read.cost, 256)

    @property
    def length(self) -> Fraction | None:
        """The cost in real units; that in lattice steps if the scene was not scaled."""
        unit = self.scene.frame.unit if self.scene.frame else Fraction(1)
        return None if self.cost is None else self.cost * unit

    @property
    def counts(self) -> Counts:
        """How many nodes the tree has, and what became of the marks."""
        return self._read.counts[0]

    @property
    def is_full(self) -> bool:
        """Whether the report has the tree."""
        return bool(self._read.nodes)

    @property
    def __geo_interface__(self) -> dict[str, Any]:
        if len(self.points) == 1:
            return {"type": "Point", "coordinates": self.floats[0]}
        return {"type": "LineString", "coordinates": self.floats}

    def svg(self) -> str:
        """A picture of the scene and the path, and of the tree if the report has it, as SVG."""
        return picture([(self.scene.spelled(), self._read)])

    def _repr_svg_(self) -> str:
        return self.svg()

    def page(self) -> str:
        """An HTML page of its own with the tree as it grew under a slider, the path and the body.

        Only a full report has the tree: `plan(scene, full=True)`.
        """
        return page(self.scene.spelled(), self.report)


@dataclass(frozen=True)
class Verdict:
    """What `check` says of a full report: whether it is lawful, or else the least broken law and its first line."""

    lawful: bool
    line: int = 0
    law: int = 0

    def __bool__(self) -> bool:
        return self.lawful
