"""Scenes as values."""

from __future__ import annotations

from collections.abc import Iterable, Sequence
from dataclasses import dataclass, field
from operator import index
from typing import Any, SupportsIndex

from . import defaults
from .drawing.captions import counted
from .drawing.pictures import picture
from .errors import Refused
from .explaining.answers import answer_for_part, refusal, too_long
from .explaining.text_faults import Part
from .frames import Frame
from .scene_text import MOST_TEXT_BYTES, Fault, SceneText, lines_of, read

Point = tuple[int, int]
Polygon = tuple[Point, ...]
Box = tuple[int, int, int, int]


@dataclass(frozen=True, init=False, repr=False)
class Scene:
    """A room with obstacles, a body, a start and goals, and how to plan in it: all in whole lattice steps.

    Start, goals, marks and paths are those of the body's origin. Obstacles and the body are strictly convex polygons,
    counterclockwise; the body may be one point. A goal is a box: its lower left and its upper right corner. Step,
    gamma and marks need not be chosen: see `defaults`. `marks` is how many samples are drawn, or a list of them.
    """

    room: Point
    start: Point
    goals: tuple[Box, ...]
    obstacles: tuple[Polygon, ...]
    body: Polygon
    clearance: int
    step: int
    gamma: int
    marks: int | tuple[Point, ...]
    seed: int
    strips: int
    informed: bool
    version: int
    frame: Frame | None = field(repr=False)

    def __init__(
        self,
        room: Sequence[SupportsIndex],
        start: Sequence[SupportsIndex],
        goals: Iterable[Sequence[SupportsIndex]],
        obstacles: Iterable[Iterable[Sequence[SupportsIndex]]] = (),
        body: Iterable[Sequence[SupportsIndex]] = ((0, 0),),
        clearance: SupportsIndex = 0,
        step: SupportsIndex | None = None,
        gamma: SupportsIndex | None = None,
        marks: SupportsIndex | Iterable[Sequence[SupportsIndex]] = defaults.MARKS,
        seed: SupportsIndex = 0,
        strips: SupportsIndex = 1,
        informed: bool = False,
        version: SupportsIndex = 2,
        frame: Frame | None = None,
    ):
        width, height = whole(room, 2)
        given: dict[str, Any] = {
            "room": (width, height),
            "start": whole(start, 2),
            "goals": tuple(whole(goal, 4) for goal in goals),
            "obstacles": tuple(polygon(obstacle) for obstacle in obstacles),
            "body": polygon(body),
            "clearance": steps(clearance),
            "step": defaults.step_for(width, height) if step is None else steps(step),
            "gamma": defaults.gamma_for(width, height) if gamma is None else steps(gamma),
            "marks": steps(marks) if isinstance(marks, SupportsIndex) else polygon(marks),
            "seed": steps(seed),
            "strips": steps(strips),
            "informed": bool(informed),
            "version": steps(version),
            "frame": frame,
        }
        for name, value in given.items():
            object.__setattr__(self, name, value)

    def __repr__(self) -> str:
        marks = self.marks if isinstance(self.marks, int) else len(self.marks)
        width, height = self.room
        return f"<Scene {width:,} x {height:,}, {counted(len(self.obstacles), 'obstacle')}, {counted(marks, 'mark')}>"

    @classmethod
    def read(cls, text: str | bytes) -> Scene:
        """The scene that a text spells; `Refused` if it spells none."""
        given = text.encode("utf-8", "surrogateescape") if isinstance(text, str) else bytes(text)
        if len(given) > MOST_TEXT_BYTES:
            raise Refused(0, 0, (too_long(given),))
        try:
            spelled = read(given)
        except Fault as fault:
            raise refused(given, fault.line, fault.kind) from None
        return cls(
            room=spelled.room,
            start=spelled.start,
            goals=spelled.goals,
            obstacles=spelled.obstacles,
            body=spelled.body,
            clearance=spelled.clearance,
            step=spelled.step,
            gamma=spelled.gamma,
            marks=spelled.marks if spelled.drawn is None else spelled.drawn,
            seed=spelled.seed,
            strips=spelled.strips,
            informed=spelled.informed,
            version=spelled.version,
        )

    @classmethod
    def scaled(cls, unit: Any, **given: Any) -> Scene:
        """The scene on the lattice of what is given in real units: see `kimorefo.units.scaled`."""
        from .units import scaled

        return scaled(unit, **given)

    @classmethod
    def from_grid(cls, rows: Iterable[Iterable[Any]], cell: Any = 1, **given: Any) -> Scene:
        """The scene of an occupancy grid: see `kimorefo.grids.scene_of`."""
        from .grids import scene_of

        return scene_of(rows, cell, **given)

    def spelled(self) -> SceneText:
        """The numbers of its text."""
        drawn = self.marks if isinstance(self.marks, int) else None
        return SceneText(
            room=self.room,
            start=self.start,
            goals=list(self.goals),
            step=self.step,
            version=self.version,
            clearance=self.clearance,
            informed=self.informed,
            body=list(self.body),
            obstacles=[list(obstacle) for obstacle in self.obstacles],
            gamma=self.gamma,
            seed=self.seed,
            strips=self.strips,
            drawn=drawn,
            marks=[] if isinstance(self.marks, int) else list(self.marks),
        )

    def text(self) -> str:
        """Its canonical text."""
        return self.spelled().text()

    def explained(self) -> tuple[str, ...]:
        """What is wrong with it, or may stand in the way of a path, in sentences."""
        return tuple(answer_for_part(Part(lines_of(self.text().encode()))).said)

    @property
    def notes(self) -> tuple[str, ...]:
        """What was changed when it was scaled to the lattice, in sentences."""
        return self.frame.notes if self.frame else ()

    def svg(self) -> str:
        """A picture of it, as SVG."""
        return picture([(self.spelled(), None)])

    def _repr_svg_(self) -> str:
        return self.svg()


def whole(numbers: Sequence[SupportsIndex], count: int) -> tuple[Any, ...]:
    """So many whole numbers."""
    taken = tuple(map(steps, numbers))
    if len(taken) != count:
        raise ValueError(f"{count} numbers are needed in place of {len(taken)}")
    return taken


def steps(number: SupportsIndex) -> int:
    """A whole number."""
    try:
        return index(number)
    except TypeError:
        raise TypeError(f"{number!r} is no whole number of lattice steps: `Scene.scaled` takes real units") from None


def polygon(points: Iterable[Sequence[SupportsIndex]]) -> Polygon:
    """Points as a tuple of pairs."""
    return tuple((x, y) for x, y in (whole(point, 2) for point in points))


def refused(text: bytes, line: int, kind: int) -> Refused:
    """The refusal of a text at a line, with sentences that say how to mend it."""
    return Refused(line, kind, tuple(refusal(Part(lines_of(text)), Fault(line, kind))))
