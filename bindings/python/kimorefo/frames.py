"""Where the lattice of a scene lies in the plane of real units."""

from __future__ import annotations

from dataclasses import dataclass
from fractions import Fraction

Point = tuple[Fraction, Fraction]


@dataclass(frozen=True)
class Frame:
    """A lattice: its step, and where its point 0 0 lies, in real units; and what was changed to fit on it."""

    unit: Fraction
    corner: Point
    notes: tuple[str, ...] = ()

    def real(self, point: tuple[int, int]) -> Point:
        """A lattice point in real units."""
        x, y = point
        return self.corner[0] + x * self.unit, self.corner[1] + y * self.unit
