"""What the package raises. Errors are values: compared by content, hashable, and pickled."""

from .scene_text import KINDS

MOST_SHOWN = 80


class KimorefoError(Exception):
    """What all errors of the package are."""

    def __eq__(self, other: object) -> bool:
        return isinstance(other, KimorefoError) and type(self) is type(other) and self.args == other.args

    def __hash__(self) -> int:
        return hash((type(self), self.args))

    def __repr__(self) -> str:
        head = str(self).partition("\n")[0]
        return f"<{type(self).__name__}: {head if len(head) <= MOST_SHOWN else head[: MOST_SHOWN - 2] + '..'}>"

    def __setattr__(self, name: str, value: object) -> None:
        if not name.startswith("__"):
            raise AttributeError(f"{type(self).__name__} is a value: {name} cannot be set")
        super().__setattr__(name, value)


class Refused(KimorefoError, ValueError):
    """A scene text is refused: its line, the number of the kind of fault, and sentences that say how to mend it.

    Of a text that is too long, line and kind are 0.
    """

    def __init__(self, line: int, kind: int, said: tuple[str, ...]):
        super().__init__(line, kind, tuple(said))

    @property
    def line(self) -> int:
        """The number of the refused line, from 1."""
        return self.args[0]

    @property
    def kind(self) -> int:
        """The number of the kind of fault."""
        return self.args[1]

    @property
    def kind_name(self) -> str:
        """The name of the kind of fault."""
        return KINDS.get(self.kind, "Length")

    @property
    def said(self) -> tuple[str, ...]:
        """What is wrong and how to mend it."""
        return self.args[2]

    def __str__(self) -> str:
        head = f"line {self.line} kind {self.kind} {self.kind_name}" if self.line else "text too long"
        return "\n".join([head, *self.said])


class StartBlocked(KimorefoError, ValueError):
    """The body is not clear at the start; sentences say what is in the way, and how far the start has to move."""

    def __init__(self, said: tuple[str, ...]):
        super().__init__(tuple(said))

    @property
    def said(self) -> tuple[str, ...]:
        """What is in the way and how to mend it."""
        return self.args[0]

    def __str__(self) -> str:
        return "\n".join(["start blocked", *self.said])


class NoMemory(KimorefoError, MemoryError):
    """The planner found too little memory."""


class OutOfTime(KimorefoError, TimeoutError):
    """A call has not ended in the seconds that it was given."""

    def __init__(self, seconds: float):
        super().__init__(seconds)

    @property
    def seconds(self) -> float:
        """The seconds that it was given."""
        return self.args[0]

    def __str__(self) -> str:
        return f"the planner has not ended in {self.seconds:g} seconds"


class NoReport(KimorefoError, ValueError):
    """A text is no report, or not that of its scene, for this reason."""


class NoPlanner(KimorefoError, RuntimeError):
    """Neither a library nor a program is where it was looked for."""


class PlannerFailed(KimorefoError, RuntimeError):
    """The planner ended with a status that it has no reason for: the status, and what it wrote."""

    def __init__(self, status: int, written: str):
        super().__init__(status, written)

    @property
    def status(self) -> int:
        """The status that it ended with."""
        return self.args[0]

    def __str__(self) -> str:
        return f"the planner ended with status {self.status}: {self.args[1][:200]!r}"


class ShapeError(KimorefoError, ValueError):
    """What was given in real units does not fit on the lattice, as its kind and its text say."""


class NotFinite(ShapeError):
    """A number is no number, or infinite."""


class NotAShape(ShapeError):
    """What was given is no polygon, no box, or has no area."""


class HasHoles(ShapeError):
    """A polygon has holes."""


class CrossesItself(ShapeError):
    """The sides of a polygon meet elsewhere than at its corners."""


class UnitTooSmall(ShapeError):
    """Something is more lattice steps long than the planner takes."""


class UnitTooLarge(ShapeError):
    """The room has no lattice step."""


class StepTooShort(ShapeError):
    """The longest edge is less than 4 lattice steps."""


class GoalTooSmall(ShapeError):
    """No lattice point of the room lies in a goal."""


class StartOutside(ShapeError):
    """The start does not lie in the room."""


class TooManyParts(ShapeError):
    """The obstacles are more convex parts than the planner takes."""
