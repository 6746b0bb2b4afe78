"""Kimorefo: plans the motion of a convex body in the plane among obstacles, by proved parallel RRT*."""

from .calls import check, plan, smooth
from .errors import (
    CrossesItself,
    GoalTooSmall,
    HasHoles,
    KimorefoError,
    NoMemory,
    NoPlanner,
    NoReport,
    NotAShape,
    NotFinite,
    OutOfTime,
    PlannerFailed,
    Refused,
    ShapeError,
    StartBlocked,
    StartOutside,
    StepTooShort,
    TooManyParts,
    UnitTooLarge,
    UnitTooSmall,
)
from .frames import Frame
from .plans import Plan, Verdict
from .scenes import Scene
from .seeds import best, seeds_apart

__all__ = [
    "CrossesItself",
    "Frame",
    "GoalTooSmall",
    "HasHoles",
    "KimorefoError",
    "NoMemory",
    "NoPlanner",
    "NoReport",
    "NotAShape",
    "NotFinite",
    "OutOfTime",
    "Plan",
    "PlannerFailed",
    "Refused",
    "Scene",
    "ShapeError",
    "StartBlocked",
    "StartOutside",
    "StepTooShort",
    "TooManyParts",
    "UnitTooLarge",
    "UnitTooSmall",
    "Verdict",
    "best",
    "check",
    "plan",
    "seeds_apart",
    "smooth",
]
__version__ = "0.10.0"
