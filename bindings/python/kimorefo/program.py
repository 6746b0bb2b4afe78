"""The planner as a program of its own, with any number of workers."""

from __future__ import annotations

import os
import re
import subprocess
from pathlib import Path

from .errors import NoPlanner, OutOfTime
from .library import BESIDE, Ending

NAME = "planner_main"
LAUNCHER = "prrt"
REFUSED = re.compile(rb"line (\d+) kind (\d+) [A-Z][a-z]+\n")
BROKEN = re.compile(rb"broken line (\d+) law (\d+)\n")


def path(given: str | os.PathLike[str] | None = None) -> Path | None:
    """Where the program is: at a path that is given, at KIMOREFO_PROGRAM, or beside the package; None if it is not.

    The launcher of a checkout is refused: a call of it may build the program, for hours.
    """
    named = given or os.environ.get("KIMOREFO_PROGRAM")
    at = Path(named) if named else BESIDE / NAME
    if at.name == LAUNCHER:
        raise NoPlanner(f"{at} is the launcher, which may build: give the path of the built program {NAME}")
    if named and not at.exists():
        raise NoPlanner(f"there is no program {at}")
    return at if at.exists() else None


def run(at: Path, words: str, text: bytes, seconds: float | None = None) -> Ending:
    """How the program ends by some words over a text, in so many seconds."""
    try:
        done = subprocess.run([at.resolve(), *words.split()], input=text, capture_output=True, check=False, timeout=seconds)
    except subprocess.TimeoutExpired:
        raise OutOfTime(seconds or 0) from None
    except OSError as fault:
        raise NoPlanner(f"{at} could not be run: {fault.strerror}") from None
    refused, broken = REFUSED.fullmatch(done.stdout), BROKEN.fullmatch(done.stdout)
    if done.returncode == 3 and refused:
        return Ending(3, done.stdout, *map(int, refused.groups()))
    if done.returncode == 1 and broken:
        line, law = map(int, broken.groups())
        return Ending(1, done.stdout, line, 0, law)
    return Ending(done.returncode, done.stdout)
