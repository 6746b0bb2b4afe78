"""The calls of the package: planning, smoothing and checking."""

from __future__ import annotations

import os
from collections.abc import Callable
from pathlib import Path

from . import library
from . import program as programs
from .errors import KimorefoError, NoMemory, NoPlanner, PlannerFailed, Refused, StartBlocked
from .explaining.answers import too_long
from .library import Ending
from .plans import Plan, Verdict
from .scene_text import MOST_TEXT_BYTES
from .scenes import Scene, refused

ProgramPath = str | os.PathLike[str] | None
MOST_WORKERS = 64
MOST_SECONDS = 10_000_000
# What a report begins with, by the status.
BEGINS = {0: b"path ", 1: b"no path\n"}


def plan(
    scene: Scene,
    *,
    workers: int = 1,
    full: bool = False,
    program: ProgramPath = None,
    seconds: float | None = None,
) -> Plan:
    """The plan of a scene. A full one has the tree, too.

    One worker plans in this process, if the library is at KIMOREFO_LIB or beside the package, and neither a path of a
    program nor `seconds` is given. Else the program plans, at that path, at KIMOREFO_PROGRAM, or beside the package; it
    is ended after so many seconds (`OutOfTime`). With several workers the tree may differ from call to call.
    """
    return planned(scene, "plan full" if full else "plan", workers, program, seconds)


def smooth(
    scene: Scene, *, workers: int = 1, program: ProgramPath = None, seconds: float | None = None
) -> Plan:
    """As `plan`, with the path shortened: the cheapest clear path over some of its points."""
    return planned(scene, "smooth", workers, program, seconds)


def check(
    scene: Scene, report: str | bytes | Plan, *, program: ProgramPath = None, seconds: float | None = None
) -> Verdict:
    """Whether a full report is that of a lawful run of a scene, whoever planned it."""
    text, given = scene.text().encode(), report_bytes(report)
    whole = text + b"report\n" + given
    in_process = lambda at: library.checked(at, text, given)
    ending = ended(1, program, seconds, in_process, lambda at: programs.run(at, "check", whole, seconds))
    if ending.status == 0:
        return Verdict(True)
    if ending.status == 1 and ending.law:
        return Verdict(False, ending.line, ending.law)
    raise fault_of(scene, text, ending, len(whole))


def report_bytes(report: str | bytes | Plan) -> bytes:
    """The bytes of a report."""
    text = report.report if isinstance(report, Plan) else report
    return text.encode("utf-8", "surrogateescape") if isinstance(text, str) else text


def planned(scene: Scene, words: str, workers: int, program: ProgramPath, seconds: float | None) -> Plan:
    """The plan that `plan`, `plan full` or `smooth` writes of a scene."""
    if not 1 <= workers <= MOST_WORKERS:
        raise ValueError(f"there are 1 to {MOST_WORKERS} workers, not {workers}")
    text = scene.text().encode()
    marks = scene.marks if isinstance(scene.marks, int) else len(scene.marks)
    verb, *full = words.split()
    command = " ".join([verb, str(workers), *full])
    in_process = lambda at: library.planned(at, words, text, marks)
    ending = ended(workers, program, seconds, in_process, lambda at: programs.run(at, command, text, seconds))
    if ending.status in BEGINS and ending.written.startswith(BEGINS[ending.status]):
        return Plan(scene, ending.written.decode("ascii"))
    raise fault_of(scene, text, ending, len(text))


def ended(
    workers: int,
    program: ProgramPath,
    seconds: float | None,
    in_process: Callable[[Path], Ending],
    by_program: Callable[[Path], Ending],
) -> Ending:
    """How a call ends in this process if it can, or else by the program: alone that can be ended in time."""
    if seconds is not None and not 0 < seconds < MOST_SECONDS:
        raise ValueError(f"a call has more than 0 seconds, and less than {MOST_SECONDS:,}, not {seconds}")
    shared = library.path() if workers == 1 and program is None and seconds is None else None
    if shared:
        try:
            return in_process(shared)
        except (OSError, AttributeError) as fault:
            raise NoPlanner(f"{shared} could not be loaded: {fault}") from None
    at = programs.path(program)
    if at is None:
        needs_program = workers > 1 or seconds is not None
        wanted = f"program {programs.NAME}" if needs_program else f"library {library.NAME} and no program {programs.NAME}"
        named = "KIMOREFO_PROGRAM" if needs_program else "KIMOREFO_LIB or KIMOREFO_PROGRAM"
        raise NoPlanner(f"there is no {wanted} beside the package: set {named}, or give `program`")
    return by_program(at)


def fault_of(scene: Scene, text: bytes, ending: Ending, size: int) -> KimorefoError:
    """The error of a call that gave no answer."""
    if ending.status == 3 and ending.line:
        return refused(text, ending.line, ending.kind)
    if ending.status == 3 and size > MOST_TEXT_BYTES:
        return Refused(0, 0, (too_long(text) if len(text) == size else too_much(size),))
    if ending.status == 4:
        return StartBlocked(scene.explained())
    if ending.status == 7:
        return NoMemory("the planner found too little memory")
    return PlannerFailed(ending.status, ending.written.decode("ascii", "replace"))


def too_much(size: int) -> str:
    """What to say of a scene and a report that are too long together."""
    return f"Scene and report have {size:,} bytes, and the program takes {MOST_TEXT_BYTES:,}: the library takes more."
