"""The planner in this process, by its shared library, with one worker. A call gives up the lock of Python."""

from __future__ import annotations

import ctypes
import os
from dataclasses import dataclass
from functools import cache
from pathlib import Path
from typing import Any

NAME = "libkimorefo.so"
BESIDE = Path(__file__).parent
NO_ROOM = 9
# The most bytes of a short report, and of a full one: so many at any rate, and so many for each mark.
SHORT_REPORT, FULL_REPORT = (256, 20), (256, 200)

U32, SIZE = ctypes.c_uint32, ctypes.c_size_t
TEXT, ROOM = (ctypes.c_char_p, SIZE), (ctypes.c_void_p, SIZE)
OUT_SIZE, OUT_U32 = ctypes.POINTER(SIZE), ctypes.POINTER(U32)
CALLS = {
    "kimorefo_plan": (*TEXT, ctypes.c_bool, *ROOM, OUT_SIZE, OUT_U32, OUT_U32),
    "kimorefo_smooth": (*TEXT, *ROOM, OUT_SIZE, OUT_U32, OUT_U32),
    "kimorefo_check": (*TEXT, *TEXT, OUT_U32, OUT_U32, OUT_U32),
    "kimorefo_version": (),
}


@dataclass(frozen=True)
class Ending:
    """How a call ended: its status, what it wrote, the line and the kind of a refused text, or a broken law."""

    status: int
    written: bytes = b""
    line: int = 0
    kind: int = 0
    law: int = 0


def path() -> Path | None:
    """Where the library is: at KIMOREFO_LIB, or else beside the package; None if it is not there."""
    named = os.environ.get("KIMOREFO_LIB")
    if named:
        return Path(named)
    beside = BESIDE / NAME
    return beside if beside.exists() else None


@cache
def loaded(at: Path) -> ctypes.CDLL:
    """The library at a path."""
    library = ctypes.CDLL(str(at))
    for name, types in CALLS.items():
        call = getattr(library, name)
        call.argtypes, call.restype = types, U32
    return library


def planned(at: Path, words: str, text: bytes, marks: int) -> Ending:
    """How `plan`, `plan full` or `smooth` ends over the text of a scene of so many marks, with one worker."""
    library, (least, each) = loaded(at), FULL_REPORT if words == "plan full" else SHORT_REPORT
    room_bytes = least + each * (marks + 1)
    while True:
        room, count, line, kind = ctypes.create_string_buffer(room_bytes), SIZE(), U32(), U32()
        out: tuple[Any, ...] = (room, room_bytes, ctypes.byref(count), ctypes.byref(line), ctypes.byref(kind))
        if words == "smooth":
            status = library.kimorefo_smooth(text, len(text), *out)
        else:
            status = library.kimorefo_plan(text, len(text), words == "plan full", *out)
        if status != NO_ROOM:
            written = ctypes.string_at(room, count.value) if status in (0, 1) else b""
            return Ending(status, written, line.value, kind.value)
        room_bytes = count.value


def checked(at: Path, text: bytes, report: bytes) -> Ending:
    """How `check` ends over the text of a scene and a report."""
    line, kind, law = U32(), U32(), U32()
    out = ctypes.byref(line), ctypes.byref(kind), ctypes.byref(law)
    status = loaded(at).kimorefo_check(text, len(text), report, len(report), *out)
    return Ending(status, b"", line.value, kind.value, law.value)


def version(at: Path) -> int:
    """The version of the library."""
    return loaded(at).kimorefo_version()
