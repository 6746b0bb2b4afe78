#!/usr/bin/env python3
"""Tries wrong bodies that the contracts must refuse, besides those that the gate tries.

Usage: wrong_bodies.py all, or wrong_bodies.py CRATE.. for the wrong bodies of some crates. Each is an edit of the form
that CONTRIBUTING.md says, in wrong_bodies/CRATE/. A copy of the crates gets these in place of the gate's, and
`rt must-fail` tries them there. It ends with 1 if a crate is still proved with one of them.
"""

import os
import shutil
import subprocess
import sys
import tempfile

from usage import words_or_usage

TOOLS = os.path.dirname(os.path.abspath(__file__))
TOP = os.path.dirname(TOOLS)
BODIES = f"{TOOLS}/wrong_bodies"


def copy_with_bodies(room, crates):
    """Copies all crates, these with their wrong bodies for edits and the others with none."""
    for name in ("crates.txt", "HANDLES"):
        shutil.copy(f"{TOP}/{name}", room)
    shutil.copytree(f"{TOP}/crates", f"{room}/crates", ignore=shutil.ignore_patterns("out", "must-fail"))
    for crate in crates:
        shutil.copytree(f"{BODIES}/{crate}", f"{room}/crates/{crate}/must-fail")


def main(*names):
    crates = sorted(os.listdir(BODIES)) if names == ("all",) else names
    unknown = [name for name in crates if not os.path.isdir(f"{BODIES}/{name}")]
    if unknown:
        print(f"no wrong bodies of {' '.join(unknown)}", file=sys.stderr)
        return 2
    with tempfile.TemporaryDirectory() as room:
        copy_with_bodies(room, crates)
        return subprocess.run(["rt", "must-fail", *crates], cwd=room, check=False).returncode


if __name__ == "__main__":
    sys.exit(main(*words_or_usage(__doc__)))
