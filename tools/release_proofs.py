#!/usr/bin/env python3
"""Proves the commit of this checkout several times over, in other folders, and compares what is built byte for byte.

Usage: release_proofs.py FOLDER WAY.. A way is `anew`, `kept` or `user`, and a number of processors: by `anew4` the gate
proves from nothing by four, by `kept2` it takes what this machine kept of earlier proofs, by two. By `user2` nothing but
the launcher and `rt lib` proves, on two processors, with an empty folder in place of what this machine kept: for root.
Each way has a clone of its own in FOLDER, the path of which has another length, and which is removed once it is proved.
FOLDER/WAY keeps the programs and the static library, FOLDER/WAY.log what was written, FOLDER/WAY.commit which commit it
was and how it was proved. A way that FOLDER has already is not gone again: they can be gone one at a time.

It prints a line for each way and each file that differs, and ends with 1 if one does, or if a proof failed.
"""

import os
import re
import shutil
import subprocess
import sys
import time
from pathlib import Path

from release_archive import NoRelease, sum_of
from release_commit import commit_of, top_of
from release_compare import compared, show
from release_proof import LIBRARY, PROGRAMS, built, folder_of, prove, toolchain
from static_library import NotBuilt, kit
from usage import words_or_usage

TOP = top_of(__file__)
KINDS = ["kept", "anew", "user"]
WAY = re.compile(rf"({'|'.join(KINDS)})([1-9]\d?)")
GATE = "gate.log"

# What a user does who has a checkout and the toolchain.
AS_A_USER = """
mkdir -p "$KEPT" && mount -t tmpfs none "$KEPT" || exit
(cd crates/plan_c && rt lib) && ./prrt plan 1 < examples/hall.scene && ./prrt watch 1 < examples/hall.scene
"""


def clone_for(folder, kind, processors):
    """A clone of this checkout, whose path has a length that no other way's has."""
    clone = folder / f"{kind}-{'x' * (2 * processors + 31 * KINDS.index(kind))}"
    shutil.rmtree(clone, ignore_errors=True)
    subprocess.run(["git", "clone", "--quiet", TOP, clone], check=True)
    subprocess.run(["git", "-C", clone, "checkout", "--quiet", commit_of(TOP)], check=True)
    return clone


def prove_by_gate(clone, kind):
    """Has the gate prove a clone, and tells the commit, the toolchain and the gate's last line."""
    proved = prove(clone, ["--anew"] if kind == "anew" else [])
    return proved.commit, proved.toolchain, proved.gate


def prove_as_a_user(clone, processors):
    """Has the launcher and `rt lib` prove a clone on some processors, as on a machine that has kept nothing."""
    alone = ["unshare", "--mount", "taskset", "--cpu-list", f"0-{processors - 1}", "sh", "-c", AS_A_USER]
    given = {"stdin": subprocess.DEVNULL, "stderr": subprocess.STDOUT, "env": os.environ | {"KEPT": kit().parent / "rattle-kept"}}
    with open(folder_of(clone) / GATE, "w", encoding="utf-8") as log:
        subprocess.run(alone, cwd=clone, check=True, stdout=log, **given)
    shutil.copy2(clone / "crates/plan_c/out/libplan_c.a", built(clone, LIBRARY))
    return commit_of(clone), toolchain()[0], "proved by rt lib and the launcher"


def go(folder, way):
    """Proves a clone in one way, and keeps what it built."""
    kind, processors = WAY.fullmatch(way).groups()
    os.environ["RT_JOBS"] = processors
    clone, begun = clone_for(folder, kind, int(processors)), time.monotonic()
    told = prove_as_a_user(clone, int(processors)) if kind == "user" else prove_by_gate(clone, kind)
    made = folder / f"{way}.new"
    shutil.rmtree(made, ignore_errors=True)
    made.mkdir()
    for name in (*PROGRAMS, LIBRARY):
        shutil.copy2(built(clone, name), made / Path(name).name)
    shutil.copy2(folder_of(clone) / GATE, folder / f"{way}.log")
    (folder / f"{way}.commit").write_text("".join(f"{it}\n" for it in told))
    made.rename(folder / way)
    shutil.rmtree(clone)
    print(f"{way}: {told[-1]}, in {round(time.monotonic() - begun)} s, at a path of {len(str(clone))} characters")


def main(folder, *ways):
    folder = Path(folder).resolve()
    wrong = [it for it in ways if not WAY.fullmatch(it)]
    if wrong or not ways:
        print(__doc__.strip(), file=sys.stderr)
        return 2
    folder.mkdir(parents=True, exist_ok=True)
    for way in ways:
        if not (folder / way).is_dir():
            go(folder, way)
        if (folder / f"{way}.commit").read_text().splitlines()[0] != commit_of(TOP):
            raise NoRelease(f"{folder / way} is of another commit: remove it")
    return show_all(folder, ways)


def show_all(folder, ways):
    """Prints the sums of the first way, and what is not the same in another one."""
    first, *others = ways
    for path in sorted((folder / first).iterdir()):
        print(f"{sum_of(path.read_bytes())}  {path.name}")
    found = {way: compared(folder / first, folder / way)[0] for way in others}
    for way, lines in found.items():
        show([f"{way} differs from {first}:", *lines] if lines else [f"{way}: the same as {first}"])
    return 1 if any(found.values()) else 0


if __name__ == "__main__":
    try:
        sys.exit(main(*words_or_usage(__doc__)))
    except (NoRelease, NotBuilt, OSError, subprocess.CalledProcessError) as fault:
        print(f"release_proofs: {fault}", file=sys.stderr)
        sys.exit(1)
