#!/usr/bin/env python3
"""Builds a static library over the libraries that `rt ci` left in a checkout, in minutes.

Usage: static_library.py CHECKOUT OUTPUT [CRATE]. CRATE is `plan_c` if it is left out. `rt ci` proves such a crate and
leaves no library of it, and `rt lib` proves all libraries below it once more. This proves the crate alone, by the words
that `rt lib` has for it, over what `rt ci` has just proved, and writes OUTPUT if that succeeds. It refuses if a library
below is not there, or if one of its sources has changed since.
"""

import os
import re
import subprocess
import sys
import tempfile
from pathlib import Path

from usage import words_or_usage

CRATE = "plan_c"
PARTS = ("src", "specs", "proofs")
LINE = re.compile(r"(\w+)((?: \w+(?:=\S+)?)*):((?: \w+)*)")
JOBS = "2"


class NotBuilt(Exception):
    """Why the library is not built."""


def kit():
    """The folder of the toolchain."""
    try:
        page = subprocess.run(["rt", "doc"], capture_output=True, text=True, check=True).stdout
    except (OSError, subprocess.CalledProcessError) as fault:
        raise NotBuilt(f"the toolchain does not tell where it is: {fault}") from None
    return Path(page.strip()).parent


def crates_of(top):
    """The kind of each crate, and what it depends on, by the lines of crates.txt."""
    found = {}
    for line in (top / "crates.txt").read_text(encoding="utf-8").splitlines():
        line = line.partition("#")[0].strip()
        parts = LINE.fullmatch(line)
        if line and not parts:
            raise NotBuilt(f"crates.txt has a line that is not understood: {line}")
        if parts:
            found[parts[1]] = (parts[2].split(), parts[3].split())
    return found


def below(crates, name):
    """The crates of the checkout below a crate, each after those that it depends on."""
    found = []
    for dep in crates[name][1]:
        if dep in crates:
            found += [it for it in [*below(crates, dep), dep] if it not in found]
    return found


def rlib(top, name):
    """The folder of a crate's library. Its files may be shared with other checkouts, and their dates tell nothing."""
    return top / "crates" / name / "out" / "rlib" / f"{name}.rlib"


def sources(top, name):
    """The files and folders that a crate is proved from."""
    yield top / "crates.txt"
    for part in PARTS:
        for folder, _, names in os.walk(top / "crates" / name / part):
            yield from (Path(folder), *(Path(folder, it) for it in names))


def newest(paths):
    """When the last of some files or folders changed, by the date that nobody can set back."""
    return max(it.lstat().st_ctime_ns for it in paths)


def look_at_libraries(top, names):
    """Refuses a library that is not there, or that is older than a source of its crate."""
    for name in names:
        library = rlib(top, name)
        if not (library / "format").is_file():
            raise NotBuilt(f"there is no library {name}: run `rt ci`, which leaves it in crates/{name}/out")
        if newest(sources(top, name)) > library.stat().st_mtime_ns:
            raise NotBuilt(f"the library {name} is older than its sources: run `rt ci`, which proves it")


def words_for(top, name):
    """The words that `rt lib` has for a static library, without the work that is kept from an earlier proof."""
    crates, of_kit, root = crates_of(top), ["std"], kit()
    kind, deps = crates.get(name, ([], []))
    if kind != ["staticlib"]:
        raise NotBuilt(f"crates.txt has no line that begins `{name} staticlib:`")
    libraries = below(crates, name)
    look_at_libraries(top, libraries)
    words = [f"{root}/bin/rattle", "build", "--crate-name", name, "src/lib.rt"]
    for dep in [*of_kit, *(it for it in deps if it not in crates)]:
        words += ["--extern", f"{dep}={root}/rlibs/{dep}.rlib"]
    words += ["-L", f"dependency={root}/rlibs"]
    for dep in deps:
        words += ["--extern", f"{dep}={rlib(top, dep)}"] if dep in crates else []
    for dep in libraries:
        words += ["-L", f"dependency={rlib(top, dep).parent}"]
    words += ["--antt-project", f"{root}/rattle/logic/antt-project.json", "--logic-built", f"{root}/logic_built"]
    words += ["--jobs", JOBS, "--links", f"{name}=", "--crate-type", "staticlib"]
    return [*words, "--toolchain", f"{root}/toolchain", "--backend", "llvm"]


def build(top, output, name=CRATE):
    """Proves the crate and builds its library."""
    top, output = Path(top).resolve(), Path(output).resolve()
    words = words_for(top, name)
    with tempfile.TemporaryDirectory(dir=output.parent) as folder:
        made = Path(folder) / output.name
        given = {"stdin": subprocess.DEVNULL, "stdout": subprocess.PIPE, "stderr": subprocess.STDOUT, "text": True}
        done = subprocess.run([*words, "-o", made], cwd=top / "crates" / name, check=False, **given)
        if done.returncode or not made.is_file():
            raise NotBuilt(f"{name} is not proved or not built:\n{done.stdout}")
        look_at_libraries(top, below(crates_of(top), name))
        made.replace(output)


def main(top, output, name=CRATE):
    try:
        build(top, output, name)
    except NotBuilt as fault:
        print(f"static_library: {fault}", file=sys.stderr)
        return 1
    return 0


if __name__ == "__main__":
    sys.exit(main(*words_or_usage(__doc__)))
