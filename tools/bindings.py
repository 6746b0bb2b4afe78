#!/usr/bin/env python3
"""Calls the static library of crates/plan_c from C, C++ and Rust, and holds what it answers against a built program.

Usage: bindings.py PROGRAM ARCHIVE, where ARCHIVE is what `rt lib` makes in crates/plan_c. It looks
- whether calls over all examples, with rooms around the size of the report, answer what the program does, byte for
  byte, and touch nothing else (`library_calls.c`), with sanitizers, and with each allocation failing in turn;
- the same of random scenes, texts with faults and changed reports, and of texts, reports and rooms of no bytes and of
  too many;
- whether each lie of a library that `lying_library.c` plants is found;
- whether bindings/ is installed by CMake, and what stands on that, by CMake, pkg-config and cargo, writes what it
  should, as do the programs of docs/from-other-languages.md, which are pasted from there;
- how many instructions a plan takes, to those of `plan 1`: 1.05 at most.

It says what it skips: without cc, c++, cmake, pkg-config, cargo or valgrind. It ends with 1 if anything was wrong.
"""

import re
import shutil
import subprocess
import sys
import tempfile
from collections import Counter
from pathlib import Path

import library_installs as installs
from counts import counts_of
from library_cases import Cases
from library_runs import HERE, SANITIZERS, Caller, built, driver
from usage import words_or_usage

NUMBERS = 40
MOST_SHARE = 1.05
LOGIC = re.compile(r"`rt version`\) is\s+`([0-9a-f]{16})`")
MOST_STACK = 32_768
# Where the version of the sources is said, and how.
VERSIONS = {
    "CHANGELOG.md": r"^## (\d+\.\d+\.\d+)",
    "bindings/CMakeLists.txt": r"VERSION (\d+\.\d+\.\d+)",
    "bindings/include/kimorefo.h": r"of this header: (\d+\.\d+\.\d+)",
    "bindings/python/pyproject.toml": r'^version = "(.*)"',
    "bindings/rust/Cargo.toml": r'^version = "(.*)"',
}
NEEDS = {"cmake": "installing", "pkg-config": "pkg-config", "cargo": "Rust", "valgrind": "counts of instructions"}


class Checks:
    """How many things were looked at, what was wrong, and what is there to look with."""

    def __init__(self, program, archive, folder):
        self.program, self.archive, self.folder = program, archive, folder
        self.cases = Cases(program)
        self.counts, self.wrong = Counter(), []
        self.skipped = [f"{what}: there is no {tool}" for tool, what in NEEDS.items() if not shutil.which(tool)]
        self.skipped += [] if shutil.which("c++") else ["C++: there is no c++"]

    def note(self, what, faults, count=1):
        """Counts so many things, and keeps what was wrong."""
        self.counts[what] += count
        self.wrong += [f"{what}: {fault}" for fault in faults]

    def call(self, what, caller, cases):
        """Makes calls, and notes them."""
        for case in cases:
            fault = caller.fault_of(case)
            self.note(what, [fault] if fault else [])

    def try_programs(self, what, programs):
        """Runs programs over all examples, and notes them."""
        for language, program in programs:
            self.note(what, installs.wrong_runs(self.cases, language, program))


def text_of(name):
    """The text of a file of the repository."""
    return (HERE.parent / name).read_text(encoding="utf-8")


def version_in(name):
    """The version that a file says."""
    return re.search(VERSIONS[name], text_of(name), re.MULTILINE)[1]


def named():
    """The version and the logic of the sources, as the library has them."""
    major, minor, patch = map(int, version_in("CHANGELOG.md").split("."))
    return major * 100_000 + minor * 100 + patch, LOGIC.search(text_of("README.md"))[1].encode()


def wrong_versions():
    """The files that say another version than the changes."""
    version, number = version_in("CHANGELOG.md"), named()[0]
    yield from (f"{name} is of {version_in(name)}" for name in VERSIONS if version_in(name) != version)
    if f"#define KIMOREFO_VERSION {number} " not in text_of("bindings/include/kimorefo.h"):
        yield f"KIMOREFO_VERSION is not {number}"


def look_at_calls(checks):
    """Looks at all calls, with sanitizers."""
    caller = Caller(checks.folder / "calls", driver(checks.folder, *SANITIZERS), checks.archive, *SANITIZERS)
    checks.call("a call over an example", caller, checks.cases.of_examples())
    checks.call("a hostile call", caller, checks.cases.hostile())
    checks.call("a call over random texts", caller, checks.cases.of_numbers(NUMBERS))
    checks.call("what the library is", caller, checks.cases.named(*named()))
    checks.note("a version", wrong_versions(), len(VERSIONS))
    checks.counts["a failed allocation"] = 2 * caller.allocations
    checks.note("the stack", [] if caller.most_stack <= MOST_STACK else [f"{caller.most_stack} bytes were used"])
    print(f"at most {caller.most_stack:,} bytes of stack, with that of the caller")


def look_at_lies(checks):
    """Plants each lie, and looks whether it is found; and that the wrapper without one is right."""
    source = HERE / "lying_library.c"
    lies = re.search(r"enum lie \{([^}]*)\}", source.read_text(encoding="utf-8"))[1].replace(",", " ").split()
    wraps = [f"-Wl,--wrap=kimorefo_{name}" for name in installs.EXPORTS]
    cases, objects = list(checks.cases.telling(*named())), driver(checks.folder)
    for lie in lies:
        planted = built(checks.folder / f"{lie}.o", [source], "-c", f"-DLIE={lie}")
        caller = Caller(checks.folder / lie, objects, checks.archive, planted, *wraps)
        fault = next(filter(None, map(caller.fault_of, cases)), None)
        checks.note("a lie", [] if (fault is None) == (lie == "no_lie") else [f"{lie}: {fault or 'was not found'}"])


def look_at_programs(checks):
    """Looks at the programs of the page, and at what is installed."""
    checks.note("a program of the page", installs.wrong_blocks(), len(installs.PROGRAMS))
    checks.try_programs("a program with sanitizers", installs.sanitized(checks.folder, checks.archive))
    if not shutil.which("cmake"):
        return
    prefix = installs.installed(checks.folder, checks.archive)
    checks.note("exports", installs.wrong_exports(installs.library_in(prefix)))
    if shutil.which("c++"):
        checks.try_programs("a program by CMake", installs.by_cmake(checks.folder, prefix))
    if shutil.which("pkg-config"):
        checks.try_programs("a program by pkg-config", installs.by_pkg_config(checks.folder, prefix))
        checks.try_programs("the commands of the page", installs.pasted(checks.folder, checks.archive))
    if shutil.which("cargo"):
        checks.try_programs("a program by cargo", installs.by_cargo(checks.folder, prefix))


def look_at_counts(checks):
    """Looks how many instructions the program in C takes, to those of `plan 1`."""
    if not shutil.which("valgrind"):
        return
    heap = built(checks.folder / "fast_heap.o", [installs.BINDINGS / "c" / "kimorefo_heap.c"], "-c", "-O2")
    words = ["-O2", "-Wl,-z,noexecstack"]
    planner = built(checks.folder / "fast", [installs.PROGRAMS["c"][0], heap, checks.archive], *words)
    text = subprocess.run([checks.program, "gen", "9"], capture_output=True, check=True).stdout
    called, ran = (counts_of(*of, text, guesses=False)[0] for of in ((planner, ""), (checks.program, "plan 1")))
    checks.note("instructions", [] if called <= MOST_SHARE * ran else [f"{called:,}, and {ran:,} of plan 1"])
    print(f"{called:,} instructions, {called / ran:.3f} of those of plan 1")


def main(program, archive):
    """Looks at everything, and gives the exit status."""
    if not shutil.which("cc"):
        print("skipped everything: there is no cc")
        return 0
    with tempfile.TemporaryDirectory() as folder:
        checks = Checks(Path(program).resolve(), Path(archive).resolve(), Path(folder))
        for look in (look_at_calls, look_at_lies, look_at_programs, look_at_counts):
            look(checks)
    for line in [*checks.wrong, *(f"skipped {what}" for what in checks.skipped)]:
        print(line)
    for what, count in checks.counts.items():
        print(f"{what}: {count}")
    print(f"{checks.counts.total()} checks, {len(checks.wrong)} wrong")
    return 1 if checks.wrong else 0


if __name__ == "__main__":
    sys.exit(main(*words_or_usage(__doc__)))
