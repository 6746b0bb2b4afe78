"""What the gate proved in a checkout and left there, and whether the launcher takes it for that of the sources."""

import hashlib
import json
import os
import re
import shutil
import subprocess
from dataclasses import asdict, dataclass
from pathlib import Path

import static_library
from release_archive import NoRelease, sum_of
from release_commit import commit_of, git, said

# What is built, by the name that it has in a release.
PROGRAMS = {"kimorefo": "planner_main", "kimorefo-watch": "plan_watch"}
LIBRARY = "lib/libplan_c.a"
PASSED = re.compile(r"[1-9]\d* passed, 0 failed")


@dataclass(frozen=True)
class Proved:
    """A commit that the gate passed, by which toolchain, and the sums of what it built by their names in a release."""

    commit: str
    toolchain: str
    clang: str
    linker: str
    gate: str
    sums: dict


def folder_of(top):
    """Where a checkout keeps what is made for a release. Git ignores it."""
    made = top / "out" / "release"
    made.mkdir(parents=True, exist_ok=True)
    return made


def record_at(top):
    return folder_of(top) / "proved.json"


def program_of(top, crate):
    return top / "crates" / crate / "out" / crate


def built(top, name):
    """Where what a release has under a name is built."""
    return folder_of(top) / Path(LIBRARY).name if name == LIBRARY else program_of(top, PROGRAMS[name])


def bytes_of(top, name):
    """What was built for a release under a name."""
    try:
        return built(top, name).read_bytes()
    except OSError:
        raise NoRelease(f"{name} is not built: there is no {built(top, name).relative_to(top)}") from None


def all_sources(top):
    """Every file and folder that the gate proves something from."""
    yield top / "HANDLES"
    for name in static_library.crates_of(top):
        yield from static_library.sources(top, name)


def toolchain():
    """What the toolchain, its compiler and its linker say they are."""
    tools = static_library.kit() / "toolchain" / "bin"
    return [said("rt", "version"), *(said(tools / it, "--version").splitlines()[0] for it in ("clang", "ld.lld"))]


def run_gate(top, words):
    """Runs the gate, and gives its last line. All that it writes is kept beside."""
    log = folder_of(top) / "gate.log"
    with open(log, "w", encoding="utf-8") as file:
        given = {"stdin": subprocess.DEVNULL, "stdout": file, "stderr": subprocess.STDOUT, "check": False}
        try:
            status = subprocess.run(["rt", "ci", *words], cwd=top, **given).returncode
        except FileNotFoundError:
            raise NoRelease("the toolchain's rt is not on your PATH") from None
    last = (log.read_text(encoding="utf-8", errors="replace").splitlines() or [""])[-1]
    if status or not PASSED.fullmatch(last):
        raise NoRelease(f"the gate failed, as {log} says: {last}")
    return last


def look_unchanged(top, commit, since):
    """Refuses if anything was changed since a moment, even if it was changed back."""
    if commit_of(top) != commit or static_library.newest(all_sources(top)) > since:
        raise NoRelease("sources changed while the gate ran")


def prove(top, words=()):
    """Has the gate prove a checkout, builds the static library, which the gate does not leave, and records both."""
    commit, begun = commit_of(top), folder_of(top) / "begun"
    record_at(top).unlink(missing_ok=True)
    begun.write_text("")
    # `rt ci` would put these back in place of its own.
    for library in top.glob("crates/*/out/rlib"):
        shutil.rmtree(library)
    gate, since = run_gate(top, words), begun.stat().st_mtime_ns
    look_unchanged(top, commit, since)
    static_library.build(top, built(top, LIBRARY))
    look_unchanged(top, commit, since)
    sums = {name: sum_of(bytes_of(top, name)) for name in (*PROGRAMS, LIBRARY)}
    for name in sums:
        if built(top, name).stat().st_mtime_ns < since:
            raise NoRelease(f"{name} is older than its sources: the gate did not build it")
    proved = Proved(commit, *toolchain(), gate, sums)
    for crate in PROGRAMS.values():
        tell_launcher(top, crate, proved.toolchain)
    record_at(top).write_text(json.dumps(asdict(proved), indent=4))
    return proved


def kept(top):
    """What the gate proved here last, for a release of this very commit."""
    commit = commit_of(top)
    try:
        proved = Proved(**json.loads(record_at(top).read_text()))
    except (OSError, ValueError, TypeError):
        raise NoRelease("nothing is kept here that was proved for a release: leave out --kept") from None
    if proved.commit != commit:
        raise NoRelease(f"what was proved here is commit {proved.commit}, and the checkout is at {commit}")
    for name, told in proved.sums.items():
        if sum_of(bytes_of(top, name)) != told:
            raise NoRelease(f"{built(top, name).relative_to(top)} is not what the gate left")
    return proved


def sum_of_sources(top, crate):
    """The sum by which the launcher tells whether a program is that of its sources."""
    crates = static_library.crates_of(top)
    paths = [top / "crates.txt"]
    for name in [*static_library.below(crates, crate), crate]:
        for part in ("src", "specs"):
            paths += (Path(folder, it) for folder, _, names in os.walk(top / "crates" / name / part) for it in names)
    lines = sorted(f"{sum_of(it.read_bytes())}  {it.relative_to(top)}\n".encode() for it in paths)
    return hashlib.sha256(b"".join(lines)).hexdigest()


def tell_launcher(top, crate, proved_with):
    """Writes the launcher's record of what a program was built from, which `rt ci` does not leave."""
    program = program_of(top, crate)
    lines = [f"{program.stat().st_ino} {program}", f"sources {sum_of_sources(top, crate)}"]
    lines += [f"program {sum_of(program.read_bytes())}", f"toolchain {proved_with}"]
    (program.parent / "built_from").write_text("".join(f"{it}\n" for it in lines))


def ask_launcher(top, version, proved):
    """Refuses unless the launcher, by its own sums, takes its program for that of the sources of this version."""
    told = said(top / "prrt", "--version").splitlines()
    short = git(top, "rev-parse", "--short=8", "HEAD")
    wanted = {f"kimorefo {version}", f"commit {short}", f"proved with {proved.toolchain}"}
    if not wanted <= set(told):
        raise NoRelease(f"the program is older than its sources: ./prrt --version says {'; '.join(told)}")
