"""A small checkout that releases are made from, with stand-ins for the commands that prove and build it."""

import io
import os
import re
import shutil
import subprocess
import sys
import tarfile
from dataclasses import dataclass

from launcher_tree import KIT, SECONDS, TOP, expect, path_without, write
from release_archive import Packed, SUMS, tar_of, unpacked, unzipped, with_sums, zipped
from release_files import folder_name

VERSION, NUMBER = "1.2.3", 100_203
CHANGES = f"# Changelog\n\n## {VERSION} - 2026-11-30\n\n- more\n\n## 1.2.2 - 2026-11-29\n"
CRATES_TEXT = """# The program and the library
planner_main: middle arrayvec
plan_watch: middle
plan_c staticlib: middle
middle: lowest
lowest:
"""
CRATES = ("planner_main", "plan_watch", "plan_c", "middle", "lowest")
# What is taken from this checkout as it is, beside the tools.
TAKEN = ("prrt", ".gitignore", "packaging", "bindings/python", "examples", "SECURITY.md", "docs")
FOR_C = ("cmake/kimorefo.pc.in", "c/plan.c", "c/heap.c")
HEADER = f"#define KIMOREFO_VERSION {NUMBER} /* {VERSION} */\n"
PROJECT_LINE = f"project(kimorefo VERSION {VERSION} LANGUAGES C)\n"
GATE = "5 passed, 0 failed"
DATE = 1_700_000_000
# `rt` in small: it sets aside what is built, and builds anew what `rt ci` leaves, with a step before and one after.
RT = """#!/bin/sh
echo "rt $*${RT_JOBS:+ by $RT_JOBS}" >> "$CALLS"
case $1 in
    version) echo "$KIT" ;;
    doc) echo "$KIT_FOLDER/START-HERE.md" ;;
    ci)
        rm -rf crates/*/out
        eval "$STEP"
        for name in planner_main plan_watch; do
            mkdir -p crates/$name/out && cp "$PROGRAM" crates/$name/out/$name
        done
        for name in middle lowest; do
            rlib=crates/$name/out/rlib/$name.rlib
            mkdir -p $rlib && cp crates/$name/src/lib.rt $rlib/format
        done
        eval "$STEP_AFTER"
        echo "$GATE"
        exit "$GATE_STATUS"
        ;;
esac
"""
# `rattle build` in small: the library is made of the crate's source and of what lies below it.
RATTLE = """#!/bin/sh
echo "rattle $*" >> "$CALLS"
for word do last=$word; done
cat src/lib.rt ../middle/out/rlib/middle.rlib/format > "$last"
eval "$STEP_OF_LIBRARY"
"""


@dataclass
class Ending:
    """How a call of a tool ended, and which stand-ins it called."""

    status: int
    written: str
    said: str
    calls: list

    @property
    def has_proved(self):
        return any(it.startswith("rt ci") for it in self.calls)


def git(folder, *words):
    """What git says in a folder, as someone whose commits have one date."""
    who = ["-c", "user.name=a", "-c", "user.email=a@b.example"]
    env = os.environ | dict.fromkeys(("GIT_COMMITTER_DATE", "GIT_AUTHOR_DATE"), f"{DATE} +0200")
    given = {"capture_output": True, "text": True, "check": True, "timeout": SECONDS, "env": env}
    return subprocess.run(["git", "-C", folder, *who, *words], **given).stdout.strip()


class Tree:
    """A checkout in a folder, and clones beside it."""

    def __init__(self, folder, program):
        self.folder, self.top, self.made = folder, f"{folder}/first", f"{folder}/made"
        self.calls, kit = f"{folder}/calls", f"{folder}/kit"
        self.env = os.environ | {"PROGRAM": os.path.abspath(program), "CALLS": self.calls}
        self.env |= {"KIT_FOLDER": kit, "KIT": KIT, "GATE": GATE, "GATE_STATUS": "0"}
        self.env["PATH"] = f"{folder}/bin:{path_without('rt')}"
        self.env |= dict.fromkeys(("STEP", "STEP_AFTER", "STEP_OF_LIBRARY"), ":")
        write(f"{folder}/bin/rt", RT, 0o755)
        write(f"{kit}/bin/rattle", RATTLE, 0o755)
        for name in ("clang", "ld.lld"):
            write(f"{kit}/toolchain/bin/{name}", f'#!/bin/sh\necho "{name} 7.8.9"\n', 0o755)
        write(self.calls, "")
        self.fill()
        git(self.top, "init", "--quiet")
        self.commit()

    def file(self, name):
        """The path of a file of the checkout."""
        return f"{self.top}/{name}"

    def fill(self):
        """Writes the files of the checkout."""
        for name in TAKEN:
            if os.path.isdir(f"{TOP}/{name}"):
                shutil.copytree(f"{TOP}/{name}", self.file(name), ignore=shutil.ignore_patterns("__pycache__"))
            else:
                os.makedirs(os.path.dirname(self.file(name)), exist_ok=True)
                shutil.copy2(f"{TOP}/{name}", self.file(name))
        for name in os.listdir(f"{TOP}/tools"):
            if name in ("usage.py", "static_library.py") or name.startswith("release"):
                os.makedirs(self.file("tools"), exist_ok=True)
                shutil.copy2(f"{TOP}/tools/{name}", self.file(f"tools/{name}"))
        for crate in CRATES:
            for name in ("src/lib.rt", "specs/Lib.antt", "proofs/Lib.antt"):
                write(self.file(f"crates/{crate}/{name}"), f"{crate}\n")
        for name in FOR_C:
            write(self.file(f"bindings/{name}"), f"{name}\n")
        for name, text in (("crates.txt", CRATES_TEXT), ("HANDLES", "\n"), ("CHANGELOG.md", CHANGES)):
            write(self.file(name), text)
        write(self.file("bindings/include/kimorefo.h"), HEADER)
        write(self.file("bindings/CMakeLists.txt"), PROJECT_LINE)
        self.change("packaging/kimorefo.1", lambda it: re.sub('"kimorefo [0-9.]*"', f'"kimorefo {VERSION}"', it))
        of_version = f'version = "{VERSION}"'
        self.change("bindings/python/pyproject.toml", lambda it: of_version if it.startswith("version") else it)

    def change(self, name, of_line):
        """Changes each line of a file."""
        with open(self.file(name), encoding="utf-8") as file:
            lines = [of_line(it.rstrip("\n")) for it in file]
        write(self.file(name), "".join(f"{it}\n" for it in lines), os.stat(self.file(name)).st_mode & 0o777)

    def append(self, name, text="more\n"):
        with open(self.file(name), "a", encoding="utf-8") as file:
            file.write(text)

    def commit(self):
        """Commits all that is there."""
        git(self.top, "add", "--all")
        git(self.top, "commit", "--quiet", "--message", "one")

    def clone(self, name):
        """Goes on in a clone of the checkout, of this name."""
        git(self.folder, "clone", "--quiet", self.top, f"{self.folder}/{name}")
        self.top = f"{self.folder}/{name}"

    def run(self, tool, *words, **env):
        """Calls a tool of the checkout. The steps, `GATE` and `KIT` say what the stand-ins do."""
        with open(self.calls, encoding="utf-8") as file:
            before = len(file.read())
        command = [sys.executable, "-B", self.file(f"tools/{tool}"), *words]
        given = {"capture_output": True, "text": True, "stdin": subprocess.DEVNULL, "timeout": SECONDS}
        done = subprocess.run(command, cwd=self.folder, env=self.env | env, check=False, **given)
        with open(self.calls, encoding="utf-8") as file:
            calls = file.read()[before:].splitlines()
        return Ending(done.returncode, done.stdout, done.stderr, calls)

    def pack(self, *words, folder=None, **env):
        """Makes a release, and gives its archive."""
        ending = self.run("release.py", VERSION, folder or self.made, *words, **env)
        expect(f"a release: {ending}", ending.status == 0)
        return f"{folder or self.made}/{folder_name(VERSION)}.tar.gz"

    def refuses(self, why, *words, says_gate=None, **env):
        """A call of release.py that refuses for a reason, and runs the gate first or not."""
        ending = self.run("release.py", *(words or (VERSION, self.made)), **env)
        expect(f"refused because {why}: {ending}", ending.status == 1 and why in ending.said + ending.written)
        is_packing = not words or words[0] == VERSION
        expect("nothing is made", not (is_packing and os.path.exists(f"{self.made}/{SUMS}")))
        if says_gate is not None:
            expect(f"the gate runs {says_gate}: {ending.calls}", ending.has_proved == says_gate)


def read(path):
    with open(path, "rb") as file:
        return file.read()


def repacked(archive, change, has_sums=True):
    """Packs an archive once more with changed files, and gives its new path. Its sums are made anew, or left."""
    folder, files = unpacked(unzipped(read(archive)))
    files = change(files)
    if has_sums:
        files = with_sums({name: it for name, it in files.items() if name != SUMS})
    return written(archive, zipped(tar_of(folder, files, DATE)))


def written(archive, data):
    """A file beside an archive with other bytes."""
    with open(f"{archive}.changed", "wb") as file:
        file.write(data)
    return f"{archive}.changed"


def with_entry(archive, entry):
    """An archive with one entry more."""
    made = io.BytesIO(unzipped(read(archive)))
    with tarfile.open(fileobj=made, mode="a", format=tarfile.USTAR_FORMAT) as tar:
        tar.addfile(entry)
    return written(archive, zipped(made.getvalue()))


def changed(name, of_bytes):
    """What changes the bytes of one file."""
    return lambda files: files | {name: Packed(of_bytes(files[name].data), files[name].mode)}


def one_byte_more(data):
    """The same but for a byte in the middle."""
    at = len(data) // 2
    return data[:at] + bytes([data[at] ^ 1]) + data[at + 1 :]


def sums_say(folder):
    """Whether `sha256sum` finds all as the sums in a folder have it."""
    words = ["sha256sum", "--check", "--strict", "--quiet", SUMS]
    return subprocess.run(words, cwd=folder, capture_output=True, check=False).returncode == 0
