"""A small checkout with the launcher in it, and stand-ins for the commands that show whether it builds."""

import os
import shutil
import subprocess
from dataclasses import dataclass

TOP = os.path.dirname(os.path.dirname(os.path.abspath(__file__)))
# The program is built from the first three crates, that of `watch` from all but the last.
CRATES_TEXT = "planner_main: middle arrayvec\nmiddle: lowest\nlowest:\nplan_watch: upper\nupper: middle\nother: middle\n"
CRATES = ("planner_main", "middle", "lowest", "plan_watch", "upper", "other")
CHANGES = "# Changes\n\n## Unreleased\n\n## 1.2.3 - 2026-11-30\n\n## 1.2.2\n"
KIT = "a-kit logic 0123456789abcdef"
SECONDS = 60
# `rt` in small: in the crate's folder it does the step that is asked for, makes the program, and runs it.
RT = """#!/bin/sh
echo "rt $1" >> "$CALLS"
case $1 in
    version) echo "$KIT" ;;
    all) printf '== lowest\n== middle\n== summary\nlowest: ok\nmiddle: ok\n' ;;
    run)
        shift 2
        eval "$STEP" || exit
        name=${PWD##*/}
        made=$PROGRAM
        [ "$name" = planner_main ] || made=$WATCH
        mkdir -p out && cp "$made" "out/$name.new" && mv "out/$name.new" "out/$name" || exit
        exec "out/$name" "$@"
        ;;
esac
"""
# `sha256sum`, with a step after it. Without one it fails.
SHA256SUM = """#!/bin/sh
echo sums >> "$CALLS"
[ "$STEP_AFTER_SUM" ] || exit
{sha256sum} "$@"
eval "$STEP_AFTER_SUM"
"""


class Wrong(Exception):
    """What a case wants, and did not find."""


def expect(what, is_so):
    if not is_so:
        raise Wrong(what)


@dataclass
class Ending:
    """How a call of the launcher ended: its status, what it wrote and said, and which stand-ins it called."""

    status: int
    written: bytes
    said: str
    calls: tuple

    @property
    def has_built(self):
        return "rt run" in self.calls

    @property
    def has_summed(self):
        return "sums" in self.calls


def write(path, text, mode=0o644):
    """Writes a file, in a folder that is made if need be."""
    os.makedirs(os.path.dirname(path), exist_ok=True)
    with open(path, "w", encoding="utf-8") as file:
        file.write(text)
    os.chmod(path, mode)


def path_without(command):
    """The search path without the folders that have a command of this name."""
    return ":".join(it for it in os.environ["PATH"].split(":") if not os.path.exists(f"{it}/{command}"))


class Tree:
    """A checkout in a folder. Its path has characters that a shell could take for its own."""

    def __init__(self, folder, programs, shell=()):
        self.folder, self.shell = folder, list(shell)
        program, watch = map(os.path.abspath, programs)
        self.top = f"{folder}/a 'tree' of [its] own*"
        self.calls = f"{folder}/calls"
        self.env = os.environ | {"PROGRAM": program, "WATCH": watch, "CALLS": self.calls}
        self.env |= {"KIT": KIT, "STEP": ":", "STEP_AFTER_SUM": ":", "PATH": f"{folder}/bin:{path_without('rt')}"}
        write(f"{folder}/bin/rt", RT, 0o755)
        write(f"{folder}/bin/sha256sum", SHA256SUM.format(sha256sum=shutil.which("sha256sum")), 0o755)
        write(self.file("crates.txt"), CRATES_TEXT)
        write(self.file("CHANGELOG.md"), CHANGES)
        for crate in CRATES:
            for name in ("src/lib.rt", "src/part/more.rt", "specs/Lib.antt", "proofs/Lib.antt"):
                write(self.file(f"crates/{crate}/{name}"), f"{crate}\n")
        shutil.copy2(f"{TOP}/prrt", self.file("prrt"))

    def file(self, name):
        """The path of a file of the checkout."""
        return f"{self.top}/{name}"

    @property
    def program(self):
        return self.file("crates/planner_main/out/planner_main")

    @property
    def watch(self):
        return self.file("crates/plan_watch/out/plan_watch")

    def place_program(self):
        """Puts the program where a build would, and that of `watch`, and no record, as `rt ci` does."""
        for program, name in ((self.program, "PROGRAM"), (self.watch, "WATCH")):
            os.makedirs(os.path.dirname(program), exist_ok=True)
            shutil.copy(self.env[name], program)

    def command(self, *words):
        """The command that calls the launcher."""
        return [*self.shell, self.file("prrt"), *words]

    def calls_since(self, before):
        """Which stand-ins were called, without the first so many calls."""
        if not os.path.exists(self.calls):
            return ()
        with open(self.calls, encoding="utf-8") as file:
            return tuple(file.read().splitlines()[before:])

    def call(self, *words, text=b"", **env):
        """Calls the launcher on a text. `STEP`, `STEP_AFTER_SUM` and `KIT` say what the stand-ins do."""
        before = len(self.calls_since(0))
        given = {"input": text, "capture_output": True, "cwd": self.folder, "env": self.env | env}
        done = subprocess.run(self.command(*words), timeout=SECONDS, check=False, **given)
        return Ending(done.returncode, done.stdout, done.stderr.decode(errors="replace"), self.calls_since(before))

    def stays_unbuilt(self):
        """Nothing was built or made."""
        expect("nothing is built", not self.calls_since(0) and not os.path.exists(os.path.dirname(self.program)))
