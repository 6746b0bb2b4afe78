#!/usr/bin/env python3
"""Runs a built program with a fault in each run, and prints a table of how the runs ended.

Usage: faults.py PROGRAM WATCH [WORDS..]. WATCH is the program of `watch`. The words are those of a command that reads a scene; without
them it is `plan 2`, `plan 2 full`, `smooth 1`, `anytime 1 1`, `watch 1 1`, `twin 1`, `batch 1 1`, `check` and, for memory and threads
alone, `plan 64 full`. Two scenes are read: the one
of docs/report-format.md that is rewired, and examples/pillars.scene with few marks; by `check` each with its report of one worker. One
call in a run fails, or that call and all later ones of its kind: an allocation, a read, a write, or the making of a thread; each call
in turn, until there is none of that number. Then reads and writes move one byte each, and each of them fails in turn. At last the
streams are broken from the first: closed, a folder to read from, a full device, a pipe that nobody reads.

A report is held to judge.py, a short one as far as it shows; of a command without workers, of `smooth 1`,
`anytime 1 1`, `watch 1 1`, `twin 1`, `batch 1 1` and `check`, it is the one without a fault. A run with a fault is right if

- a refused allocation gives `no memory` with 7 and nothing before it but whole blocks of `watch`, or nothing at all with 7 if nothing was read (there was no
  memory for the words of the command line), or a whole report: it did without, as without a thread;
- a failed read gives `read fault` with 5;
- a failed write gives 6; what was written and what that write was handed are together a whole report, or whole blocks of `watch`;
- a refused thread, and moving one byte at a time, give a whole report.

It ends with 1 if a run was not. It needs `cc`, for `faults.c`, and the GNU C library.
"""

import collections
import dataclasses
import os
import subprocess
import sys
import tempfile

from judge import verdict
from kimorefo.scene_text import read
from usage import words_or_usage

HERE = os.path.dirname(os.path.abspath(__file__))
REWIRED = b"""prrt 1
room 100 100
start 0 0
goal 40 79 40 79
step 50
gamma 1000
mark 0 50
mark 40 79
mark 40 30
"""
FEW_MARKS = 20
EVER = (1 << 31) - 1
NO_MEMORY = b"no memory\n"
ENDS = ("whole", "no memory", "no words", "read fault", "cut", "wrong")


@dataclasses.dataclass
class Fault:
    """A kind of call that fails, whether all later ones fail too, and how many bytes a read or a write moves at most."""

    kind: str
    for_ever: bool = False
    most_bytes: int = 0

    def __str__(self):
        later = ", and all later" if self.for_ever else ""
        return f"{self.kind}{later}" + (f", by {self.most_bytes}" if self.most_bytes else "")


FAULTS = [Fault(kind, for_ever) for kind in ("alloc", "read", "write", "thread") for for_ever in (False, True)]
FAULTS += [Fault("none", most_bytes=1), Fault("read", most_bytes=1), Fault("write", most_bytes=1)]
# More workers take more memory and threads; they read and write as two do.
FAULTS_OF_MANY = [fault for fault in FAULTS if fault.kind in ("alloc", "thread")]
COMMANDS = [
    (["plan", "2"], FAULTS),
    (["plan", "2", "full"], FAULTS),
    (["plan", "64", "full"], FAULTS_OF_MANY),
    (["smooth", "1"], FAULTS),
    (["anytime", "1", "1"], FAULTS),
    (["watch", "1", "1"], FAULTS),
    (["twin", "1"], FAULTS),
    (["batch", "1", "1"], FAULTS),
    (["check"], FAULTS),
]


@dataclasses.dataclass
class Ending:
    """How a run ended: also how many bytes it had read, whether the fault was made, and what a failed write was handed."""

    status: int
    output: bytes
    bytes_read: int
    was_made: bool
    handed: bytes


class Faults:
    """A command on a scene, whose calls are made to fail."""

    def __init__(self, library, programs, words, text):
        program, watch = programs
        self.library, self.words = library, words
        self.command = [watch, *words[1:]] if words[0] == "watch" else [program, *words]
        self.text = with_report(program, text) if words[0] == "check" else text
        self.scene = read(text)
        whole = self.run(Fault("none"), 0)
        self.report = None if words[0] == "plan" else (whole.status, whole.output)
        self.starts = starts_of(whole.output) if words[0] == "watch" else {b""}
        self.is_sound = self.is_whole(whole.status, whole.output)

    def run(self, fault, number):
        """Runs the command with this fault at the call of this number."""
        with tempfile.TemporaryFile() as told, tempfile.TemporaryFile() as given:
            given.write(self.text)
            given.seek(0)
            wanted = {
                "LD_PRELOAD": self.library,
                "FAULT": fault.kind,
                "FAULT_FIRST": number,
                "FAULT_LAST": EVER if fault.for_ever else number,
                "FAULT_BYTES": fault.most_bytes,
                "FAULT_TOLD": told.fileno(),
            }
            env = os.environ | {name: str(value) for name, value in wanted.items()}
            done = subprocess.run(
                self.command, stdin=given, capture_output=True, env=env, pass_fds=[told.fileno()], check=False, timeout=600
            )
            bytes_read = os.lseek(given.fileno(), 0, os.SEEK_CUR)
            told.seek(0)
            said = told.read()
        return Ending(done.returncode, done.stdout, bytes_read, said[:1] == b"x", said[1:])

    def is_whole(self, status, output):
        """Whether it is a whole report, and the status its own. A status of None fits each."""
        if self.report:
            return status in (None, self.report[0]) and output == self.report[1]
        if status not in (None, 1 if output.startswith(b"no path\n") else 0):
            return False
        return verdict(self.scene, output.decode(errors="replace"), self.words[-1] == "full") == "lawful"

    def end_of(self, fault, ending):
        """Which of `ENDS` a run with this fault has come to."""
        status, output = ending.status, ending.output
        if fault.kind == "alloc":
            if status == 7 and output.endswith(NO_MEMORY) and output.removesuffix(NO_MEMORY) in self.starts:
                return "no memory"
            if status == 7 and not output and ending.bytes_read == 0:
                return "no words"
        if fault.kind == "read":
            return "read fault" if (status, output) == (5, b"read fault\n") else "wrong"
        if fault.kind == "write":
            all_of_it = output + ending.handed
            is_cut = status == 6 and ending.handed and (all_of_it in self.starts or self.is_whole(None, all_of_it))
            return "cut" if is_cut else "wrong"
        return "whole" if self.is_whole(status, output) else "wrong"

    def count(self, fault):
        """How many runs came to each end: one for each call, until there is none of that number."""
        counts = collections.Counter()
        number = 1
        while True:
            ending = self.run(fault, number)
            if not ending.was_made and fault.kind != "none":
                return counts
            end = self.end_of(fault, ending)
            counts[end] += 1
            if end == "wrong":
                print(f"{fault}, call {number}: status {ending.status}, {ending.output[:80]!r}")
            if fault.kind == "none":
                return counts
            number += 1


def broken_streams(command, text):
    """Runs the command over streams that are broken from the first: what they are, and whether it ended as it should."""
    reader, unread = os.pipe()
    os.close(reader)
    folder, full = os.open("/", os.O_RDONLY), os.open("/dev/full", os.O_WRONLY)
    captured = {"stdout": subprocess.PIPE}
    given = {"input": text}
    streams = {
        "input closed": captured | {"preexec_fn": lambda: os.close(0)},
        "input a folder": captured | {"stdin": folder},
        "output closed": given | {"preexec_fn": lambda: os.close(1)},
        "output full": given | {"stdout": full},
        "output unread": given | {"stdout": unread},
    }
    for what, handed in streams.items():
        done = subprocess.run(command, check=False, timeout=600, **handed)
        end = "read fault" if what.startswith("input") else "cut"
        wanted = (5, b"read fault\n") if end == "read fault" else (6, None)
        yield what, end if (done.returncode, done.stdout) == wanted else "wrong", done.returncode
    for stream in (unread, folder, full):
        os.close(stream)


def compiled(folder):
    """The library of `faults.c`, made in a folder."""
    library = os.path.join(folder, "faults.so")
    subprocess.run(["cc", "-O1", "-shared", "-fPIC", "-o", library, os.path.join(HERE, "faults.c"), "-ldl"], check=True)
    return library


def scenes():
    """The texts that are read, by name."""
    with open(os.path.join(HERE, "..", "examples", "pillars.scene"), "rb") as file:
        pillars = read(file.read())
    pillars.drawn = FEW_MARKS
    return {"rewired": REWIRED, "pillars": pillars.text().encode()}


def starts_of(output):
    """What the blocks of an output come to, one after another: none of them, the first, and so on."""
    blocks = output.split(b"\n\n")[:-1]
    return {b"".join(block + b"\n\n" for block in blocks[:count]) for count in range(len(blocks) + 1)}


def with_report(program, text):
    """The text of a scene with its report of one worker after it."""
    done = subprocess.run([program, "plan", "1", "full"], input=text, capture_output=True, check=False, timeout=600)
    return text + b"report\n" + done.stdout


def line(name, command, what, counts):
    """A line of the table."""
    ends = " ".join(f"{counts[end]:10}" for end in ENDS)
    return f"{name:8} {' '.join(command):13} {what:22} {counts.total():5} {ends}"


def check(faults, name, words, kinds):
    """Prints a line for each kind of fault, and gives how many runs were wrong."""
    wrong = 0
    if not faults.is_sound:
        print(f"{name}, {' '.join(words)}: no report without a fault")
        wrong += 1
    for fault in kinds:
        counts = faults.count(fault)
        wrong += counts["wrong"]
        print(line(name, words, str(fault), counts), flush=True)
    for what, end, status in broken_streams(faults.command, faults.text):
        wrong += end == "wrong"
        print(line(name, words, what, collections.Counter([end])) + (f"  status {status}" if end == "wrong" else ""))
    return wrong


def main(program, watch, *words):
    """Prints a line for each scene, command and fault, and gives the exit status."""
    print(f"{'scene':8} {'command':13} {'fault':22} {'runs':>5} " + " ".join(f"{end:>10}" for end in ENDS))
    wrong = 0
    with tempfile.TemporaryDirectory() as folder:
        library = compiled(folder)
        for name, text in scenes().items():
            for command, kinds in [(list(words), FAULTS)] if words else COMMANDS:
                wrong += check(Faults(library, (program, watch), command, text), name, command, kinds)
    print(f"{wrong} wrong")
    return 1 if wrong else 0


if __name__ == "__main__":
    sys.exit(main(*words_or_usage(__doc__)))
