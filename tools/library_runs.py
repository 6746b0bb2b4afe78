"""Runs library_calls.c over a static library: the answer of one call, and what was wrong with it."""

import os
import re
import subprocess
import tempfile
from dataclasses import dataclass
from pathlib import Path

HERE = Path(__file__).resolve().parent
BINDINGS = HERE.parent / "bindings"
WARNINGS = ["-Wall", "-Wextra", "-Wpedantic", "-Werror"]
SANITIZERS = ["-fsanitize=address,undefined", "-fno-sanitize-recover=all"]
# The library is no code of cc, so it is not looked into: what it reads after a free, and of a new block, is other bytes.
FILLS = "max_malloc_fill_size=1073741824:malloc_fill_byte=165:max_free_fill_size=1073741824:free_fill_byte=90"
COUNTED = ["-Dmalloc=counted_malloc", "-Drealloc=counted_realloc", "-Dfree=counted_free"]
SAID = re.compile(rb"status (\d+) count (\d+) line (\d+) kind (\d+) law (\d+) allocations (\d+) stack (\d+)\n")
SECONDS = 1200


@dataclass(frozen=True)
class Answer:
    """What a call answers: its status and numbers, and the bytes in the room."""

    status: int
    count: int = 0
    line: int = 0
    kind: int = 0
    law: int = 0
    text: bytes = b""


@dataclass(frozen=True)
class Case:
    """A call with what is handed in, and what it is to answer. Bytes, so many zero bytes, or None for NULL are handed in."""

    name: str
    call: str
    wanted: Answer
    text: bytes | int | None = None
    report: bytes | int | None = None
    room: int | None = None
    fails: bool = False  # whether each allocation is to fail in turn

    def title(self):
        """The case in a line."""
        return f"{self.call}, {self.name}, a room of {self.room} bytes"


def run(*words, **others):
    """Runs words that have to succeed, and gives what they print."""
    done = subprocess.run([*map(str, words)], capture_output=True, check=False, **others)
    if done.returncode:
        raise SystemExit(f"{' '.join(map(str, words))}\nended with {done.returncode}: {done.stdout.decode()}{done.stderr.decode()}")
    return done.stdout.decode()


def built(output, sources, *words, compiler="cc"):
    """A program or an object that is compiled of sources."""
    run(compiler, "-g", *WARNINGS, f"-I{BINDINGS}/include", *words, "-o", output, *sources)
    return output


def driver(folder, *words):
    """The objects of library_calls.c, and of the heap with allocations that are counted."""
    calls, heap = folder / f"calls{''.join(words)}.o", folder / f"heap{''.join(words)}.o"
    built(calls, [HERE / "library_calls.c"], "-c", *words)
    return calls, built(heap, [BINDINGS / "c" / "kimorefo_heap.c"], "-c", *words, *COUNTED)


class Caller:
    """The objects of a driver over a library, with words for the linker: sanitizers, or what stands before the library."""

    def __init__(self, program, objects, archive, *words):
        self.program = program
        self.most_stack = self.allocations = 0
        run("cc", "-o", program, *objects, *words, archive, "-lpthread", "-Wl,-z,noexecstack")

    def word_of(self, given, file):
        """The word that names what is handed in."""
        if given is None:
            return "null"
        if isinstance(given, int):
            return str(given)
        file.write(given)
        file.flush()
        return file.name

    def fault_of(self, case):
        """What is wrong with a call, or None."""
        env = {**os.environ, "ASAN_OPTIONS": FILLS, "ALLOCATIONS": "1"}
        if not case.fails:
            del env["ALLOCATIONS"]
        with tempfile.NamedTemporaryFile() as text, tempfile.NamedTemporaryFile() as report:
            words = [self.word_of(case.text, text), self.word_of(case.report, report), self.word_of(case.room, None)]
            command = [self.program, case.call, *words]
            done = subprocess.run(command, capture_output=True, check=False, env=env, timeout=SECONDS)
        said = SAID.match(done.stdout)
        if done.returncode or not said:
            return f"{case.title()}: ended with {done.returncode}, {said_of(done)}"
        *numbers, allocations, stack = map(int, said.groups())
        self.most_stack, self.allocations = max(stack, self.most_stack), self.allocations + allocations
        answer = Answer(*numbers, done.stdout[said.end() :])
        return None if answer == case.wanted else f"{case.title()}: {short(answer)} in place of {short(case.wanted)}"


def said_of(done):
    """The line that tells most of a run that was wrong."""
    lines = (done.stdout + done.stderr).decode(errors="replace").splitlines()
    return next((line for line in lines if "wrong" in line or "ERROR" in line), lines[0] if lines else "nothing")


def short(answer):
    """An answer, without most of its bytes."""
    return f"{answer.status} {answer.count} {answer.line} {answer.kind} {answer.law} {answer.text[:40]!r}"
