#!/usr/bin/env python3
"""Ends a built program of `watch` in the middle, in each way that a user or a system does, and looks what it has written by then.

Usage: watch.py PROGRAM WATCH. WATCH is the program of `watch`; PROGRAM makes the scene: generated scene 9 with the most marks there
may be. `watch 1 1000` on it is ended after two seconds by SIGINT, which is not ignored, and by SIGTERM; by a reader that takes 50 lines
and closes the pipe; by a limit of the file, and by a full device. On a terminal it also writes its status line, and is ended by the
terminal's own interrupt.

What was written is to be whole blocks and at most one begun: costs fall and marks rise by whole slices, and each whole block's path is
clear by geometry.py, leads from the start into a goal by edges no longer than the step, and costs what the block says. It prints
a line for each way, and ends with 1 if one was wrong. It needs Linux.
"""

import os
import pty
import re
import resource
import signal
import subprocess
import sys
import tempfile
import time

from kimorefo.geometry import Space, squared_distance
from kimorefo.reports import BETTER, PATH, POINT
from kimorefo.scene_text import read
from rules import cost
from usage import words_or_usage

MOST_MARKS = 262_143
SLICE = 1_000
LINES = 50
SECONDS = 2
LONG = 60
CUT = 6
# A part of a block is longer than this limit of a file at the latest in the second block.
FILE_LIMIT = 1_500
BEGUN = re.compile(rb"[a-z0-9 \n]*")
SHOWN = re.compile(rb"\r\x1b\[K[0-9]+ of 262143 marks, (?:best [0-9]+ steps|no path), [0-9]+ s, [0-9]+ marks a second")
FOUND = re.compile(rb"best [0-9]+ steps, ")
TAKEN_AWAY = re.compile(rb"\r\x1b\[K")


class Wrong(Exception):
    """What is wrong with what was written."""


def expect(what, is_so):
    if not is_so:
        raise Wrong(what)


def numbers(form, line):
    """The numbers of a line of this form."""
    found = form.fullmatch(line)
    expect(f"a line of another form: {line[:40]!r}", found)
    return tuple(map(int, found.groups()))


def check_path(scene, space, points, length):
    """The path is one of the scene, and costs what is said."""
    edges = list(zip(points, points[1:]))
    expect("from the start", points[0] == scene.start)
    expect("into a goal", any(x0 <= points[-1][0] <= x1 and y0 <= points[-1][1] <= y1 for x0, y0, x1, y1 in scene.goals))
    expect("clear", space.is_clear(points[0], points[0]) and all(space.is_clear(a, b) for a, b in edges))
    expect("by steps", all(squared_distance(a, b) <= scene.step**2 for a, b in edges))
    expect("costs what it says", length == sum(cost(a, b) for a, b in edges))


def check_block(scene, space, block):
    """A whole block, without its empty line: what its path costs, and after how many marks it came."""
    first, head, *rest = block.split("\n")
    length, marks = numbers(BETTER, first)
    count, again = numbers(PATH, head)
    points = [numbers(POINT, line) for line in rest]
    expect("two heads that agree", (count, again) == (len(points), length))
    check_path(scene, space, points, length)
    return length, marks


def check_blocks(scene, written, least):
    """All whole blocks, at least so many, and whether one more is begun; says what the last one is."""
    *blocks, begun = written.split(b"\n\n")
    expect(f"{least} whole blocks at least, not {len(blocks)}", len(blocks) >= least)
    expect(f"a block begun: {begun[:40]!r}", BEGUN.fullmatch(begun) and b"better 0".startswith(begun[:7]))
    space = Space(scene)
    items = [check_block(scene, space, block.decode()) for block in blocks]
    expect("costs fall, marks rise", all(a[0] > b[0] and a[1] < b[1] for a, b in zip(items, items[1:])))
    expect("whole slices", all(marks % SLICE == 0 for _, marks in items))
    last = f", the last of cost {items[-1][0]} after {items[-1][1]} marks" if items else ""
    return f"{len(blocks)} blocks{last}" + (f", {len(begun)} bytes of one more" if begun else "")


def started(command, text, **given):
    """The command on the text, with the usual answer to an interrupt, which a shell has its background jobs ignore."""
    given |= {"stderr": subprocess.PIPE, "preexec_fn": lambda: signal.signal(signal.SIGINT, signal.SIG_DFL)}
    with tempfile.TemporaryFile() as source:
        source.write(text)
        source.seek(0)
        return subprocess.Popen(command, stdin=source, **given)


def by_signal(number):
    def ended(command, scene, text):
        """After two seconds, and on a slow machine after the first block."""
        with tempfile.TemporaryFile() as taken:
            with started(command, text, stdout=taken) as running:
                begun = time.monotonic()
                while time.monotonic() < begun + SECONDS or b"\n\n" not in os.pread(taken.fileno(), 1 << 16, 0):
                    expect("a block", time.monotonic() < begun + LONG)
                    time.sleep(0.01)
                running.send_signal(number)
                _, said = running.communicate(timeout=LONG)
            taken.seek(0)
            written = taken.read()
        expect(f"status {running.returncode}", running.returncode == -number)
        expect(f"nothing said: {said!r}", not said)
        return check_blocks(scene, written, 1)

    return ended


def by_reader(command, scene, text):
    """The reader is `head`, which gets each piece as it comes, and then the pipe is closed: the next block cannot be written."""
    written = b""
    with started(command, text, stdout=subprocess.PIPE) as running:
        with subprocess.Popen(["head", f"-{LINES}"], stdin=subprocess.PIPE, stdout=subprocess.PIPE) as reader:
            while written.count(b"\n") < LINES:
                piece = os.read(running.stdout.fileno(), 1 << 16)
                expect("more is written", piece)
                written += piece
                os.write(reader.stdin.fileno(), piece)
            taken, _ = reader.communicate(timeout=LONG)
        running.stdout.close()
        status = running.wait(timeout=LONG)
    expect(f"status {status}", status == CUT)
    expect("so many lines", taken.count(b"\n") == LINES and written.startswith(taken))
    return check_blocks(scene, written, 1)


def by_file_limit(command, scene, text):
    """The file takes so many bytes, and the signal that tells so is ignored."""

    def limit():
        resource.setrlimit(resource.RLIMIT_FSIZE, (FILE_LIMIT, FILE_LIMIT))
        signal.signal(signal.SIGXFSZ, signal.SIG_IGN)

    with tempfile.TemporaryFile() as taken:
        given = {"input": text, "stdout": taken, "stderr": subprocess.DEVNULL, "preexec_fn": limit, "timeout": LONG, "check": False}
        status = subprocess.run(command, **given).returncode
        taken.seek(0)
        written = taken.read()
    expect(f"status {status}", status == CUT)
    expect(f"{len(written)} bytes", len(written) == FILE_LIMIT)
    return check_blocks(scene, written, 1)


def by_full_device(command, _scene, text):
    with open("/dev/full", "wb") as device:
        given = {"input": text, "stdout": device, "stderr": subprocess.DEVNULL, "timeout": LONG, "check": False}
        begun = time.monotonic()
        status = subprocess.run(command, **given).returncode
    expect(f"status {status}", status == CUT)
    return f"at the first block, after {time.monotonic() - begun:.1f} s"


def read_terminal(terminal, until=None):
    """What comes from a terminal until it has this, or is closed."""
    os.set_blocking(terminal, False)
    limit, came = time.monotonic() + LONG, b""
    while time.monotonic() < limit and not (until and until.search(came)):
        try:
            piece = os.read(terminal, 1 << 16)
        except BlockingIOError:
            time.sleep(0.01)
            continue
        except OSError:
            break
        if not piece:
            break
        came += piece
    return came


def on_terminal(command, scene, text):
    """Output and status line on one terminal. The line is taken away before a block, so that without it the blocks are left."""
    with tempfile.NamedTemporaryFile() as source:
        source.write(text)
        source.flush()
        child, terminal = pty.fork()
        if child == 0:
            signal.signal(signal.SIGINT, signal.SIG_DFL)
            os.dup2(os.open(source.name, os.O_RDONLY), 0)
            os.execv(command[0], command)
        came = read_terminal(terminal, FOUND)
        os.write(terminal, b"\x03")
        came += read_terminal(terminal)
        status = os.waitstatus_to_exitcode(os.waitpid(child, 0)[1])
        os.close(terminal)
    expect(f"status {status}", status == -signal.SIGINT)
    shown = SHOWN.findall(came)
    expect("a status line", shown)
    written = TAKEN_AWAY.sub(b"", SHOWN.sub(b"", came)).replace(b"\r\n", b"\n").removesuffix(b"^C")
    return f"{check_blocks(scene, written, 1)}, status line written {len(shown)} times"


WAYS = {
    "SIGINT": by_signal(signal.SIGINT),
    "SIGTERM": by_signal(signal.SIGTERM),
    f"head -{LINES}": by_reader,
    "a limit of the file": by_file_limit,
    "a full device": by_full_device,
    "a terminal": on_terminal,
}


def greatest(program):
    """Generated scene 9 with the most marks there may be."""
    made = subprocess.run([program, "gen", "9"], stdin=subprocess.DEVNULL, capture_output=True, check=True, timeout=LONG).stdout
    scene = read(made)
    scene.drawn = MOST_MARKS
    return scene


def main(program, watch):
    scene = greatest(program)
    text = scene.text().encode()
    wrong = 0
    for name, ended in WAYS.items():
        try:
            print(f"{name}: right, {ended([watch, '1', str(SLICE)], scene, text)}", flush=True)
        except (Wrong, subprocess.TimeoutExpired) as fault:
            wrong += 1
            print(f"{name}: wrong, not so: {fault}", flush=True)
    print(f"{wrong} of {len(WAYS)} wrong")
    return 1 if wrong else 0


if __name__ == "__main__":
    sys.exit(main(*words_or_usage(__doc__)))
