"""What the launcher answers to options, what it says of refused words, and how it ends if it cannot write."""

import os
import shutil
import subprocess

from launcher_tree import KIT, SECONDS, expect
from statuses import NO_PATH

REFUSED = (2, b"words refused\n")
WRITE_FAULT = 6
HELP = (("--help",), ("-h",), ("--help", "plan"), ("plan", "--help"), ("plan", "99", "-h"), ("-h", "--version"))
VERSION = (("--version",), ("--version", "plan"), ("plan", "--version", "--help"))
UNKNOWN = ((), ("plot",), ("",))
READS = "and a scene is read from standard input: ./prrt"
# What the launcher says of words where `scene` and `a.scene` are files, and `4` and `plan` too.
FAULTS = {
    ("plan",): "`plan` takes a number of workers from 1 to 64, and perhaps `full`",
    ("plan", "99"): "`plan` takes a number of workers from 1 to 64, and perhaps `full`",
    ("plan", "04"): "`plan` takes a number of workers from 1 to 64, and perhaps `full`",
    ("plain", "short"): "`plain` takes at most the word `full`",
    ("watch", "4", "0"): "`watch` takes a number of workers from 1 to 64, and perhaps a number of marks from 1 to 262143",
    ("watch", "scene"): f"`scene` is a file, {READS} watch 4 < scene",
    ("watch", "scene", "4", "9"): f"`scene` is a file, {READS} watch 4 9 < scene",
    ("anytime", "4"): "`anytime` takes a number of workers from 1 to 64 and a number of marks from 1 to 262143",
    ("gen", "scene"): "`gen` takes the number of a generated scene, from 0 to 9999, and nothing else",
    ("plan", "4", "scene"): f"`scene` is a file, {READS} plan 4 < scene",
    ("plan", "a.scene"): f"`a.scene` is a file, {READS} plan 4 < a.scene",
    ("batch", "a.scene", "4", "9"): f"`a.scene` is a file, {READS} batch 4 9 < a.scene",
    ("anytime", "scene"): f"`scene` is a file, {READS} anytime 4 100 < scene",
    ("check", "scene"): f"`scene` is a file, {READS} check < scene",
    ("scene",): f"`scene` is a file, {READS} plan 4 < scene",
    ("plan\n",): "the first word is not a command",
    ("plot",): "`plot` is not a command",
}


def helps(tree):
    usage = tree.call("--help")
    expect("writes the usage", usage.status == 0 and usage.written.startswith(b"Usage: ./prrt ") and not usage.said)
    for words in HELP:
        ending = tree.call(*words)
        expect(f"{words}: {ending}", (ending.status, ending.written, ending.said) == (0, usage.written, ""))
    for words in UNKNOWN:
        expect(f"shows the usage for {words}", tree.call(*words).said.endswith(usage.written.decode()))
    tree.stays_unbuilt()


def says_what_is_wrong(tree):
    for name in ("scene", "a.scene", "4", "plan"):
        with open(f"{tree.folder}/{name}", "wb"):
            pass
    for words, fault in FAULTS.items():
        ending = tree.call(*words)
        expect(f"{words}: {ending}", (ending.status, ending.written) == REFUSED)
        expect(f"{words}: {ending}", ending.said.startswith(f"prrt: {fault}\n"))
    tree.stays_unbuilt()


def tells_its_version(tree):
    for words in VERSION:
        ending = tree.call(*words)
        told = (ending.status, ending.written, ending.said)
        expect(f"{words}: {ending}", told == (0, b"kimorefo 1.2.3\nnot built\n", ""))
    tree.stays_unbuilt()
    tree.place_program()
    expect("unknown", b"\nbuilt without ./prrt, " in tree.call("--version").written)
    os.remove(tree.program)
    tree.call("plain", text=NO_PATH)
    expect("proved", tree.call("--version").written == f"kimorefo 1.2.3\nproved with {KIT}\n".encode())
    with open(tree.file("crates.txt"), "a", encoding="utf-8") as file:
        file.write("\n")
    expect("of other sources", b"\nnot known to be built from these sources" in tree.call("--version").written)
    os.remove(tree.file("CHANGELOG.md"))
    expect("no version", tree.call("--version").written.startswith(b"kimorefo without a version\n"))


def git(folder, *words):
    """What git says in a folder."""
    who = ["-c", "user.name=a", "-c", "user.email=a@b.example"]
    given = {"capture_output": True, "text": True, "check": True, "timeout": SECONDS}
    return subprocess.run(["git", "-C", folder, *who, *words], **given).stdout.strip()


def commit(folder):
    """Makes a repository of a folder, and gives the first digits of its one commit."""
    git(folder, "init", "--quiet")
    git(folder, "add", "--all")
    git(folder, "commit", "--quiet", "--message", "one")
    return git(folder, "rev-parse", "--short=8", "HEAD")


def tells_its_commit(tree):
    if not shutil.which("git"):
        print("there is no git, so that no commit is looked at")
        return
    commit(tree.folder)
    expect("not that of a repository above", b"commit" not in tree.call("--version").written)
    line = f"\ncommit {commit(tree.top)}".encode()
    expect("the commit", line + b"\n" in tree.call("--version").written)
    with open(tree.file("crates.txt"), "a", encoding="utf-8") as file:
        file.write("\n")
    expect("modified", line + b" (modified)\n" in tree.call("--version").written)


def without_stream(number, command):
    """The command with a stream closed."""
    return ["sh", "-c", f'exec "$@" {number}>&-', "sh", *command]


def statuses_by_stream(command, **given):
    """How a command ends on a full device, on a pipe that nobody reads, and on a closed stream."""
    given |= {"stdin": subprocess.DEVNULL, "stderr": subprocess.DEVNULL, "timeout": SECONDS, "check": False}
    reader, writer = os.pipe()
    os.close(reader)
    full = os.open("/dev/full", os.O_WRONLY)
    broken = [subprocess.run(command, stdout=stream, **given).returncode for stream in (full, writer)]
    os.close(full)
    os.close(writer)
    return [*broken, subprocess.run(without_stream(1, command), **given).returncode]


def ends_on_broken_streams(tree):
    by_program = statuses_by_stream([tree.env["PROGRAM"], "plot"])
    expect(f"the program: {by_program}", by_program == [WRITE_FAULT] * 3)
    for words in (*UNKNOWN, ("plan", "99"), ("--help",), ("--version",)):
        found = statuses_by_stream(tree.command(*words), cwd=tree.folder, env=tree.env)
        expect(f"{words}: {found}", found == by_program)
    for words in (*UNKNOWN, ("plan", "99")):
        command = without_stream(2, tree.command(*words))
        done = subprocess.run(command, capture_output=True, env=tree.env, timeout=SECONDS, check=False)
        expect(f"{words} with standard error closed: {done}", (done.returncode, done.stdout) == REFUSED)
    tree.stays_unbuilt()


CASES = {
    "the usage": helps,
    "what is wrong with words": says_what_is_wrong,
    "the version": tells_its_version,
    "the commit": tells_its_commit,
    "broken streams": ends_on_broken_streams,
}
