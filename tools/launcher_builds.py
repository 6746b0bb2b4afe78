"""When the launcher builds, and when it takes the program that is there."""

import os
import shlex
import shutil
import signal
import subprocess
import time

from launcher_tree import KIT, SECONDS, expect, path_without, write
from statuses import FOUND, PATH, WATCHED

SOURCE = "crates/lowest/src/part/more.rt"
NOTHING_BUILT = 70
LATER_KIT = "later-kit logic fedcba9876543210"
# More than the clock of files needs to tell two changes apart.
MOMENT = 0.05
LONG_AGO = 1_000_000_000


def planned(tree, builds, **given):
    """How a call ended that is to plan, and to build first or not."""
    ending = tree.call("plain", text=FOUND, **given)
    expect(f"planned: ended with {ending.status}, said {ending.said!r}", (ending.status, ending.written) == (0, PATH))
    expect("built before" if builds else "built nothing", ending.has_built == builds)
    return ending


def not_built(tree, **given):
    """How a call ended whose build is to fail."""
    ending = tree.call("plain", text=FOUND, **given)
    expect(f"no build: ended with {ending.status}", (ending.status, ending.written) == (NOTHING_BUILT, b""))
    expect("says so", ending.said.startswith("prrt: "))
    return ending


def append(tree, name, text="changed\n"):
    with open(tree.file(name), "a", encoding="utf-8") as file:
        file.write(text)


def sources(tree):
    """All files and folders below crates/ but those of out/."""
    for folder, folders, files in os.walk(tree.file("crates")):
        folders[:] = [it for it in folders if it != "out"]
        yield from (f"{folder}/{it}" for it in [*folders, *files])


def first_and_second_call(tree):
    expect("one build", planned(tree, True).calls.count("rt run") == 1)
    second = planned(tree, False)
    expect("no checksum, nothing said", (second.calls, second.said) == ((), ""))


def has_room_for_two():
    """Whether two crates can be proved side by side here: each needs 4 GB of free memory."""
    with open("/proc/meminfo", encoding="utf-8") as file:
        free = next(int(line.split()[1]) for line in file if line.startswith("MemAvailable:"))
    return free >= 2 << 22


def side_by_side(tree):
    """A first build proves crates side by side, if there is room, and a later one what has changed alone."""
    os.makedirs(tree.file("crates/plan_words"))
    ways = {"rt lib", "rt all"}
    first = planned(tree, True, STEP="sleep 3")
    expect("side by side", ways & set(first.calls) == (ways if has_room_for_two() else set()))
    expect("the last crate that is proved", ("prrt: middle, at most 1 more crates" in first.said) == has_room_for_two())
    os.makedirs(tree.file("crates/planner/out/rlib"))
    append(tree, SOURCE)
    expect("one by one", not ways & set(planned(tree, True).calls))


def newer_dates(tree):
    planned(tree, True)
    for path in sources(tree):
        os.utime(path)
    expect("checksums decide", planned(tree, False).has_summed)
    expect("once", not planned(tree, False).has_summed)


def copy_of(tree, name, copy_function):
    """Has the tree go on in a copy of its checkout."""
    other = f"{tree.folder}/{name}"
    shutil.copytree(tree.top, other, copy_function=copy_function)
    tree.top = other


def copies(tree):
    planned(tree, True)
    for name, copy_function in (("dates of now", shutil.copy), ("the same dates", shutil.copy2)):
        copy_of(tree, name, copy_function)
        planned(tree, False)
        expect("fast from then on", not planned(tree, False).has_summed)


def copied_out_alone(tree):
    planned(tree, True)
    built = tree.file("crates/planner_main/out")
    kept = f"{tree.folder}/kept"
    os.rename(built, kept)
    copy_of(tree, "clone", shutil.copy)
    shutil.copytree(kept, tree.file("crates/planner_main/out"))
    planned(tree, False)


def moved(tree):
    planned(tree, True)
    other = f"{tree.folder}/moved"
    os.rename(tree.top, other)
    tree.top = other
    planned(tree, False)


def changed_source_in_copy(tree):
    planned(tree, True)
    append(tree, SOURCE)
    copy_of(tree, "copy", shutil.copy)
    # the program is now the newest file
    os.utime(tree.program)
    os.utime(tree.file("crates/planner_main/out/built_from"))
    planned(tree, True)
    planned(tree, False)


def changed_sources(tree):
    planned(tree, True)
    for name in ("crates/planner_main/src/lib.rt", SOURCE, "crates/middle/specs/Lib.antt", "crates.txt"):
        append(tree, name, "\n")
        planned(tree, True)
        planned(tree, False)


def set_back_date(tree):
    planned(tree, True)
    append(tree, SOURCE)
    for path in sources(tree):
        os.utime(path, (LONG_AGO, LONG_AGO))
    planned(tree, True)


def added_and_removed_files(tree):
    planned(tree, True)
    write(tree.file("crates/middle/src/part/added.rt"), "added\n")
    planned(tree, True)
    os.remove(tree.file("crates/lowest/specs/Lib.antt"))
    planned(tree, True)
    os.rename(tree.file(SOURCE), tree.file("crates/lowest/src/part/renamed.rt"))
    planned(tree, True)
    planned(tree, False)


def changed_back(tree):
    planned(tree, True)
    append(tree, SOURCE)
    write(tree.file(SOURCE), "lowest\n")
    planned(tree, False)


def what_is_not_built(tree):
    planned(tree, True)
    for name in ("crates/other/src/lib.rt", "crates/lowest/proofs/Lib.antt", "CHANGELOG.md"):
        append(tree, name)
        os.utime(tree.file(SOURCE))
        expect("checksums decide", planned(tree, False).has_summed)


def change_during_build(tree):
    planned(tree, True, STEP="echo changed >> ../lowest/src/part/more.rt")
    planned(tree, True)
    planned(tree, False)


def change_during_build_and_back(tree):
    ending = planned(tree, True, STEP="echo changed >> ../lowest/src/lib.rt; echo lowest > ../lowest/src/lib.rt")
    expect("says so", "changed during the build" in ending.said)
    planned(tree, True)
    planned(tree, False)


def change_after_checksum(tree):
    planned(tree, True)
    os.utime(tree.file(SOURCE))
    planned(tree, False, STEP_AFTER_SUM=f"echo changed >> {shlex.quote(tree.file(SOURCE))}")
    planned(tree, True)
    planned(tree, False)


def no_checksums(tree):
    """Without `sha256sum` newer dates build, since nothing else tells."""
    planned(tree, True, STEP_AFTER_SUM="")
    planned(tree, False, STEP_AFTER_SUM="")
    os.utime(tree.file(SOURCE))
    planned(tree, True, STEP_AFTER_SUM="")
    planned(tree, False, STEP_AFTER_SUM="")
    os.utime(tree.file(SOURCE))
    planned(tree, True)
    os.utime(tree.file(SOURCE))
    planned(tree, False)


def other_program(tree):
    """A program that `rt run` made of other sources, which then were changed back, is not that of the record."""
    planned(tree, True)
    with open(tree.program, "ab") as file:
        file.write(b"other")
    os.utime(tree.file(SOURCE))
    planned(tree, True)
    planned(tree, False)


def is_running(process):
    """Whether a process is there, and no zombie."""
    try:
        with open(f"/proc/{process}/stat", encoding="utf-8") as file:
            return file.read().rpartition(")")[2].split()[0] not in "ZX"
    except FileNotFoundError:
        return False


def waited_for(what, is_so):
    """Waits until something is so."""
    limit = time.monotonic() + SECONDS
    while not is_so():
        expect(what, time.monotonic() < limit)
        time.sleep(MOMENT)


def interrupted_by(number):
    def interrupted(tree):
        begun = f"{tree.folder}/begun"
        env = tree.env | {"STEP": f"sleep 100 & echo $! > '{begun}'; wait"}
        taken = {"stdin": subprocess.DEVNULL, "stdout": subprocess.PIPE, "stderr": subprocess.PIPE}
        # A shell cannot answer a signal that it is started to ignore, as in the background.
        taken |= {"preexec_fn": lambda: signal.signal(number, signal.SIG_DFL)}
        with subprocess.Popen(tree.command("plain"), cwd=tree.folder, env=env, **taken) as running:
            waited_for("the build begins", lambda: os.path.exists(begun) and os.path.getsize(begun))
            running.send_signal(number)
            try:
                written, said = running.communicate(timeout=SECONDS)
            finally:
                running.kill()
        expect(f"status {running.returncode}", (running.returncode, written) == (NOTHING_BUILT, b""))
        expect(f"says so: {said!r}", b"interrupted" in said)
        with open(begun, encoding="utf-8") as file:
            process = int(file.read())
        waited_for("all of the build ends", lambda: not is_running(process))
        expect("no mark is left", sorted(os.listdir(os.path.dirname(tree.program))) == ["build.log", "built_from"])
        planned(tree, True)
        planned(tree, False)

    return interrupted


def no_program(tree):
    not_built(tree, STEP="exit 0")
    planned(tree, True)


def no_folder(tree):
    """A file stands where the folder out/ is to be."""
    write(os.path.dirname(tree.program), "")
    expect("says so", "cannot write to" in not_built(tree).said)


def failed(tree):
    expect("names the log", "build.log" in not_built(tree, STEP="exit 1").said)
    expect("builds again", not_built(tree, STEP="exit 1").has_built)
    planned(tree, True)
    append(tree, SOURCE)
    not_built(tree, STEP="exit 1")
    not_built(tree, STEP="exit 1")
    write(tree.file(SOURCE), "lowest\n")
    planned(tree, False)


def interrupted_after_program(tree):
    """A program that was made of sources which changed meanwhile, before its build was cut off."""
    made = 'mkdir -p out && cp "$PROGRAM" out/planner_main; exit 1'
    not_built(tree, STEP=f"echo changed >> ../lowest/src/lib.rt; sleep {MOMENT}; {made}")
    planned(tree, True)


def other_toolchain(tree):
    planned(tree, True)
    os.utime(tree.file(SOURCE))
    planned(tree, False, KIT=LATER_KIT)
    told = tree.call("--version", KIT=LATER_KIT)
    expect("the one that proved it", told.written.endswith(f"\nproved with {KIT}\n".encode()))
    append(tree, SOURCE)
    planned(tree, True, KIT=LATER_KIT)
    expect("and then the other", tree.call("--version").written.endswith(f"\nproved with {LATER_KIT}\n".encode()))


def no_toolchain(tree):
    tree.env["PATH"] = path_without("rt")
    expect("says what is missing", "toolchain's rt is not on your PATH" in not_built(tree).said)
    tree.place_program()
    planned(tree, False)


def program_of_gate(tree):
    """`rt ci` leaves a program and no record."""
    time.sleep(MOMENT)
    tree.place_program()
    planned(tree, False)
    expect("no record", not os.path.exists(tree.file("crates/planner_main/out/built_from")))
    time.sleep(MOMENT)
    os.utime(tree.file(SOURCE))
    planned(tree, True)


def watch_apart(tree):
    """`watch` is another program, which is built by itself, and has a record of its own."""
    planned(tree, True)
    for builds in (True, False):
        ending = tree.call("watch", "1", text=FOUND)
        expect(f"watched: {ending}", (ending.status, ending.written, ending.has_built) == (0, WATCHED, builds))
    append(tree, "crates/upper/src/lib.rt")
    planned(tree, False)
    expect("built again", tree.call("watch", "1", "1", text=FOUND).has_built)
    planned(tree, False)


def called_by_link(tree):
    link = f"{tree.folder}/bin/planner"
    os.symlink(tree.file("prrt"), link)
    given = {"input": FOUND, "capture_output": True, "env": tree.env, "timeout": SECONDS, "check": False}
    called = subprocess.run([*tree.shell, link, "plain"], **given)
    expect(f"planned: {called.stderr!r}", (called.returncode, called.stdout) == (0, PATH))
    planned(tree, False)


CASES = {
    "the first call builds, the second does not": first_and_second_call,
    "a first build proves crates side by side": side_by_side,
    "newer dates build nothing": newer_dates,
    "a copy builds nothing": copies,
    "a clone with a copied out/ builds nothing": copied_out_alone,
    "a checkout that was moved builds nothing": moved,
    "a copy of changed sources builds, whatever the dates": changed_source_in_copy,
    "changed sources build": changed_sources,
    "a changed source with a date set back builds": set_back_date,
    "an added, a removed and a renamed file build": added_and_removed_files,
    "a source changed back builds nothing": changed_back,
    "other crates, proofs and documents build nothing": what_is_not_built,
    "a source changed during the build builds again": change_during_build,
    "a source changed during the build and back builds again": change_during_build_and_back,
    "a source changed while checksums are computed builds": change_after_checksum,
    "no checksums": no_checksums,
    "a program that is not that of the record builds": other_program,
    "an interrupt": interrupted_by(signal.SIGINT),
    "a termination": interrupted_by(signal.SIGTERM),
    "a hangup": interrupted_by(signal.SIGHUP),
    "a failed build": failed,
    "a build that makes no program": no_program,
    "a build without a folder": no_folder,
    "a build that fails once it has made the program": interrupted_after_program,
    "another toolchain builds nothing": other_toolchain,
    "no toolchain": no_toolchain,
    "a program of the gate": program_of_gate,
    "`watch` is built by itself": watch_apart,
    "a call by a link": called_by_link,
}
