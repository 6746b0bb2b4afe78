"""What is tried of releases: how they are packed, which are refused, and what is told apart."""

import base64
import gzip
import hashlib
import os
import re
import shutil
import subprocess
import sys
import tarfile
import zipfile
from pathlib import Path

from launcher_tree import KIT, SECONDS, TOP, expect, write
from release_archive import Packed, SUMS, tar_of, unpacked, unzipped, zipped
from release_commit import VERSIONED
from release_files import EXAMPLE, folder_name
from release_tree import DATE, GATE, VERSION, changed, git, one_byte_more, read, repacked, sums_say, with_entry, written

SOURCE = "crates/lowest/src/lib.rt"
LATER_KIT = "later-kit logic fedcba9876543210"
LONG_AGO = 1_000_000_000
FAILED = "4 passed, 1 failed"
PLANS = """import kimorefo, sys
with open(sys.argv[1]) as file:
    print(kimorefo.plan(kimorefo.Scene.read(file.read()), workers=2).found)
"""
PROGRAM = "crates/planner_main/out/planner_main"


def two_checkouts(tree):
    one = tree.pack()
    tree.clone("another/checkout/with/a/much/longer/name")
    for path in Path(tree.top).rglob("*"):
        os.utime(path)
    other = tree.pack(folder=f"{tree.folder}/other", RT_JOBS="2", TZ="Asia/Tokyo", LC_ALL="C")
    for name in os.listdir(tree.made):
        expect(name, read(f"{tree.made}/{name}") == read(f"{tree.folder}/other/{name}"))
    expect("compared", tree.run("release.py", "--compare", one, other).written.startswith("the same\n"))
    expect("compared", tree.run("release.py", "--compare", tree.made, f"{tree.folder}/other").status == 0)


def what_is_in_it(tree):
    archive = tree.pack()
    with tarfile.open(archive) as tar:
        entries = list(tar)
    names = [it.name for it in entries]
    expect("sorted, each once", names == sorted({*names}))
    owners = {(it.mtime, it.uid, it.gid, it.uname, it.gname) for it in entries}
    expect("one date, no owner", owners == {(DATE, 0, 0, "", "")})
    top = folder_name(VERSION)
    programs = {f"{top}/{it}" for it in ("kimorefo", "kimorefo-watch", "examples/greatest.sh")}
    expect("modes", {it.name for it in entries if it.mode == 0o755} == programs)
    for name in ("lib/libplan_c.a", "bindings/include/kimorefo.h", "bindings/c/heap.c", "docs/releases.md", "README"):
        expect(name, f"{top}/{name}" in names)
    needless = [it for it in names if re.search(r"/(tools|crates|bindings/python|prrt)\b", it)]
    expect(f"no more than a release needs: {needless}", not needless)
    expect("sums beside it", sums_say(tree.made))
    subprocess.run(["tar", "--extract", "--file", archive, "--directory", tree.folder], check=True)
    expect("sums in it", sums_say(f"{tree.folder}/{top}"))
    expect("the program", read(f"{tree.folder}/{top}/kimorefo") == read(tree.env["PROGRAM"]))


def where_it_is_from(tree):
    tree.pack()
    text = read(f"{tree.made}/PROVENANCE").decode()
    commit = git(tree.top, "rev-parse", "HEAD")
    lines = (f"kimorefo {VERSION}", f"commit {commit}", "committed 2023-11-14 22:13:20 UTC", f"toolchain {KIT}")
    for line in (*lines, "compiler clang 7.8.9", "linker ld.lld 7.8.9", f"gate {GATE}"):
        expect(line, line in text.splitlines())
    expect("what it needs", re.search(r"(?m)^needs Linux on x86-64-v2 with glibc 2\.\d+$", text))
    again = re.search(r"(?m)^again (git checkout \w+) && tools/(release\.py) (--verify) (.*)$", text)
    expect("the words that prove it again", again and again[1] == f"git checkout {commit}")
    git(tree.top, *again[1].split()[1:])
    expect("do so", tree.run(again[2], again[3], f"{tree.made}/{again[4]}").status == 0)


def kept_work(tree):
    tree.refuses("nothing is kept", VERSION, tree.made, "--kept", says_gate=False)
    archive = tree.pack()
    before = read(archive)
    ending = tree.run("release.py", VERSION, tree.made, "--kept")
    has_built = ending.has_proved or any(it.startswith("rattle") for it in ending.calls)
    expect(f"no gate: {ending}", ending.status == 0 and not has_built)
    expect("the same", read(archive) == before)
    expect("and verified", tree.run("release.py", "--verify", archive, "--kept").status == 0)


def launcher_knows_it(tree):
    tree.pack()
    told = subprocess.check_output([tree.file("prrt"), "--version"], text=True, env=tree.env)
    expect(told, told.endswith(f"\nproved with {KIT}\n") and told.startswith(f"kimorefo {VERSION}\n"))


def dirty(tree):
    tree.append("docs/terms.md")
    tree.refuses("not as it was committed: docs/terms.md", says_gate=False)
    git(tree.top, "checkout", "--quiet", "docs")
    write(tree.file("bindings/c/more.c"), "")
    tree.refuses("not as it was committed: bindings/c/more.c", says_gate=False)
    os.remove(tree.file("bindings/c/more.c"))
    git(tree.top, "update-index", "--assume-unchanged", SOURCE)
    tree.append(SOURCE)
    tree.refuses(f"not as it was committed: {SOURCE}", says_gate=False)


def no_commit(tree):
    shutil.rmtree(tree.file(".git"))
    tree.refuses("no checkout with commits of its own", says_gate=False)


def failing_gate(tree):
    tree.pack(folder=f"{tree.folder}/earlier")
    for gate, status in ((FAILED, "1"), (GATE, "1"), (FAILED, "0"), ("0 passed, 0 failed", "0")):
        tree.refuses("the gate failed", GATE=gate, GATE_STATUS=status, says_gate=True)
    tree.refuses("the gate failed", GATE=f"{GATE} (middle and the crates below alone: not the gate)")
    tree.refuses("nothing is kept", VERSION, tree.made, "--kept")


def no_toolchain(tree):
    os.remove(f"{tree.folder}/bin/rt")
    tree.refuses("rt is not on your PATH")


def older_program(tree):
    tree.refuses("kimorefo is older than its sources", STEP_AFTER=f"touch -d @{LONG_AGO} {PROGRAM}")
    tree.refuses("kimorefo-watch is older", STEP_AFTER=f"touch -d @{LONG_AGO} crates/plan_watch/out/plan_watch")
    tree.refuses("kimorefo is not built", STEP_AFTER=f"rm {PROGRAM}")


def older_by_the_sums(tree):
    """A program that was built from what the sources were before."""
    tree.pack()
    old = git(tree.top, "rev-parse", "HEAD")
    tree.append(SOURCE)
    tree.commit()
    shutil.rmtree(tree.made)
    tree.refuses("the checkout is at", VERSION, tree.made, "--kept", says_gate=False)
    tree.change("out/release/proved.json", lambda line: line.replace(old, git(tree.top, "rev-parse", "HEAD")))
    tree.refuses("older than its sources", VERSION, tree.made, "--kept", says_gate=False)


def other_program(tree):
    tree.pack()
    shutil.rmtree(tree.made)
    for name in (PROGRAM, "crates/plan_watch/out/plan_watch", "out/release/libplan_c.a"):
        data = read(tree.file(name))
        write(tree.file(name), "other\n")
        tree.refuses(f"{name} is not what the gate left", VERSION, tree.made, "--kept", says_gate=False)
        Path(tree.file(name)).write_bytes(data)


def changed_meanwhile(tree):
    there_and_back = f"echo more >> {SOURCE}; sleep 0.05; git checkout --quiet {SOURCE}"
    tree.refuses("sources changed while the gate ran", STEP_AFTER=there_and_back)
    tree.refuses("not as it was committed", STEP_AFTER="echo more >> README.md")


def versions(tree):
    for version in ("1.2.4", "1.2.2", "Unreleased"):
        tree.refuses(f"the newest version of CHANGELOG.md is not {version}", version, tree.made, says_gate=False)
    others = {name: lambda it: it.replace(VERSION, "1.2.4").replace("100203", "100204") for name in VERSIONED}
    others["CHANGELOG.md"] = lambda it: it.replace("## 1.2.3", "## Unreleased")
    for name, change in others.items():
        if os.path.exists(tree.file(name)):
            tree.change(name, change)
            tree.commit()
            tree.refuses(name, says_gate=False)
            git(tree.top, "checkout", "--quiet", "HEAD~", name)
            tree.commit()


def lacking_files(tree):
    for name in ("packaging/kimorefo.1", "bindings/include/kimorefo.h", "bindings/c", "docs/releases.md", EXAMPLE):
        git(tree.top, "rm", "-r", "--quiet", name)
        tree.commit()
        tree.refuses("the commit lacks a file", says_gate=False)
        git(tree.top, "checkout", "--quiet", "HEAD~", name)
        tree.commit()


def strange_programs(tree):
    tree.refuses("is no program for x86_64-linux", PROGRAM=tree.file("prrt"))
    tree.refuses("needs more than the C library", PROGRAM=os.path.realpath(shutil.which("git")))


def library_alone(tree):
    output = f"{tree.folder}/lib.a"
    tree.pack()
    ending = tree.run("static_library.py", tree.top, output)
    expect(f"built: {ending}", ending.status == 0 and read(output) == read(tree.file("out/release/libplan_c.a")))
    words = next(it for it in ending.calls if it.startswith("rattle build"))
    for part in ("--crate-name plan_c src/lib.rt", "--extern middle=", "lowest/out/rlib", "--crate-type staticlib"):
        expect(part, part in words)
    os.remove(output)
    for crate, why in (("middle", "no line that begins `middle staticlib:`"), ("none", "no line that begins")):
        expect(why, why in tree.run("static_library.py", tree.top, output, crate).said)
    expect("no proof", "not proved" in tree.run("static_library.py", tree.top, output, STEP_OF_LIBRARY="exit 1").said)
    tree.append("crates/lowest/proofs/Lib.antt")
    expect("older", "lowest is older than its sources" in tree.run("static_library.py", tree.top, output).said)
    shutil.rmtree(tree.file("crates/middle/out"))
    os.utime(tree.file("crates/lowest/out/rlib/lowest.rlib"))
    expect("missing", "there is no library middle" in tree.run("static_library.py", tree.top, output).said)
    expect("nothing is made", not os.path.exists(output))


def verified(tree):
    archive = tree.pack()
    tree.clone("second")
    ending = tree.run("release.py", "--verify", archive)
    expect(f"proved: {ending}", ending.has_proved)
    expect(f"the same: {ending}", ending.status == 0 and ending.written.startswith("the same: "))
    tree.refuses("the gate failed", "--verify", archive, GATE=FAILED, GATE_STATUS="1")


def changed_byte(tree):
    archive = tree.pack()
    for name in ("kimorefo", "lib/libplan_c.a", "docs/releases.md", "PROVENANCE"):
        spoiled = repacked(archive, changed(name, one_byte_more), has_sums=False)
        tree.refuses(f"its own sums do not tell {name}", "--verify", spoiled, says_gate=False)
    for name in ("kimorefo", "lib/libplan_c.a", "docs/releases.md"):
        spoiled = repacked(archive, changed(name, one_byte_more))
        tree.refuses(f"\n{name}: 1 bytes differ", "--verify", spoiled, "--kept")
    spoiled = repacked(archive, changed("kimorefo", one_byte_more))
    tree.refuses("\nkimorefo: 1 bytes differ", "--verify", spoiled, says_gate=True)


def changed_library(tree):
    """A checkout that builds something else than the release has."""
    archive = tree.pack()
    tree.refuses("\nlib/libplan_c.a: ", "--verify", archive, STEP_OF_LIBRARY='echo other >> "$last"')
    tree.refuses("\nkimorefo: ", "--verify", archive, STEP_AFTER=f"printf x >> {PROGRAM}")


def other_commit(tree):
    archive = tree.pack()
    tree.append("docs/terms.md")
    tree.commit()
    tree.refuses("and the checkout is at", "--verify", archive, says_gate=False)
    git(tree.top, "checkout", "--quiet", "HEAD~")
    expect("and back", tree.run("release.py", "--verify", archive).status == 0)
    spoiled = repacked(archive, changed("PROVENANCE", lambda it: re.sub(rb"commit \w+", b"commit " + b"0" * 40, it)))
    tree.refuses("the release is of commit 0000", "--verify", spoiled, says_gate=False)


def other_logic(tree):
    archive = tree.pack()
    spoiled = repacked(archive, changed("PROVENANCE", lambda it: it.replace(KIT.encode(), LATER_KIT.encode())))
    tree.refuses(f"proved with {LATER_KIT}, and the toolchain here is {KIT}", "--verify", spoiled, says_gate=False)
    tree.refuses(f"proved with {KIT}, and the toolchain here is {LATER_KIT}", "--verify", archive, KIT=LATER_KIT)
    spoiled = repacked(archive, changed("PROVENANCE", lambda it: it.replace(b"clang 7", b"clang 8")))
    tree.refuses("\nPROVENANCE: ", "--verify", spoiled)
    spoiled = repacked(archive, changed("PROVENANCE", lambda it: it.replace(b"5 passed", b"9 passed")))
    tree.refuses("\nPROVENANCE: ", "--verify", spoiled)


def other_files(tree):
    archive = tree.pack()
    spoiled = repacked(archive, lambda it: it | {"more": Packed(b"more")})
    tree.refuses("\nmore: only in the first", "--verify", spoiled, "--kept")
    spoiled = repacked(archive, lambda it: {name: packed for name, packed in it.items() if name != "README"})
    tree.refuses("\nREADME: only in the second", "--verify", spoiled, "--kept")
    spoiled = repacked(archive, lambda it: it | {"kimorefo": Packed(it["kimorefo"].data, 0o4755)})
    tree.refuses("\nkimorefo: its mode is 4755 and 755", "--verify", spoiled, "--kept")
    spoiled = repacked(archive, lambda it: it | {SUMS: Packed(it[SUMS].data + b"\n")}, has_sums=False)
    tree.refuses(f"its own sums do not tell {SUMS}", "--verify", spoiled, "--kept")


def other_packing(tree):
    archive = tree.pack()
    folder, files = unpacked(unzipped(read(archive)))
    spoiled = written(archive, zipped(tar_of(folder, files, DATE + 1)))
    tree.refuses("how they are packed is not", "--verify", spoiled, "--kept")
    spoiled = written(archive, zipped(tar_of("other", files, DATE)))
    tree.refuses("says that it is version", "--verify", spoiled, "--kept")
    again = written(archive, gzip.compress(unzipped(read(archive)), 1))
    ending = tree.run("release.py", "--verify", again, "--kept")
    expect(f"compressed otherwise: {ending}", ending.status == 0 and "up to the version of zlib" in ending.written)


def no_archives(tree):
    archive = tree.pack()
    data = read(archive)
    tars = (b"no tar", bytes(10240), unzipped(data)[:70000])
    for spoiled in (b"", b"no gzip", data[:-100], data[:9000], *map(zipped, tars)):
        ending = tree.run("release.py", "--verify", written(archive, spoiled), "--kept")
        expect(f"no archive: {ending}", ending.status == 1 and ending.said.startswith("release: "))
    plain, link = tarfile.REGTYPE, tarfile.SYMTYPE
    for name, kind in (("/a", plain), ("a/../../b", plain), ("a/b", link), ("a", plain)):
        entry = tarfile.TarInfo(name)
        entry.type, entry.linkname = kind, "/etc/passwd"
        tree.refuses("an entry that no release has", "--verify", with_entry(archive, entry), "--kept")
    twice = tarfile.TarInfo(f"{folder_name(VERSION)}/kimorefo")
    tree.refuses("an entry that no release has", "--verify", with_entry(archive, twice), "--kept")
    tree.refuses("2 folders", "--verify", with_entry(archive, tarfile.TarInfo("other/file")), "--kept")


def proofs(tree):
    """Two proofs of one commit in other folders, and ones that are not the same."""
    tool, made = "release_proofs.py", f"{tree.folder}/proofs"
    ending = tree.run(tool, made, "anew4", "kept2")
    expect(f"the same: {ending}", ending.status == 0 and ending.written.endswith("kept2: the same as anew4\n"))
    expect(f"as asked: {ending.calls}", {"rt ci --anew by 4", "rt ci by 2"} <= {*ending.calls})
    left = [f"{way}{end}" for way in ("anew4", "kept2") for end in ("", ".commit", ".log")]
    expect("clones are gone", sorted(os.listdir(made)) == left)
    expect("what is kept", read(f"{made}/kept2/kimorefo") == read(tree.env["PROGRAM"]))
    ending = tree.run(tool, made, "anew4", "kept4", STEP_AFTER=f"pwd >> {PROGRAM}")
    expect(f"another: {ending}", ending.status == 1 and "\nkimorefo: " in ending.written and ending.has_proved)
    expect("not gone again", not tree.run(tool, made, "anew4", "kept2").has_proved)
    ending = tree.run(tool, made, "anew4", "kept3", GATE="6 passed, 0 failed")
    expect(f"proved in another way: {ending}", ending.status == 0)
    ending = tree.run(tool, made, "kept1", GATE_STATUS="1")
    expect(f"a failing gate: {ending}", ending.status == 1 and not os.path.exists(f"{made}/kept1"))
    expect("a wrong way", tree.run(tool, made, "kept0").status == 2)
    tree.append("docs/terms.md")
    tree.commit()
    expect("another commit", "anew4 is of another commit" in tree.run(tool, made, "anew4").said)


def compared(tree):
    program, other, compare = tree.env["PROGRAM"], f"{tree.folder}/other", ["release.py", "--compare"]
    expect("the same", tree.run(*compare, program, program).written.startswith("the same\nnothing may differ here"))
    Path(other).write_bytes(one_byte_more(read(program)))
    tree.refuses(f"1 bytes differ, the first is byte {len(read(program)) // 2}, in .", *compare[1:], program, other)
    Path(other).write_bytes(read(program)[:-1])
    tree.refuses("0 bytes differ, the first is byte", *compare[1:], program, other)
    write(f"{tree.folder}/a/one", "one\n")
    write(f"{tree.folder}/b/one", "one\n")
    expect("folders", tree.run(*compare, f"{tree.folder}/a", f"{tree.folder}/b").status == 0)
    os.chmod(f"{tree.folder}/a/one", 0o755)
    tree.refuses("its mode is 755 and 644", *compare[1:], f"{tree.folder}/a", f"{tree.folder}/b")
    write(f"{tree.folder}/b/two", "")
    tree.refuses("two: only in the second", *compare[1:], f"{tree.folder}/a", f"{tree.folder}/b")
    tree.refuses("one is a folder", *compare[1:], f"{tree.folder}/a", program)


def compared_archives(tree):
    archive, compare = tree.pack(), ["release.py", "--compare"]
    again = written(archive, gzip.compress(unzipped(read(archive)), 1))
    ending = tree.run(*compare, archive, again)
    expect(f"may differ: {ending}", ending.status == 0 and "up to the version of zlib" in ending.written)
    spoiled = repacked(archive, changed("README", one_byte_more))
    tree.refuses("bytes differ", *compare[1:], archive, spoiled)


def sum_in_record(data):
    """The sum of a file as a wheel tells it."""
    told = base64.b64encode(hashlib.sha256(data).digest(), altchars=b"-_").decode()
    return "sha256=" + told.replace("=", "")


def wheel(tree):
    tree.pack()
    subprocess.run(["tar", "--extract", "--file", tree.pack(), "--directory", tree.folder], check=True)
    wheels = [*Path(tree.folder, folder_name(VERSION), "python").iterdir()]
    expect(f"one wheel: {wheels}", len(wheels) == 1)
    with zipfile.ZipFile(wheels[0]) as file:
        record = next(it for it in file.namelist() if it.endswith(".dist-info/RECORD"))
        rows = [line.split(",") for line in file.read(record).decode().splitlines()]
        expect("RECORD has all files", sorted(it[0] for it in rows) == sorted(file.namelist()))
        sums = {it[0]: sum_in_record(file.read(it[0])) for it in rows if it[0] != record}
    expect("RECORD has their sums", {it[0]: it[1] for it in rows if it[1]} == sums)
    site, given = f"{tree.folder}/site", {"capture_output": True, "text": True, "timeout": SECONDS, "check": False}
    words = ["-m", "pip", "install", "--quiet", "--no-index", "--no-deps", "--target", site, wheels[0]]
    done = subprocess.run([sys.executable, *words], **given)
    expect(f"installed: {done.stderr}", done.returncode == 0)
    env = {"PYTHONPATH": site, "PATH": os.environ["PATH"]}
    done = subprocess.run([sys.executable, "-c", PLANS, tree.file(EXAMPLE)], env=env, **given)
    expect(f"plans: {done}", done.stdout == "True\n")


def commands():
    """The words with which the launcher's commands begin, but for that of the other program."""
    usage = subprocess.run([f"{TOP}/prrt", "--help"], capture_output=True, text=True, check=True).stdout
    return {*re.findall(r"(?m)^  ([a-z]+)\b", usage)} - {"watch"}


def pages_and_completions(_):
    with open(f"{TOP}/packaging/kimorefo.1", encoding="utf-8") as file:
        page = file.read()
    told = {*re.findall(r'(?m)^\.TP\n\.(?:BI?|BR) "?([a-z]+)', page)}
    expect(f"the man page has {told ^ commands()}", told == commands())
    with open(f"{TOP}/packaging/kimorefo.bash", encoding="utf-8") as file:
        ended = {*re.search(r"1:\*\) _kimorefo_words '(.*)'", file.read())[1].split()}
    expect(f"the completions have {ended ^ commands()}", ended == commands())
    if not shutil.which("man"):
        print("there is no man, so that the man page is not formatted")
        return
    words = ["man", "--warnings", "--local-file", f"{TOP}/packaging/kimorefo.1"]
    env = os.environ | {"LC_ALL": "C.UTF-8", "MANWIDTH": "80"}
    done = subprocess.run(words, capture_output=True, text=True, env=env, check=False)
    expect(f"man says {done.stderr}", done.returncode == 0 and not done.stderr and "EXIT STATUS" in done.stdout)


CASES = {
    "two checkouts of other lengths, at other times, make the same bytes": two_checkouts,
    "what is in a release": what_is_in_it,
    "where it is from, and the words that prove it again": where_it_is_from,
    "what was proved before counts, if asked for": kept_work,
    "the launcher knows the program": launcher_knows_it,
    "a checkout that is not as it was committed": dirty,
    "no checkout": no_commit,
    "a failing gate": failing_gate,
    "no toolchain": no_toolchain,
    "a program that the gate did not build": older_program,
    "a program older than its sources, and one of another commit": older_by_the_sums,
    "what is not what the gate left": other_program,
    "sources that change while the gate runs": changed_meanwhile,
    "a version that CHANGELOG, the package or the header does not have": versions,
    "a commit that lacks a file": lacking_files,
    "a program for something else": strange_programs,
    "the static library alone": library_alone,
    "a release is verified in a second clone": verified,
    "a changed byte, with its sum and without": changed_byte,
    "a checkout that builds something else": changed_library,
    "another commit": other_commit,
    "another logic, another compiler": other_logic,
    "a file more, a file less, another mode": other_files,
    "other dates and names, another compression": other_packing,
    "what is no archive": no_archives,
    "two proofs at other paths, by 4 processors and 2": proofs,
    "two programs and folders": compared,
    "two archives": compared_archives,
    "the wheel": wheel,
    "man page and completions": pages_and_completions,
}
