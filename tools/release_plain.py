#!/usr/bin/env python3
"""Uses a release on a system without the toolchain, and says what it needs of a system.

Usage: release_plain.py ARCHIVE ROOT. ROOT is the folder of such a system, as this makes one of Debian 12:

    debootstrap --variant=minbase bookworm ROOT

The archive is unpacked in a folder of ROOT that is removed afterwards, and used with ROOT as the root of all files. It
looks
- whether the programs need the C library alone, by their headers and by `ldd`, and from which version on;
- whether the program writes for each scene of examples/ what its report has, and by `plan 4` finds a path in the hall;
- whether the completions load in the bash that is there, and end words as they are to be;
- whether the man page is formatted, the C library is installed and linked, and the wheel plans, each only if ROOT has
  what that takes (`--include=man-db,cmake,gcc,libc6-dev,make,pkg-config,python3-pip`): it says what it skips.

It ends with 1 if anything was wrong. It needs root, or `unshare` for users without.
"""

import os
import re
import subprocess
import sys
import tempfile
from pathlib import Path

import release_elf
from release_archive import unpacked, unzipped
from release_files import EXAMPLE, LIBRARIES, glibc_of
from release_proof import PROGRAMS
from usage import words_or_usage

SECONDS = 300
PILLARS = "examples/pillars.scene"
PATH = "/usr/sbin:/usr/bin:/sbin:/bin"
# What `ldd` may list: the C library, its loader, and what the kernel has.
LISTED = re.compile(r"\s*(libc\.so\.6 => /\S+|/lib64/ld-linux-x86-64\.so\.2|linux-vdso\.so\.1)( \(0x[0-9a-f]+\))?")
ENDED = {"pl": "plan plain", "plan 4 f": "full", "plan 4 full ": "", "an": "anytime", "plain f": "full", "zz": ""}
COMPLETE = """. share/bash-completion/completions/kimorefo
read -r -a COMP_WORDS <<< "./kimorefo $1"
case $1 in *' ') COMP_WORDS+=('') ;; esac
COMP_CWORD=$((${#COMP_WORDS[@]} - 1))
_kimorefo
printf '%s' "${COMPREPLY[*]}"
"""
# As README of the archive has it, with a program over what is installed.
C_PROGRAM = """set -e
cmake -S bindings -B build -DKIMOREFO_ARCHIVE="$PWD/lib/libplan_c.a"
cmake --build build
cmake --install build --prefix "$PWD/installed"
export PKG_CONFIG_PATH="$(dirname "$(find "$PWD/installed" -name kimorefo.pc)")"
cc bindings/c/plan.c $(pkg-config --cflags --libs kimorefo) -o plan
"""
C_CALL = 'LD_LIBRARY_PATH="$(dirname "$(find "$PWD/installed" -name libkimorefo.so)")" ./plan'
PYTHON = """import kimorefo, sys
plan = kimorefo.plan(kimorefo.Scene.read(sys.stdin.read()))
sys.stdout.write(plan.report)
"""


class Plain:
    """A release that is unpacked in another system, and what was wrong with it."""

    def __init__(self, root, folder, files):
        self.root, self.folder, self.files, self.wrong, self.looked = root, folder, files, [], 0
        as_root = [] if os.geteuid() == 0 else ["unshare", "--map-root-user"]
        chroot = [*as_root, "chroot", root, "/usr/bin/env", "-i", f"PATH={PATH}"]
        self.inside = [*chroot, "sh", "-c", 'cd "$1" && shift && exec "$@"', "sh", f"/{folder}"]

    def call(self, *words, text=b""):
        """How a command ends in the release's folder there."""
        return subprocess.run([*self.inside, *words], input=text, capture_output=True, check=False, timeout=SECONDS)

    def expect(self, what, is_so):
        self.looked += 1
        if not is_so:
            self.wrong.append(what)

    def look_at_needs(self):
        """Looks at what each program needs, and prints it."""
        said = self.call("ldd", "--version").stdout.decode().partition("\n")[0]
        has = said.rpartition(" ")[2]
        for name in PROGRAMS:
            wanted = glibc_of(name, self.files[name].data)
            listed = self.call("ldd", f"./{name}").stdout.decode().splitlines()
            self.expect(f"ldd of {name} lists {listed}", listed and all(map(LISTED.fullmatch, listed)))
            enough = [tuple(map(int, it.split("."))) for it in (wanted, has)]
            self.expect(f"{name} needs glibc {wanted}, and {has} is there", enough[0] <= enough[1])
            symbols = ", ".join(sorted(*release_elf.versions(self.files[name].data).values()))
            print(f"{name}: {', '.join(LIBRARIES)} from glibc {wanted} on (it asks for {symbols}); there is {has}")

    def look_at_absence(self):
        """Looks whether the toolchain is really not there."""
        self.expect("rt is not there", self.call("sh", "-c", "command -v rt").returncode != 0)
        self.expect("/opt/rattle is not there", not (self.root / "opt" / "rattle").exists())

    def look_at_reports(self):
        """Looks whether the program writes what the reports of the examples have."""
        for name in sorted(self.files):
            report = self.files.get(name.replace(".scene", ".report"))
            if name.startswith("examples/") and name.endswith(".scene") and report:
                for words in (["plain"], ["plan", "1"]):
                    done = self.call("./kimorefo", *words, text=self.files[name].data)
                    self.expect(f"{' '.join(words)} < {name}", done.stdout == report.data)
        done = self.call("sh", "-c", f"./kimorefo plan 4 < {EXAMPLE}")
        self.expect(f"plan 4 < {EXAMPLE}: {done}", done.returncode == 0 and done.stdout.startswith(b"path "))
        for name in PROGRAMS:
            done = self.call(f"./{name}", "no-such-word")
            self.expect(f"{name} refuses words: {done}", (done.returncode, done.stdout) == (2, b"words refused\n"))

    def look_at_all(self):
        self.look_at_absence()
        self.look_at_needs()
        self.look_at_reports()
        self.look_at_completions()
        self.look_at_man_page()
        self.look_at_wheel()
        self.look_at_library()

    def has(self, *commands):
        """Whether there are commands. If not, it says so."""
        lacking = [it for it in commands if self.call("sh", "-c", f"command -v {it}").returncode]
        print(*(f"skipped for want of {it}\n" for it in lacking), sep="", end="")
        return not lacking

    def look_at_man_page(self):
        if self.has("man"):
            done = self.call("man", "--warnings", "--local-file", "share/man/man1/kimorefo.1")
            self.expect(f"man: {done}", b"EXIT STATUS" in done.stdout and not done.stderr and not done.returncode)

    def look_at_library(self):
        """Builds and installs the C library, and plans by a program over it."""
        if self.has("cmake", "make", "cc", "pkg-config"):
            done = self.call("sh", "-c", C_PROGRAM)
            self.expect(f"the C library is installed: {done}", done.returncode == 0)
            self.expect_report("C", self.call("sh", "-c", C_CALL, text=self.files[PILLARS].data))

    def look_at_wheel(self):
        """Installs the wheel, and plans by it."""
        if self.has("python3", "pip3"):
            done = self.call("sh", "-c", "pip3 install --quiet --no-index --no-deps --target site python/*.whl")
            self.expect(f"the wheel is installed: {done}", done.returncode == 0)
            words = ["env", "PYTHONPATH=site", "python3", "-c", PYTHON]
            self.expect_report("Python", self.call(*words, text=self.files[PILLARS].data))

    def expect_report(self, name, done):
        """Looks whether a program in another language has the report of an example."""
        report = self.files[PILLARS.replace(".scene", ".report")].data
        self.expect(f"{name} plans: {done}", (done.returncode, done.stdout) == (0, report))

    def look_at_completions(self):
        for words, ends in ENDED.items():
            done = self.call("bash", "-c", COMPLETE, "bash", words)
            self.expect(f"{words!r} is ended by {done}", (done.stdout.decode(), done.stderr) == (ends, b""))


def unpack(archive, folder):
    """Unpacks an archive as a user does, and gives the name of its folder and its files."""
    name, files = unpacked(unzipped(archive.read_bytes()))
    subprocess.run(["tar", "--extract", "--file", archive.resolve(), "--directory", folder], check=True)
    return name, files


def main(archive, root):
    root = Path(root).resolve()
    with tempfile.TemporaryDirectory(dir=root / "tmp") as folder:
        os.chmod(folder, 0o755)
        name, files = unpack(Path(archive), folder)
        plain = Plain(root, (Path(folder) / name).relative_to(root), files)
        plain.look_at_all()
    print(*plain.wrong, sep="\n", end="\n" if plain.wrong else "")
    print(f"{plain.looked} things looked at in {root}, {len(plain.wrong)} wrong")
    return 1 if plain.wrong else 0


if __name__ == "__main__":
    sys.exit(main(*words_or_usage(__doc__)))
