#!/usr/bin/env python3
"""Makes a release of this checkout, or looks whether a release is what a checkout makes.

Usage: release.py VERSION FOLDER [--kept]
       release.py --verify ARCHIVE [--kept]
       release.py --compare ONE OTHER

The first has the gate prove the checkout, builds the static library, and writes into the folder the archive
kimorefo-VERSION-x86_64-linux.tar.gz, its PROVENANCE, and SHA256SUMS of both. It refuses a checkout that is not as it
was committed, a gate that fails, a program that is older than its sources by the launcher's sums, and a version that is
not the newest of CHANGELOG.md. The bytes follow from the commit and the toolchain.

The second, in a checkout of the release's commit, makes the release anew in memory, and says `the same`, or what
differs.

The third compares two files, or two folders, byte for byte, and says which bytes differ. Archives that differ in
nothing but their compression pass.

With --kept nothing is proved: the last gate that was run for a release in this checkout counts, if it passed on this
commit and all that it left is still there. What the gate wrote is in out/release/gate.log. It ends with 1 if it
refuses, or if something differs. It needs git, and the toolchain unless it compares.
"""

import sys
from pathlib import Path

from release_archive import NoRelease, Packed, SUMS, damaged, sums_of, unpacked, unzipped, zipped
from release_commit import commit_of, said, top_of
from release_compare import ZIPPED, compared, difference, differences, show
from release_files import PROVENANCE, archive_name, folder_name, look_at_commit, release_of, told
from release_proof import ask_launcher, kept, prove
from static_library import NotBuilt
from usage import words_or_usage

TOP = top_of(__file__)
NONE_DIFFERS = "nothing may differ here, and nothing does"


def proved_release(version, is_kept):
    """The files and the tar of a release of this checkout, which is proved first or was."""
    commit_of(TOP)
    look_at_commit(TOP, version)
    proved = kept(TOP) if is_kept else prove(TOP)
    ask_launcher(TOP, version, proved)
    return release_of(TOP, version, proved)


def pack(version, folder, is_kept):
    """Writes a release into a folder."""
    files, tar = proved_release(version, is_kept)
    beside = {archive_name(version): Packed(zipped(tar)), PROVENANCE: files[PROVENANCE]}
    beside[SUMS] = Packed(sums_of(beside))
    folder.mkdir(parents=True, exist_ok=True)
    for name, packed in beside.items():
        (folder / name).write_bytes(packed.data)
    print(beside[SUMS].data.decode(), end="")
    return 0


def look_at_source(about):
    """Refuses a release of another commit than this checkout's, or by another toolchain than is here."""
    commit = commit_of(TOP)
    if about.get("commit") != commit:
        raise NoRelease(f"the release is of commit {about.get('commit')}, and the checkout is at {commit}")
    here = said("rt", "version")
    if about.get("toolchain") != here:
        raise NoRelease(f"the release was proved with {about.get('toolchain')}, and the toolchain here is {here}")


def verify(archive, is_kept):
    """Whether an archive is what this checkout makes, byte for byte."""
    data = archive.read_bytes()
    tar = unzipped(data)
    folder, files = unpacked(tar)
    spoiled = damaged(files)
    if spoiled:
        raise NoRelease(f"the archive is damaged: its own sums do not tell {', '.join(spoiled)}")
    about = told(files.get(PROVENANCE, Packed(b"")).data)
    version = about.get("kimorefo", "")
    if folder != folder_name(version):
        raise NoRelease(f"the archive has the folder {folder}, and says that it is version {version}")
    look_at_source(about)
    own, own_tar = proved_release(version, is_kept)
    found = [*differences(files, own)]
    if not found and tar != own_tar:
        found = [f"the files are the same, and how they are packed is not: {difference(tar, own_tar)}"]
    if found:
        print(f"not what commit {about['commit']} makes, first the archive, second this checkout:")
        show(found)
        return 1
    print(f"the same: kimorefo {version}, commit {about['commit']}, {len(files)} files")
    print("" if data == zipped(own_tar) else f"{ZIPPED}\n", end="")
    return 0


def compare(one, other):
    """Whether two files, or two folders, are the same byte for byte but for what may differ."""
    if one.is_dir() != other.is_dir():
        raise NoRelease("one is a folder, and the other is a file")
    found, may_differ = compared(one, other)
    if found:
        show([f"{one} and {other} differ:", *found])
        return 1
    show(["the same", *(may_differ or [NONE_DIFFERS])])
    return 0


def main(*words):
    is_kept, words = "--kept" in words, [it for it in words if it != "--kept"]
    if len(words) == 2 and words[0] == "--verify":
        return verify(Path(words[1]), is_kept)
    if len(words) == 3 and words[0] == "--compare" and not is_kept:
        return compare(Path(words[1]), Path(words[2]))
    if len(words) == 2 and not words[0].startswith("-"):
        return pack(words[0], Path(words[1]), is_kept)
    print(__doc__.strip(), file=sys.stderr)
    return 2


if __name__ == "__main__":
    try:
        sys.exit(main(*words_or_usage(__doc__)))
    except (NoRelease, NotBuilt, OSError) as fault:
        print(f"release: {fault}", file=sys.stderr)
        sys.exit(1)
