"""The commit of a checkout: whether it is all that is there, its date, its files, and the version that it has."""

import io
import re
import subprocess
import tarfile
from pathlib import Path

from release_archive import NoRelease, PLAIN, PROGRAM, Packed

HEADING = re.compile(r"## (\d+\.\d+\.\d+) - \d{4}-\d\d-\d\d")
# How files say which version they are of.
VERSIONED = {
    "bindings/python/pyproject.toml": '\nversion = "{version}"\n',
    "bindings/rust/Cargo.toml": '\nversion = "{version}"\n',
    "bindings/CMakeLists.txt": "project(kimorefo VERSION {version} ",
    "bindings/include/kimorefo.h": "#define KIMOREFO_VERSION {number} ",
    "packaging/kimorefo.1": '"kimorefo {version}"',
}


def said(*words):
    """What a command writes."""
    try:
        done = subprocess.run(words, capture_output=True, text=True, check=True)
    except FileNotFoundError:
        raise NoRelease(f"there is no command {words[0]}") from None
    except subprocess.CalledProcessError as fault:
        raise NoRelease(f"`{' '.join(map(str, words))}` failed: {fault.stderr.strip()}") from None
    return done.stdout.rstrip("\n")


def git(top, *words):
    return said("git", "-C", top, *words)


def commit_of(top):
    """The commit of a checkout in which nothing was changed or added since."""
    if not (top / ".git").exists():
        raise NoRelease(f"{top} is no checkout with commits of its own")
    changed = git(top, "status", "--porcelain", "--untracked-files=all").splitlines()
    # Of other files git may not look whether they were changed.
    changed += [it for it in git(top, "ls-files", "-v").splitlines() if not it.startswith("H ")]
    if changed:
        raise NoRelease(f"the checkout is not as it was committed: {changed[0].split()[-1]}")
    return git(top, "rev-parse", "HEAD")


def date_of(top):
    """When the commit was made, in seconds."""
    return int(git(top, "show", "--no-patch", "--format=%ct", "HEAD"))


def committed(top, *paths):
    """The files at and below some paths, by their names, as they are in the commit."""
    words = ["git", "-C", top, "archive", "--format=tar", "HEAD", *paths]
    done = subprocess.run(words, capture_output=True, check=False)
    if done.returncode:
        raise NoRelease(f"the commit lacks a file: {done.stderr.decode(errors='replace').strip()}")
    with tarfile.open(fileobj=io.BytesIO(done.stdout)) as tar:
        files = [it for it in tar if it.isreg()]
        return {it.name: Packed(tar.extractfile(it).read(), PROGRAM if it.mode & 0o100 else PLAIN) for it in files}


def number_of(version):
    """The number by which the C library tells a version."""
    major, minor, patch = map(int, version.split("."))
    return 100_000 * major + 100 * minor + patch


def look_at_version(version, files):
    """Refuses a version that is not the newest of CHANGELOG.md, or not that of a file that says which it is of."""
    lines = files["CHANGELOG.md"].data.decode().splitlines()
    first = next((it for it in lines if it.startswith("## ")), "## no version")
    heading = HEADING.fullmatch(first)
    if not heading or heading[1] != version:
        raise NoRelease(f"the newest version of CHANGELOG.md is not {version}: {first.removeprefix('## ')}")
    for name, form in VERSIONED.items():
        wanted = form.format(version=version, number=number_of(version))
        if name in files and wanted not in files[name].data.decode():
            raise NoRelease(f"{name} is not of version {version}: it has no `{wanted.strip()}`")


def top_of(script):
    """The checkout that a script of tools/ lies in."""
    return Path(script).resolve().parent.parent
