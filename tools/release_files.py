"""What is in a release, by the names in its archive."""

import time

import release_elf
from release_archive import NoRelease, Packed, PROGRAM, tar_of, with_sums
from release_commit import committed, date_of, look_at_version
from release_proof import LIBRARY, PROGRAMS, bytes_of
from release_wheel import wheel_of

PLATFORM = "x86_64-linux"
PROVENANCE = "PROVENANCE"
# What has another place there than here. All else that is packed is where it is here.
MOVED = {
    "packaging/README": "README",
    "packaging/kimorefo.1": "share/man/man1/kimorefo.1",
    "packaging/kimorefo.bash": "share/bash-completion/completions/kimorefo",
}
DOCUMENTS = ("CHANGELOG.md", "SECURITY.md")
PAGES = tuple(f"docs/{it}.md" for it in ("scene-format", "report-format", "from-other-languages", "releases"))
FOR_C = ("bindings/include/kimorefo.h", "bindings/CMakeLists.txt", "bindings/cmake/kimorefo.pc.in", "bindings/c")
EXAMPLE = "examples/hall.scene"
PYTHON, PROJECT = "bindings/python/kimorefo", "bindings/python/pyproject.toml"
# The wheel has it.
NOT_PACKED = "bindings/python/"
# The system that a program may need: the C library alone, and its loader.
LIBRARIES, LOADER = ["libc.so.6"], "/lib64/ld-linux-x86-64.so.2"


def folder_name(version):
    """The folder in an archive, and the archive's name without its ending."""
    return f"kimorefo-{version}-{PLATFORM}"


def archive_name(version):
    return f"{folder_name(version)}.tar.gz"


def below(files, folder):
    """The files below a folder, by their names in it."""
    return {name.removeprefix(f"{folder}/"): it for name, it in files.items() if name.startswith(f"{folder}/")}


def from_commit(top):
    """What is committed of that which a release is made of."""
    return committed(top, *MOVED, *DOCUMENTS, *PAGES, *FOR_C, EXAMPLE, PYTHON, PROJECT, "examples", "bindings")


def glibc_of(name, program):
    """The version of the C library from which on a program runs, which needs nothing else."""
    if not release_elf.is_elf(program):
        raise NoRelease(f"{name} is no program for {PLATFORM}")
    needs = release_elf.libraries(program), release_elf.interpreter(program)
    if needs != (LIBRARIES, LOADER):
        raise NoRelease(f"{name} needs more than the C library: {needs}")
    return release_elf.glibc(program)


def newest_glibc(programs):
    """The version of the C library from which on all programs run."""
    return max((glibc_of(*it) for it in programs.items()), key=lambda it: [*map(int, it.split("."))])


def provenance(version, proved, seconds, glibc):
    """What a release says of where it comes from."""
    lines = [
        f"kimorefo {version}",
        f"commit {proved.commit}",
        f"committed {time.strftime('%Y-%m-%d %H:%M:%S UTC', time.gmtime(seconds))}",
        f"toolchain {proved.toolchain}",
        f"compiler {proved.clang}",
        f"linker {proved.linker}",
        f"gate {proved.gate}",
        f"needs Linux on x86-64-v2 with glibc {glibc}",
        f"again git checkout {proved.commit} && tools/release.py --verify {archive_name(version)}",
    ]
    return "".join(f"{it}\n" for it in lines).encode()


def told(text):
    """What a PROVENANCE says, by the first words of its lines."""
    return dict(line.partition(" ")[::2] for line in text.decode(errors="replace").splitlines())


def look_at_commit(top, version):
    """Refuses a commit of which no release of this version can be made, whatever is proved of it."""
    look_at_version(version, from_commit(top))


def release_of(top, version, proved):
    """All files of a release of what was proved, by their names in the archive, and its tar."""
    source = from_commit(top)
    files = {MOVED.get(name, name): it for name, it in source.items() if not name.startswith(NOT_PACKED)}
    programs, seconds = {name: bytes_of(top, name) for name in PROGRAMS}, date_of(top)
    glibc = newest_glibc(programs)
    project = source[PROJECT].data.decode()
    wheel, wheel_bytes = wheel_of(below(source, PYTHON), project, programs["kimorefo"], glibc, seconds)
    files |= {name: Packed(data, PROGRAM) for name, data in programs.items()}
    files |= {LIBRARY: Packed(bytes_of(top, LIBRARY)), f"python/{wheel}": Packed(wheel_bytes)}
    files[PROVENANCE] = Packed(provenance(version, proved, seconds, glibc))
    files = with_sums(files)
    return files, tar_of(folder_name(version), files, seconds)
