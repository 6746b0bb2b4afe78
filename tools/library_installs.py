"""Installs the library by CMake, builds what stands on it by CMake, pkg-config and cargo, as the page says, and runs that."""

import os
import re
import shutil
import subprocess
from pathlib import Path

from library_cases import EXAMPLES
from library_runs import BINDINGS, HERE, SANITIZERS, WARNINGS, run

PAGE = HERE.parent / "docs" / "from-other-languages.md"
# Where the page builds and installs.
PAGE_FOLDER = "/tmp/kimorefo"
EXPORTS = ["check", "logic", "plan", "smooth", "version"]
# The programs of the page, by their language: the file that it shows, and the words of the program that writes the same.
PROGRAMS = {
    "c": (BINDINGS / "c" / "plan.c", "plan 1"),
    "cpp": (BINDINGS / "cpp" / "plan.cpp", "plan 1 full"),
    "rust": (BINDINGS / "rust" / "examples" / "plan.rs", "smooth 1"),
}


def wrong_runs(cases, language, program):
    """The examples of which a program writes or answers something else than it should."""
    words = PROGRAMS[language][1]
    for path in sorted(EXAMPLES.glob("*.scene")):
        text = path.read_bytes()
        status, written = cases.run(words, text)
        done = subprocess.run([program], input=text, capture_output=True, check=False)
        if status > 1:
            written = b""
        if language == "rust":
            status = int(status > 1)
        if (done.returncode, done.stdout) != (status, written):
            yield f"{language}, {path.stem}: ended with {done.returncode}, {(done.stdout + done.stderr)[:200]!r}"


def sanitized(folder, archive):
    """The programs in C and C++ over the archive, with sanitizers."""
    heap = folder / "heap.o"
    run("cc", "-c", *SANITIZERS, *WARNINGS, BINDINGS / "c" / "kimorefo_heap.c", "-o", heap)
    flags = [*SANITIZERS, *WARNINGS, f"-I{BINDINGS}/include", "-Wl,-z,noexecstack"]
    run("cc", "-std=c99", *flags, PROGRAMS["c"][0], heap, archive, "-o", folder / "plan_c")
    yield "c", folder / "plan_c"
    if shutil.which("c++"):
        run("c++", "-std=c++17", *flags, PROGRAMS["cpp"][0], heap, archive, "-o", folder / "plan_cpp")
        yield "cpp", folder / "plan_cpp"


def installed(folder, archive):
    """The folder in which CMake has installed the library."""
    prefix = folder / "installed"
    run("cmake", "-S", BINDINGS, "-B", folder / "build", f"-DKIMOREFO_ARCHIVE={archive}", "-DCMAKE_BUILD_TYPE=Release")
    run("cmake", "--build", folder / "build")
    run("cmake", "--install", folder / "build", "--prefix", prefix)
    return prefix


def library_in(prefix):
    """The shared library that was installed."""
    return next(prefix.glob("lib*/**/libkimorefo.so"))


def wrong_exports(library):
    """Whether the library exports its calls and nothing else."""
    names = re.findall(r" T (\w+)\n", run("nm", "-D", "--defined-only", library))
    return [] if sorted(names) == [f"kimorefo_{name}" for name in EXPORTS] else [f"{library.name} exports {names}"]


def by_cmake(folder, prefix):
    """The programs as a project of CMake that finds the package makes them."""
    project = folder / "project"
    project.mkdir()
    for file, _ in (PROGRAMS["c"], PROGRAMS["cpp"]):
        shutil.copy(file, project)
    head = "cmake_minimum_required(VERSION 3.16)\nproject(plan LANGUAGES C CXX)\n"
    more = "add_executable(plan_cpp plan.cpp)\ntarget_link_libraries(plan_cpp kimorefo::kimorefo)\n"
    (project / "CMakeLists.txt").write_text(head + block_of("cmake") + more, encoding="utf-8")
    run("cmake", "-S", project, "-B", project / "build", f"-DCMAKE_PREFIX_PATH={prefix}")
    run("cmake", "--build", project / "build")
    yield "c", project / "build" / "plan"
    yield "cpp", project / "build" / "plan_cpp"


def by_pkg_config(folder, prefix):
    """The program in C as the flags of pkg-config make it."""
    library = library_in(prefix).parent
    env = os.environ | {"PKG_CONFIG_PATH": str(library / "pkgconfig")}
    flags = run("pkg-config", "--cflags", "--libs", "kimorefo", env=env).split()
    run("cc", *WARNINGS, PROGRAMS["c"][0], *flags, f"-Wl,-rpath,{library}", "-o", folder / "plan_by_pkg_config")
    yield "c", folder / "plan_by_pkg_config"


def by_cargo(folder, prefix):
    """The program in Rust."""
    crate = folder / "rust"
    shutil.copytree(BINDINGS / "rust", crate, ignore=shutil.ignore_patterns("target", "Cargo.lock"))
    env = os.environ | {"KIMOREFO_LIB": str(library_in(prefix)), "CARGO_TARGET_DIR": str(folder / "target")}
    run("cargo", "build", "--offline", "--quiet", "--example", "plan", cwd=crate, env=env)
    yield "rust", folder / "target" / "debug" / "examples" / "plan"


def block_of(language):
    """The block of the page in a language."""
    return PAGE.read_text(encoding="utf-8").split(f"```{language}\n")[1].split("```\n")[0]


def wrong_blocks():
    """The programs of the page that are not as they are in bindings/."""
    for language, (file, _) in PROGRAMS.items():
        if block_of(language) != file.read_text(encoding="utf-8"):
            yield f"{PAGE.name} does not show {file.name} as it is"


def pasted(folder, archive):
    """The program in C as the commands of the page make it, in a copy of what they read."""
    copy = folder / "checkout"
    shutil.copytree(BINDINGS, copy / "bindings")
    shutil.copytree(EXAMPLES, copy / "examples")
    place = copy / "crates" / "plan_c" / "out"
    place.mkdir(parents=True)
    shutil.copy(archive, place / "libplan_c.a")
    commands = block_of("sh").replace(PAGE_FOLDER, str(folder / "pasted")).replace("rt lib", "true")
    run("sh", "-e", "-c", commands, cwd=copy)
    yield "c", Path(folder / "pasted" / "plan")
