#!/usr/bin/env python3
"""Tries the Python package of bindings/python: its values, its calls, its errors, its defaults and its shapes.

Usage: package.py PROGRAM [LIBRARY]. PROGRAM is the built program; LIBRARY is libkimorefo.so, or else a stand-in that is
compiled here and runs the program, so that the calls of the package are tried. It looks
- whether scenes, plans and errors are values, which are pickled, and whether scenes have the text that `show` writes;
- whether reports by the program and in process are those of examples/, also with too little room, from several threads
  and after a fork; and whether `check` says what `check` says;
- the best of several seeds, and limits of time;
- whether each refusal has the line, the kind and the sentences that `explain.py` has, and each ending its error;
- whether gamma is above the bound of Karaman and Frazzoli, and no more than a hundredth;
- shapes of GeoJSON and Shapely, the error of each that does not fit, and grids, whose rectangles cover what they are to;
- pictures, the program of docs/from-other-languages.md, and a wheel with a library in it.

It says what it skips: without cc, python3-shapely, mypy, or setuptools. It ends with 1 if anything was wrong.
"""

import math
import os
import pickle
import random
import re
import shutil
import subprocess
import sys
import tempfile
from collections import Counter
from concurrent.futures import ThreadPoolExecutor
from dataclasses import FrozenInstanceError, replace
from fractions import Fraction
from pathlib import Path
from unittest import mock
from xml.etree import ElementTree

import kimorefo
from explanation_cases import REFUSALS
from kimorefo import defaults, library
from kimorefo.explaining.answers import answer_for
from kimorefo.grids import rectangles
from kimorefo.scene_text import MOST_TEXT_BYTES
from package_shapes import GOOD_SHAPES, GRID, REAL, WRONG_SHAPES, shapely_shapes
from usage import words_or_usage

HERE = Path(__file__).resolve().parent
EXAMPLES, PACKAGE = HERE.parent / "examples", HERE.parent / "bindings" / "python"
PAGE = HERE.parent / "docs" / "from-other-languages.md"
SQUARE = [(40, 0), (60, 0), (60, 40), (40, 40)]
SMALL = {"room": (100, 60), "start": (5, 5), "goals": [(90, 50, 95, 55)], "obstacles": [SQUARE], "marks": 500}
# Scenes that the planner refuses, by what they have in place of the small one.
REFUSED = {
    "clockwise": {"obstacles": [SQUARE[::-1]]},
    "a large room": {"room": (2**20, 60)},
    "a side below 0": {"room": (-100, 60)},
    "no goal": {"goals": []},
    "a short step": {"step": 3},
    "many marks": {"marks": 2**18},
    "many goals": {"goals": [(1, 1, 2, 2)] * 17},
    "version 1": {"version": 1, "clearance": 0, "goals": [(1, 1, 2, 2)] * 2},
}


class Checks:
    """How many things were looked at, what was wrong, and what was skipped."""

    def __init__(self, program, shared):
        self.program, self.shared = program, shared
        self.counts, self.wrong, self.skipped = Counter(), [], []

    def note(self, what, name, is_right):
        """Counts one thing, and keeps it if it is wrong."""
        self.counts[what] += 1
        if not is_right:
            self.wrong.append(f"{what}: {name}")

    def raises(self, what, name, error, call):
        """Looks whether a call raises an error of this very class, which is a value; and gives it."""
        try:
            call()
        except Exception as raised:
            is_value = not issubclass(error, kimorefo.KimorefoError) or (is_same(raised) and is_kept(raised))
            self.note(what, f"{name}: {raised!r}", type(raised) is error and is_value)
            return raised
        self.note(what, name, False)
        return None


def is_same(value):
    """Whether a value is pickled and hashed as the same."""
    other = pickle.loads(pickle.dumps(value))
    return other == value and hash(other) == hash(value) and type(other) is type(value)


def is_kept(value):
    """Whether a value has a short form, and nothing of it can be set."""
    for name in ("args", "room", "line"):
        try:
            setattr(value, name, ())
            return False
        except (FrozenInstanceError, AttributeError):
            continue
    return len(repr(value)) < 120 and "\n" not in repr(value)


def output_of(checks, words, text):
    """What the program writes."""
    done = subprocess.run([checks.program, *words.split()], input=text, capture_output=True, check=False, timeout=600)
    return done.stdout


def look_at_values(checks):
    """Looks whether scenes and plans are values."""
    scene = kimorefo.Scene(**SMALL)
    plan = kimorefo.smooth(scene, program=checks.program)
    real = kimorefo.plan(kimorefo.Scene.scaled("0.1", **REAL), program=checks.program, full=True)
    verdict = kimorefo.check(real.scene, real, program=checks.program)
    for value in (scene, plan, real.scene, real, verdict, plan.counts):
        checks.note("a value", repr(value), is_same(value) and is_kept(value))
    look_elsewhere(checks, [plan, real, kimorefo.Refused(3, 7, ("no",)), kimorefo.OutOfTime(2.5)])
    checks.note("a value", "another one", scene != replace(scene, seed=1) and kimorefo.Scene(**SMALL) == scene)
    checks.note("a plan", "in lattice steps", plan.points == plan.lattice_points and plan.length == plan.cost)
    ends = [(Fraction("0.5"), Fraction("0.5")), real.points[0]]
    checks.note("a plan", "in real units", ends[0] == ends[1] and real.length == real.cost / 10 and real.is_full)
    checks.note("a plan", "as a shape", real.__geo_interface__ == {"type": "LineString", "coordinates": real.floats})
    unchanged = kimorefo.Scene(**SMALL | {"marks": [(1, 2), (3, 4)], "informed": True, "clearance": 1})
    checks.note("a text", "read again", kimorefo.Scene.read(unchanged.text()) == unchanged)


def look_elsewhere(checks, values):
    """Looks what values tell that are unpickled where there is neither a library nor a program."""
    told = "[(repr(v), hash(v) != 0, getattr(v, 'floats', 0), getattr(v, 'counts', 0), len(v.svg() if hasattr(v, 'svg') else '')) for v in values]"
    code = f"import os, pickle, sys; values = pickle.load(sys.stdin.buffer); print({told}, os.environ.get('KIMOREFO_LIB'))"
    env = {key: value for key, value in os.environ.items() if not key.startswith("KIMOREFO_")} | {"PYTHONPATH": str(PACKAGE)}
    done = subprocess.run([sys.executable, "-c", code], input=pickle.dumps(values), capture_output=True, check=False, env=env)
    checks.note("values elsewhere", done.stderr.decode()[-300:], done.stdout.decode() == f"{eval(told, {'values': values})} None\n")


def look_at_examples(checks):
    """Looks at the scenes of examples/ with their reports, by the program and in process."""
    for path in sorted(EXAMPLES.glob("*.scene")):
        text, name = path.read_bytes(), path.stem
        scene = kimorefo.Scene.read(text)
        checks.note("a text", name, scene.text().encode() == output_of(checks, "show", text))
        checks.note("a text", f"{name}, bytes", kimorefo.Scene.read(b"# \xff\xfe\n" + text) == scene)
        ElementTree.fromstring(scene.svg())
        if output_of(checks, "plan 1", text).startswith(b"start blocked"):
            checks.raises("a blocked start", name, kimorefo.StartBlocked, lambda: kimorefo.plan(scene, program=checks.program))
            continue
        for words, call in CALLS.items():
            report = output_of(checks, words, text).decode()
            checks.note("a report", f"{name}, {words}", call(scene, program=checks.program).report == report)
            if checks.shared:
                checks.note("a report in process", f"{name}, {words}", call(scene).report == report)
        look_at_plan(checks, name, scene)


CALLS = {
    "plan 1": kimorefo.plan,
    "plan 1 full": lambda scene, **words: kimorefo.plan(scene, full=True, **words),
    "smooth 1": kimorefo.smooth,
}


def look_at_plan(checks, name, scene):
    """Looks at a plan of several workers: whether it is lawful, its path, its pictures; and at the same, changed."""
    plan = kimorefo.plan(scene, workers=4, full=True, program=checks.program)
    checks.note("a lawful report", name, bool(kimorefo.check(scene, plan, program=checks.program)))
    broken = kimorefo.check(scene, plan.report.replace("nodes ", "nodes 9", 1), program=checks.program)
    checks.note("a broken report", name, not broken and broken.law == 1 and broken.line > 0)
    if checks.shared:
        same = [kimorefo.check(scene, report) for report in (plan, plan.report.replace("nodes ", "nodes 9", 1))]
        checks.note("a verdict in process", name, same == [kimorefo.Verdict(True), broken])
    head = plan.report.splitlines()
    points = [tuple(map(int, line.split())) for line in head[1 : 1 + len(plan.lattice_points)]]
    is_path = plan.found == head[0].startswith("path") and list(plan.lattice_points) == points
    checks.note("a plan", name, is_path and (plan.cost is None) == (not plan.found))
    ElementTree.fromstring(plan._repr_svg_())
    with tempfile.TemporaryDirectory() as folder:
        files = Path(folder) / "a.scene", Path(folder) / "a.report"
        for file, text in zip(files, (scene.text(), plan.report)):
            file.write_text(text)
        drawn = [subprocess.run([HERE / "draw.py", *words, *files], capture_output=True, check=True) for words in ([], ["--page"])]
    checks.note("a picture", name, [plan.svg(), plan.page()] == [done.stdout.decode() for done in drawn])


def look_at_refusals(checks):
    """Looks at texts and scenes that are refused."""
    for case in REFUSALS:
        if case.words.split()[0] in ("batch", "check") or not case.verdict.startswith(("line", "text")):
            continue
        raised = checks.raises("a refused text", case.name, kimorefo.Refused, lambda text=case.text: kimorefo.Scene.read(text))
        said = answer_for(case.text).text() if b"\nnext" not in case.text and b"\nreport" not in case.text else ""
        checks.note("a refusal", case.name, str(raised).startswith(case.verdict) and (not said or str(raised) + "\n" == said))
    for name, other in REFUSED.items():
        scene = kimorefo.Scene(**SMALL | other)
        line, kind = map(int, output_of(checks, "plan 1", scene.text().encode()).split()[1:4:2])
        for words in [{"program": checks.program}] + [{}] * bool(checks.shared):
            raised = checks.raises("a refused scene", name, kimorefo.Refused, lambda: kimorefo.plan(scene, **words))
            checks.note("a refusal", name, (raised.line, raised.kind) == (line, kind) and len(raised.said) > 0)
    long = b"#" * (MOST_TEXT_BYTES + 1)
    raised = checks.raises("a refused text", "too long", kimorefo.Refused, lambda: kimorefo.Scene.read(long))
    checks.note("a refusal", "too long", str(raised).startswith("text too long\nThe text has "))


def look_at_endings(checks):
    """Looks at the other errors."""
    scene, no_library = kimorefo.Scene(**SMALL), mock.patch.dict(os.environ, {"KIMOREFO_LIB": ""})
    for name, program in {"the launcher": "prrt", "no file": "/none", "no program": "/etc/passwd"}.items():
        checks.raises("an ending", name, kimorefo.NoPlanner, lambda program=program: kimorefo.plan(scene, program=program))
    with no_library:
        checks.raises("an ending", "neither", kimorefo.NoPlanner, lambda: kimorefo.plan(scene))
        checks.raises("an ending", "two workers", kimorefo.NoPlanner, lambda: kimorefo.plan(scene, workers=2))
    with mock.patch.dict(os.environ, {"KIMOREFO_LIB": "/etc/passwd"}):
        checks.raises("an ending", "no library", kimorefo.NoPlanner, lambda: kimorefo.plan(scene))
    checks.raises("an ending", "a program that fails", kimorefo.PlannerFailed, lambda: kimorefo.plan(scene, program="/bin/cat"))
    with mock.patch.object(subprocess, "run", lambda *_, **__: subprocess.CompletedProcess([], 7, b"no memory\n")):
        checks.raises("an ending", "no memory", kimorefo.NoMemory, lambda: kimorefo.plan(scene, program=checks.program))
    for name, wrong in {"a float": {"room": (1.5, 2)}, "one number": {"start": (1,)}}.items():
        checks.raises("a wrong word", name, {"a float": TypeError}.get(name, ValueError), lambda: kimorefo.Scene(**SMALL | wrong))


def look_in_process(checks):
    """Looks at calls with too little room, from several threads, and after a fork."""
    if not checks.shared:
        return
    scene = kimorefo.Scene(**SMALL)
    right = kimorefo.plan(scene, full=True)
    with mock.patch.object(library, "FULL_REPORT", (1, 0)):
        checks.note("too little room", "full", kimorefo.plan(scene, full=True) == right)
    with ThreadPoolExecutor(8) as pool:
        plans = list(pool.map(lambda _: kimorefo.plan(scene, full=True), range(32)))
    checks.note("threads", "8", plans == [right] * 32)
    checks.note("a version", "of the library", library.version(library.path()) > 0)
    child = os.fork()
    if child == 0:
        os._exit(0 if kimorefo.plan(scene, full=True) == right else 1)
    checks.note("a fork", "after use", os.waitpid(child, 0)[1] == 0)


def look_at_seeds(checks):
    """Looks at the best of several seeds, at seeds that lie apart, and at those that share samples."""
    scene = kimorefo.Scene(**SMALL | {"seed": 2**64 - 1_500_000, "marks": 150})
    seeds = kimorefo.seeds_apart(scene, 5)
    checks.note("seeds", seeds, seeds == (2**64 - 1_500_000, 2**64 - 500_000, 500_000, 1_500_000, 2_500_000))
    for smoothed, call in {False: kimorefo.plan, True: kimorefo.smooth}.items():
        plans = [call(replace(scene, seed=seed), program=checks.program) for seed in seeds]
        least = min(plan.cost for plan in plans if plan.found)
        wanted = next(plan for plan in plans if plan.cost == least)
        for words in [{"program": checks.program}, {"program": checks.program, "threads": 1, "seconds": 60}] + [{}] * bool(checks.shared):
            checks.note("the best", f"{smoothed} {words}", kimorefo.best(scene, seeds, smoothed=smoothed, **words) == wanted)
    walled = replace(scene, goals=((200, 200, 201, 201),))
    first = kimorefo.plan(walled, program=checks.program)
    checks.note("the best", "of none", kimorefo.best(walled, seeds, program=checks.program) == first and not first.found)
    wrong = {"the same": (scene, [7, 7]), "near": (scene, [0, 149]), "near, round": (scene, [2**64 - 100, 0]), "none": (scene, [])}
    wrong["listed marks"] = (replace(scene, marks=((1, 1),)), [0, 1])
    for name, (own, given) in wrong.items():
        checks.raises("wrong seeds", name, ValueError, lambda: kimorefo.best(own, given, program=checks.program))
    checks.note("seeds", "as near as may be", kimorefo.best(scene, [0, 150], program=checks.program).found)
    for count in (0, 2**64 // 1_000_000 + 1):
        checks.raises("wrong seeds", count, ValueError, lambda: kimorefo.seeds_apart(scene, count))


def look_at_time(checks):
    """Looks at limits of time."""
    scene = kimorefo.Scene(**SMALL | {"marks": 262_143})
    plan = kimorefo.plan(kimorefo.Scene(**SMALL), program=checks.program, seconds=60)
    checks.note("a limit of time", "ample", plan == kimorefo.plan(kimorefo.Scene(**SMALL), program=checks.program))
    calls = {
        "plan": lambda seconds: kimorefo.plan(scene, program=checks.program, seconds=seconds),
        "smooth": lambda seconds: kimorefo.smooth(scene, program=checks.program, workers=2, seconds=seconds),
        "check": lambda seconds: kimorefo.check(plan.scene, "#" * 10**7, program=checks.program, seconds=seconds / 100),
        "best": lambda seconds: kimorefo.best(scene, [0, 10**6, 10**7], program=checks.program, seconds=seconds),
    }
    for name, call in calls.items():
        raised = checks.raises("a limit of time", name, kimorefo.OutOfTime, lambda: call(0.05))
        checks.note("a limit of time", f"{name}: {raised!r}", raised is not None and raised.seconds in (0.05, 0.0005))
    for seconds in (0, -1, math.inf, math.nan):
        checks.raises("a wrong limit", seconds, ValueError, lambda: calls["plan"](seconds))
    with mock.patch.dict(os.environ, {"KIMOREFO_PROGRAM": ""}):
        checks.raises("a limit of time", "no program", kimorefo.NoPlanner, lambda: kimorefo.plan(scene, seconds=1))


def look_at_defaults(checks):
    """Looks at step and gamma against the bound: gamma root(ln n / n) above root(3 A / pi), for all numbers of nodes."""
    rng = random.Random("defaults")
    for _ in range(200):
        width, height = (rng.randint(1, rng.choice([9, 99, 2**20 - 1])) for _ in "wh")
        bound = math.sqrt(3 * math.log(2) * width * height / math.pi)
        gamma = defaults.gamma_for(width, height)
        checks.note("gamma", f"{width} {height}", bound < gamma <= bound * 1.01 + 2)
        scene = kimorefo.Scene((width, height), (0, 0), [(0, 0, 1, 1)])
        is_tenth = scene.step == min(max(4, max(width, height) // 10), 65_536)
        checks.note("defaults", f"{width} {height}", is_tenth and scene.gamma == gamma and scene.marks == 5_000)
    for nodes in [*range(2, 5_000), *(2**k + d for k in range(12, 18) for d in (-1, 0, 1))]:
        digits = nodes.bit_length()
        checks.note("a radius", nodes, digits / 2 ** (digits - 1) >= math.log2(nodes) / nodes)


def look_at_shapes(checks):
    """Looks at shapes that fit, at those that do not, and at Shapely's."""
    for name, (other, wanted) in GOOD_SHAPES.items():
        scene = kimorefo.Scene.scaled("0.1", **REAL | other)
        checks.note("a shape", f"{name}: {scene.obstacles} {scene.body} {scene.notes}", wanted(scene))
    for name, (unit, other, error) in WRONG_SHAPES.items():
        checks.raises("a wrong shape", name, getattr(kimorefo, error), lambda: kimorefo.Scene.scaled(unit, **REAL | other))
    shapes = shapely_shapes()
    if shapes is None:
        checks.skipped.append("shapes of Shapely: there is no python3-shapely")
    for name, (other, same) in (shapes or {}).items():
        made = [kimorefo.Scene.scaled("0.1", **REAL | words) for words in (other, same)]
        checks.note("a shape of Shapely", name, made[0] == made[1])


def look_at_grids(checks):
    """Looks whether rectangles cover what is taken and nothing else, are as large as they can be, and are few."""
    rng = random.Random("grids")
    for number in range(300):
        columns, rows = rng.randint(1, 30), rng.randint(1, 30)
        share = rng.choice([0.1, 0.5, 0.9, 1])
        taken = [sum((rng.random() < share) << c for c in range(columns)) for _ in range(rows)]
        boxes = rectangles(taken)
        covered = [0] * rows
        for first_row, first, last_row, last in boxes:
            for row in range(first_row, last_row):
                covered[row] |= (1 << last) - (1 << first)
        checks.note("a grid", number, covered == taken and len(boxes) <= sum(mask.bit_count() for mask in taken))
        checks.note("rectangles that cannot grow", number, all(not can_grow(box, taken, columns) for box in boxes))
    scene = kimorefo.Scene.from_grid(GRID, "0.05", start=("0.02", "0.02"), goals=[("0.2", "0.2", "0.25", "0.25")])
    checks.note("a grid", "of a robot", len(scene.obstacles) == 2 and kimorefo.plan(scene, program=checks.program).found)
    many = [[(r + c) % 2 for c in range(60)] for r in range(60)]
    raised = checks.raises("a grid", "too many", kimorefo.TooManyParts, lambda: kimorefo.Scene.from_grid(many, start=(0, 0), goals=[(0, 0, 1, 1)]))
    checks.note("a grid", str(raised), "1,800 convex parts, 776 more" in str(raised))


def can_grow(box, taken, columns):
    """Whether a rectangle is part of a larger one."""
    first_row, first, last_row, last = box
    larger = [(first_row - 1, first, last_row, last), (first_row, first - 1, last_row, last),
              (first_row, first, last_row + 1, last), (first_row, first, last_row, last + 1)]
    return any(
        r0 >= 0 and c0 >= 0 and r1 <= len(taken) and c1 <= columns and all(taken[r] >> c & 1 for r in range(r0, r1) for c in range(c0, c1))
        for r0, c0, r1, c1 in larger
    )


def look_at_wheel(checks, folder):
    """Builds a wheel with the library in it, and plans by it alone; and looks at the types."""
    source = Path(folder) / "source"
    shutil.copytree(PACKAGE, source, ignore=shutil.ignore_patterns("__pycache__"))
    if checks.shared:
        shutil.copy(checks.shared, source / "kimorefo" / "libkimorefo.so")
    shutil.copy(checks.program, source / "kimorefo" / "planner_main")
    build = [sys.executable, "-m", "pip", "wheel", "--no-deps", "--no-build-isolation", "--no-index", "-q", "-w", folder, source]
    done = subprocess.run(build, capture_output=True, check=False)
    wheels = list(Path(folder).glob("kimorefo-*.whl"))
    if done.returncode or not wheels:
        checks.skipped.append(f"a wheel: pip has ended with {done.returncode}, {done.stderr.decode().strip()[-200:]}")
    else:
        shutil.unpack_archive(wheels[0], Path(folder) / "installed", "zip")
        (Path(folder) / "installed" / "kimorefo" / "planner_main").chmod(0o755)
        code = f"import kimorefo; s = kimorefo.Scene(**{SMALL}); print(kimorefo.plan(s).found, kimorefo.plan(s, workers=2).found)"
        env = {key: value for key, value in os.environ.items() if key != "KIMOREFO_LIB"} | {"PYTHONPATH": f"{folder}/installed"}
        ran = subprocess.run([sys.executable, "-c", code], capture_output=True, check=False, env=env, cwd=folder)
        checks.note("a wheel", ran.stderr.decode()[-300:], ran.stdout == b"True True\n")
    if not shutil.which("mypy"):
        checks.skipped.append("types: there is no mypy")
        return
    typed = subprocess.run(["mypy", f"--cache-dir={folder}/mypy", "-p", "kimorefo"], capture_output=True, check=False, cwd=PACKAGE)
    checks.note("types", typed.stdout.decode(), typed.returncode == 0)


def look_at_page(checks, folder):
    """Runs the program of the page, and looks whether it prints what the page says."""
    code, *rest = PAGE.read_text(encoding="utf-8").split("```python\n")[1].split("```\n")
    printed = re.search(r"It prints\n\n((    .*\n)+)", rest[0])[1].replace("    ", "")
    env = os.environ | {"PYTHONPATH": str(PACKAGE), "KIMOREFO_PROGRAM": str(checks.program)}
    done = subprocess.run([sys.executable, "-c", code], capture_output=True, check=False, env=env, cwd=folder)
    checks.note("the program of the page", done.stderr.decode()[-300:], done.stdout.decode() == printed)
    ElementTree.parse(Path(folder) / "hall.svg")
    forms = {PACKAGE / "pyproject.toml": r'^version = "(.*)"', HERE.parent / "CHANGELOG.md": r"^## (\d\S*)"}
    versions = {re.search(form, file.read_text(encoding="utf-8"), re.MULTILINE)[1] for file, form in forms.items()} | {kimorefo.__version__}
    checks.note("the version", versions, len(versions) == 1)


LOOKS = (
    look_at_values,
    look_at_examples,
    look_at_refusals,
    look_at_endings,
    look_in_process,
    look_at_seeds,
    look_at_time,
    look_at_defaults,
    look_at_shapes,
    look_at_grids,
)


def stand_in(folder, program):
    """A library that runs the program, or None without cc."""
    if not shutil.which("cc"):
        return None
    os.environ["KIMOREFO_STAND_IN"] = str(program)
    made = Path(folder) / "stand_in.so"
    subprocess.run(["cc", "-O1", "-shared", "-fPIC", "-o", made, HERE / "stand_in_library.c"], check=True)
    return made


def main(program, *libraries):
    """Looks at everything, and gives the exit status."""
    with tempfile.TemporaryDirectory() as folder:
        shared = Path(libraries[0]).resolve() if libraries else stand_in(folder, Path(program).resolve())
        checks = Checks(Path(program).resolve(), shared)
        if shared:
            os.environ["KIMOREFO_LIB"] = str(shared)
        if not libraries:
            checks.skipped.append("the library: a stand-in was called" if shared else "calls in process: there is no cc")
        for look in LOOKS:
            look(checks)
        for look in (look_at_page, look_at_wheel):
            look(checks, folder)
    for line in [*checks.wrong, *(f"skipped {what}" for what in checks.skipped)]:
        print(line)
    for what, count in checks.counts.items():
        print(f"{what}: {count}")
    print(f"{checks.counts.total()} checks, {len(checks.wrong)} wrong")
    return 1 if checks.wrong else 0


if __name__ == "__main__":
    sys.exit(main(*words_or_usage(__doc__)))
