#!/usr/bin/env python3
"""Checks what explain.py says: of all refusals that docs/scene-format.md shows, of scenes, and of random ones.

Usage: explanations.py [PROGRAM]. Of each case of explanation_cases.py and explanation_scenes.py it looks whether
- the line and the kind of a refusal are those of scene_text.py, and the status is that of the program;
- the explanation has the words and numbers of the case, and that of no other case does;
- the lines that are proposed in place of a refused one are those of the case, and scene_text.py takes them;
- each row of the tables of refusals in docs/scene-format.md has a case, and each key the names of its numbers;
- a built PROGRAM, if one is given, writes the same line and ends with the same status.

Of random texts it looks at the verdict and the proposed lines, and of random scenes, by brute_moves.py, whether
- the least move of a start, an obstacle or a goal makes it clear, and one lattice step less does not;
- a goal is said to be covered exactly if none of its lattice points is clear;
- a gap is said to be too narrow exactly if its obstacles, or the obstacle and the wall, do not meet and the zones do,
  or the zone and the edge; and so many lattice steps more, and no fewer, part them.

It prints how often each was looked at, and ends with 1 if anything was wrong.
"""

import os
import random
import re
import subprocess
import sys
from collections import Counter
from dataclasses import replace
from itertools import combinations, product
from unittest import mock

from brute_moves import AWAY, WAYS, fewest_steps, has_clear_point, is_narrow_at, lattice_points
from brute_moves import meet, meet_in_room, moved, wall_ends
from explanation_cases import REFUSALS
from explanation_scenes import MANY_GAPS, SCENES
from kimorefo.batches import read_batch
from kimorefo.explaining.answers import answer_for, line_numbers
from kimorefo.explaining.boxes import Box
from kimorefo.explaining.gaps import WALLS, narrow_gaps, part_within
from kimorefo.explaining.moves import least_move, moves_out, nearest_clear_box
from kimorefo.explaining.scene_faults import Site, goal_fault
from kimorefo.explaining.text_faults import FORMS, Part, explain_fault
from kimorefo.geometry import Space, contains, segment_meets
from kimorefo.reports import START_BLOCKED
from kimorefo.scene_text import KEYS, MOST_CORNERS, MOST_TEXT_BYTES, Fault, lines_of, read
from make_scenes import scene_of, with_faults

FOLDER = os.path.dirname(os.path.abspath(__file__))
FORMAT = os.path.join(FOLDER, "..", "docs", "scene-format.md")
# The statuses of a program that plans, and of explain.py, with what the latter writes.
PLANNED, UNUSED, REFUSED, BLOCKED, UNREAD = (0, 1), 2, 3, 4, 5
BEGINS = {0: "The start is clear. ", 2: "Usage: explain.py SCENE", 3: "line 1 kind 1 Version\n"}
BEGINS |= {4: "start blocked\n", 5: "could not be read"}
ODD_BYTES = (b"", b"\r", b"\t", b"#", b",", b"-", b".", b"0", b"\xff", b" ", b"\n")
SCENE_NUMBERS = range(300)
LARGE_NUMBERS = range(50)
FAULT_NUMBERS = range(1_000)


class Checks:
    """What was looked at, how often, and what was wrong."""

    def __init__(self):
        self.counts, self.wrong = Counter(), []

    def note(self, what, name, is_right):
        """Counts something that was looked at, and keeps its name if it was wrong."""
        self.counts[what] += 1
        if not is_right:
            self.wrong.append((what, name))

    def ending(self):
        """Prints what was counted and what was wrong, and gives the exit status."""
        for what, times in self.counts.items():
            print(f"{what}: {times}")
        for what, name in self.wrong:
            print(f"wrong: {what}: {name}")
        print(f"{self.counts.total()} checks, {len(self.wrong)} wrong")
        return 1 if self.wrong else 0


def first_fault(case):
    """The line with which scene_text.py refuses the text of a case, read as its words read it; none if it does not."""
    if len(case.text) > MOST_TEXT_BYTES:
        return "text too long"
    if case.words.startswith("batch"):
        return refusal_of(case.text, read_batch)
    scene = case.text.split(b"\nreport\n")[0] + b"\n" if case.words == "check" else case.text
    return refusal_of(scene)


def refusal_of(text, reader=read):
    """The line with which scene_text.py, or another reader, refuses a text; none if it does not."""
    try:
        reader(text)
    except Fault as fault:
        return str(fault)
    return ""


def check_cases(checks, cases, program):
    """Looks at each case, and at all explanations together."""
    answers = [answer_for(case.text) for case in cases]
    for case, answer in zip(cases, answers):
        check_case(checks, case, answer)
        others = [other.name for other, said in zip(cases, answers) if other is not case and tells(case, said)]
        checks.note("an explanation that no other case has", f"{case.name}: {others}", not others)
        if program:
            check_program(checks, case, program)


def proposed_in(text):
    """The lines that an explanation proposes."""
    return tuple(line.encode() for line in re.findall(r"(?<=^    ).+$", text, re.MULTILINE))


def tells(case, answer):
    """Whether an answer has the verdict of a case, all that is telling of it, and the lines that mend it."""
    text = answer.text()
    has_words = all(word in text for word in case.telling) and not any(word in text for word in case.absent)
    return answer.verdict == case.verdict and has_words and proposed_in(text) == case.mended


def check_case(checks, case, answer):
    """Looks at the verdict, the status, the words and the proposed lines of a case."""
    text = answer.text()
    if case.verdict != START_BLOCKED:
        checks.note("a verdict", case.name, answer.verdict == case.verdict == first_fault(case))
    else:
        checks.note("a verdict", case.name, answer.verdict == START_BLOCKED and not first_fault(case))
    status = BLOCKED if case.verdict == START_BLOCKED else REFUSED if case.verdict else 0
    checks.note("a status", case.name, answer.status == status)
    absent = [word for word in case.telling if word not in text] + [word for word in case.absent if word in text]
    checks.note("an explanation", f"{case.name}: {absent} in {text}", not absent)
    checks.note("proposed lines", f"{case.name}: {proposed_in(text)}", proposed_in(text) == case.mended)


def check_program(checks, case, program):
    """Looks at how a built program ends on a case."""
    written, ended = run([program, *case.words.split()], case.text)
    verdict, status = case.program or (case.verdict, BLOCKED if case.verdict == START_BLOCKED else REFUSED)
    is_right = (written, ended) == (f"{verdict}\n", status) if verdict else ended in PLANNED
    checks.note("an ending of the program", f"{case.name}: {written[:80]}", is_right)


def run(words, text):
    """What a call with these words writes of a text, also as a complaint, and its status."""
    output = subprocess.PIPE
    done = subprocess.run(words, input=text, stdout=output, stderr=subprocess.STDOUT, timeout=600, check=False)
    return done.stdout.decode(), done.returncode


def check_rows(checks):
    """Looks whether each row of the tables of refusals has a case, but for the refusal that never comes."""
    with open(FORMAT, encoding="utf-8") as file:
        refusals = file.read().split("\n## Refusals\n")[1].split("\n## ")[0]
    lines = [line for line in refusals.split("\n") if line.startswith("| ") and "`10 Unbuilt`" not in line]
    rows = {line.strip("| ").split(" | ")[0] for line in lines} - {"check", "the line"}
    cases = {case.row for case in REFUSALS} - {""}
    for row in rows | cases:
        checks.note("a row of docs/scene-format.md", row, row in rows and row in cases)
    for key in KEYS[2]:
        checks.note("a key with the names of its numbers", key.decode(), (key in FORMS) != (key in MOST_CORNERS))


def takes(text, proposed):
    """Whether scene_text.py takes the proposed lines in place of the line of a text that it refuses."""
    lines = lines_of(text)
    number = int(refusal_of(text).split()[1])
    lines[number - 1 : number] = proposed
    verdict = refusal_of(b"".join(line + b"\n" for line in lines))
    return not verdict or int(verdict.split()[1]) >= number + len(proposed)


def check_faults(checks, number, version):
    """Looks at a random text with faults, with some bytes changed too."""
    rng = random.Random(f"explanations {number} {version}")
    text = bytearray(with_faults(number, version))
    for _ in range(rng.choice([0, 0, 1, 2])):
        place = rng.randrange(len(text))
        text[place : place + rng.choice([0, 1])] = rng.choice(ODD_BYTES)
    text = bytes(text)
    answer = answer_for(text)
    verdict = refusal_of(text)
    is_right = answer.verdict == verdict if verdict else answer.verdict in ("", START_BLOCKED)
    checks.note("a verdict of a random text", f"{number} {version}", is_right and len(answer.said) > 0)
    if verdict:
        _, line, _, kind, _ = verdict.split()
        proposed = explain_fault(Part(lines_of(text)), Fault(int(line), int(kind))).mended
        if proposed:
            checks.note("proposed lines of a random text", f"{number} {version}", takes(text, proposed))


def random_scene(number, version):
    """A small random scene with a start and goals anywhere, also outside the room; some bodies are too large for it."""
    rng = random.Random(f"explanations {number} {version}")
    scene = scene_of(number // 7 * 8 + number % 7, version)
    width, height = scene.room
    goals = []
    for _ in range(rng.choice([1, 1, 3]) if version == 2 else 1):
        x, y = rng.randint(0, width + 3), rng.randint(0, height + 3)
        goals.append((x, y, x + rng.randint(0, 3), y + rng.randint(0, 3)))
    size = rng.choice([1] * 19 + [15])
    body = [(size * x, size * y) for x, y in scene.body]
    return replace(scene, start=(rng.randint(0, width + 2), rng.randint(0, height + 2)), goals=goals, body=body)


def site_of(scene):
    """A scene with the numbers of its lines, as it is explained."""
    return Site(scene, line_numbers(Part(lines_of(scene.text().encode()))))


def check_scene(checks, number, version):
    """Looks at the start, the goals and the gaps of a random scene."""
    scene = random_scene(number, version)
    space, site, name = Space(scene), site_of(scene), f"{number} {version}"
    answer = answer_for(scene.text().encode())
    is_clear = space.is_clear(scene.start, scene.start)
    checks.note("a start", name, answer.status == (0 if is_clear else BLOCKED))
    if site.room.is_empty:
        checks.note("a body that fits nowhere", name, "fits nowhere" in answer.text())
        return
    if not is_clear:
        check_move(checks, name, site, space, (*scene.start, *scene.start), answer.text())
        check_obstacles(checks, name, site, space, answer.text())
    for line, goal in zip(site.lines[b"goal"], scene.goals):
        check_goal(checks, name, site, space, line, goal)
    check_gaps(checks, name, site, space)


def clears(space, goal, move, room):
    """Whether a goal has a clear point after a move, and has none with one lattice step less."""
    before, after = (moved([goal[:2], goal[2:]], WAYS[move.direction], n) for n in (move.steps - 1, move.steps))
    return not has_clear_point(space, sum(before, ()), room) and has_clear_point(space, sum(after, ()), room)


def check_move(checks, name, site, space, goal, text):
    """Looks at the least move of a start or a goal that has no clear point, and whether the text tells it."""
    move, fewest = least_move(site.zones, site.room, Box(*goal)), fewest_steps(space, goal, site.scene.room)
    if move is None:
        checks.note("no move along an axis", name, fewest is None and "No move along one axis" in text)
        return
    is_least = move.steps == fewest and clears(space, goal, move, site.scene.room)
    told = rf" {move.steps} lattice steps? {move.direction}, (to|after which) {move.point[0]} {move.point[1]}\b"
    is_clear = space.is_clear(move.point, move.point)
    checks.note("a least move", name, is_least and is_clear and bool(re.search(told, text)))


def check_obstacles(checks, name, site, space, text):
    """Looks at the least move of each obstacle that is in the way of the start."""
    start = site.scene.start
    blocking = [zone for zone, polygon in zip(site.zones, space.zones) if contains(polygon, start)]
    checks.note("the obstacles in the way", name, blocking == site.zones_at(start))
    for zone in blocking:
        direction, steps = min(moves_out([start], zone.polygon).items(), key=lambda move: move[1])
        still = [way for way, vector in WAYS.items() if contains(moved(zone.polygon, vector, steps - 1), start)]
        is_least = len(still) == 4 and not contains(moved(zone.polygon, WAYS[direction], steps), start)
        move = rf"To be clear of the body, the obstacle has to move {steps} lattice steps? {direction}\."
        is_told = re.search(rf"the obstacle of line {zone.line}\b[^.]*\. {move}", text)
        checks.note("a least move of an obstacle", name, is_least and bool(is_told))


def check_goal(checks, name, site, space, line, goal):
    """Looks whether a goal is told to have no clear point exactly if it has none."""
    said = goal_fault(site, Box(*goal), line)
    checks.note("a goal", name, bool(said) == (not has_clear_point(space, goal, site.scene.room)))
    if not said:
        return
    check_move(checks, f"{name}, goal", site, space, goal, said)
    inside = Box(*goal).cut_to(site.room)
    if not inside.is_empty:
        _, covering = nearest_clear_box(site.zones, [inside], lambda part: 0)
        points = [p for p in lattice_points(goal, site.scene.room) if space.is_in_room(p)]
        checks.note("a covered goal", name, all(any(contains(zone.polygon, p) for zone in covering) for p in points))


def check_gaps(checks, name, site, space):
    """Looks whether gaps are told to be too narrow exactly where they are, and by how much."""
    gaps, was_all = narrow_gaps(site.zones, site.whole, site.room)
    told = [(gap.line, gap.other) for gap in gaps]
    narrow = narrow_pairs(site.zones, space) + narrow_walls(site.zones, space, site.scene.room)
    checks.note("the gaps of a scene", name, sorted(told, key=str) == sorted(narrow, key=str) and was_all)
    polygon_of = {zone.line: zone.polygon for zone in site.zones}
    for gap in gaps:
        is_least = lacks(gap, polygon_of[gap.line], polygon_of.get(gap.other), space)
        corners = part_within(gap.polygon, gap.half_planes)
        checks.note("a gap", f"{name}: {gap}", is_least and all(contains(polygon_of[gap.line], p) for p in corners))


def narrow_pairs(zones, space):
    """The pairs of lines of obstacles that do not meet while their zones do in the room."""
    pairs = [(a, b) for a, b in combinations(zones, 2) if not meet(a.obstacle, b.obstacle)]
    return [(a.line, b.line) for a, b in pairs if meet_in_room(a.polygon, b.polygon, space)]


def narrow_walls(zones, space, room):
    """The pairs of a line and a wall with a gap that is too narrow."""
    pairs = product(zones, WALLS)
    return [(a.line, wall) for a, wall in pairs if is_narrow_at(wall, a.obstacle, a.polygon, space, room)]


def lacks(gap, zone, other, space):
    """Whether a gap is wide enough with so many lattice steps more, and not with one less, in any direction."""
    if other is None:
        ends = wall_ends(gap.other, space.low, space.high)
        met = [segment_meets(moved(zone, AWAY[gap.other], steps), *ends) for steps in (gap.lacking - 1, gap.lacking)]
        return met == [True, False] and WAYS[gap.direction] == AWAY[gap.other]
    is_met_before = all(meet(zone, moved(other, way, gap.lacking - 1)) for way in WAYS.values())
    return is_met_before and not meet(zone, moved(other, WAYS[gap.direction], gap.lacking))


def check_large(checks, number, version):
    """Looks at a scene with great coordinates whose start is the corner of an obstacle, but not at all its points."""
    scene = scene_of(8 * number + 7, version)
    inside = [corner for obstacle in scene.obstacles for corner in obstacle if min(corner) >= 0]
    if not inside:
        return
    scene = replace(scene, start=random.Random(number).choice(inside))
    space, site, name = Space(scene), site_of(scene), f"{8 * number + 7} {version}"
    start = (*scene.start, *scene.start)
    if site.room.is_empty or space.is_clear(scene.start, scene.start):
        return
    move = least_move(site.zones, site.room, Box(*start))
    if move:
        checks.note("a least move among great coordinates", name, clears(space, start, move, scene.room))
    check_gaps(checks, name, site, space)


def check_limit(checks):
    """Looks whether it is said that not all pairs of obstacles were looked at, and only then."""
    more = "There may be more: not all pairs of obstacles were looked at"
    for most, is_said in ((30, True), (31, False)):
        with mock.patch("kimorefo.explaining.gaps.MOST_PAIRS", most):
            checks.note("a limit of pairs", str(most), (more in answer_for(MANY_GAPS).text()) == is_said)


def check_command(checks):
    """Looks how explain.py ends when it is called."""
    program = os.path.join(FOLDER, "explain.py")
    example = os.path.join(FOLDER, "..", "examples", "start-touches.scene")
    with open(example, "rb") as file:
        text = file.read()
    calls = [([example], b"", BLOCKED), (["-"], text, BLOCKED), (["-"], b"", REFUSED)]
    calls += [(["-"], text.replace(b"36 20", b"3 20"), 0), ([example + ".none"], b"", UNREAD)]
    calls += [([], b"", UNUSED), ([example, example], b"", UNUSED)]
    for words, given, status in calls:
        written, ended = run([sys.executable, program, *words], given)
        checks.note("a call", str(words), ended == status and BEGINS[status] in written)


def main(program=""):
    """Looks at everything, and gives the exit status."""
    checks = Checks()
    check_cases(checks, [*REFUSALS, *SCENES], program)
    check_rows(checks)
    check_command(checks)
    check_limit(checks)
    for number, version in product(FAULT_NUMBERS, (1, 2)):
        check_faults(checks, number, version)
    for number, version in product(SCENE_NUMBERS, (1, 2)):
        check_scene(checks, number, version)
    for number, version in product(LARGE_NUMBERS, (1, 2)):
        check_large(checks, number, version)
    return checks.ending()


if __name__ == "__main__":
    sys.exit(main(*sys.argv[1:]))
