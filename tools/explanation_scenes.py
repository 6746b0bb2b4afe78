"""Scenes that are not refused, and what is to be said of each: starts and goals that are not clear, marks, gaps."""

from explanation_cases import Case
from kimorefo.reports import GOAL_BLOCKED, START_BLOCKED

# A square body with its origin in its lower left corner. The zone of the obstacle is x from 36 to 60 and y up to 60.
FIELD = (
    b"prrt 1\nroom 100 100\nbody 0 0 4 0 4 4 0 4\nobstacle 40 0 60 0 60 60 40 60\n"
    b"start 5 5\ngoal 80 80 90 90\nstep 25\ngamma 70\nmarks 500\n"
)
LINES = {line.split()[0]: line for line in FIELD.split(b"\n") if line}
# Two walls, with a gap between them that is as high as the body.
PASSAGE = FIELD.replace(LINES[b"obstacle"], b"obstacle 40 0 60 0 60 48 40 48\nobstacle 40 52 60 52 60 100 40 100")


def field(*lines, text=FIELD):
    """The scene with these lines in place of those of their keys; a clearance makes it one of version 2."""
    for line in lines:
        text = text.replace(LINES[line.split()[0]], line)
    return text


def with_clearance(clearance, *lines):
    """The same in version 2, with a clearance."""
    return field(b"prrt 2\nclearance %d" % clearance, *lines)


def blocked(name, text, *telling, **more):
    """The case of a scene whose start is not clear."""
    return Case(name, text, START_BLOCKED, telling, words="plan 1", **more)


def planned(name, text, *telling, **more):
    """The case of a scene that can be planned."""
    return Case(name, text, "", telling, words="plan 1", **more)


TWIN = (GOAL_BLOCKED, 8)
BAR = b"obstacle 0 40 100 40 100 60 0 60\nobstacle 40 0 60 0 60 100 40 100"
STARTS = [
    blocked(
        "touching",
        field(b"start 36 20"),
        "The start 36 20 (line 5) is not clear",
        "touches the obstacle of line 4, which is a collision",
        "To be clear of the body, the obstacle has to move 1 lattice step right",
        "makes the start clear is 1 lattice step left, to 35 20",
    ),
    blocked(
        "overlapping",
        field(b"start 38 20"),
        "The body overlaps the obstacle of line 4.",
        "To be clear of the body, the obstacle has to move 3 lattice steps right",
        "makes the start clear is 3 lattice steps left, to 35 20",
    ),
    blocked(
        "overlapping above",
        field(b"start 50 59"),
        "The body overlaps the obstacle of line 4.",
        "To be clear of the body, the obstacle has to move 2 lattice steps down",
        "makes the start clear is 2 lattice steps up, to 50 61",
    ),
    blocked(
        "at exactly the clearance",
        with_clearance(5, b"start 31 20"),
        "does not touch the obstacle of line 5, but is at exactly the clearance of 5",
        "the obstacle has to move 1 lattice step right",
        "1 lattice step left, to 30 20",
    ),
    blocked(
        "within the clearance",
        with_clearance(5, b"start 33 20"),
        "does not touch the obstacle of line 5, but comes within the clearance of 5",
        "the obstacle has to move 3 lattice steps right",
        "3 lattice steps left, to 30 20",
    ),
    blocked(
        "touching, with a clearance",
        with_clearance(5, b"start 36 20"),
        "The body touches the obstacle of line 5",
        "the obstacle has to move 6 lattice steps right",
        "6 lattice steps left, to 30 20",
    ),
    blocked(
        "past a wall",
        field(b"start 97 20"),
        "past the right wall by 1 lattice step.",
        "is 1 lattice step left, to 96 20",
    ),
    blocked(
        "past the upper wall",
        field(b"start 5 99"),
        "past the upper wall by 3 lattice steps",
        "3 lattice steps down, to 5 96",
    ),
    blocked(
        "past the left and the lower wall",
        field(b"body -2 -3 2 -3 2 2 -2 2", b"start 1 2"),
        "past the left wall by 1 lattice step.",
        "past the lower wall by 1 lattice step.",
        "No move along one axis makes the start clear",
        "x from 2 to 98 and y from 3 to 98",
    ),
    blocked(
        "far outside",
        field(b"start 200 300"),
        "past the right wall by 104 lattice steps",
        "past the upper wall by 204 lattice steps",
        "x from 0 to 96 and y from 0 to 96",
    ),
    blocked(
        "in two obstacles",
        field(b"start 37 20", b"obstacle 40 0 60 0 60 60 40 60\nobstacle 30 0 34 0 34 60 30 60"),
        "overlaps the obstacle of line 4. To be clear of the body, the obstacle has to move 2 lattice steps right",
        "makes the start clear is 2 lattice steps left, to 35 20",
    ),
    blocked(
        "in two obstacles at once",
        field(b"start 34 20", b"obstacle 37 0 60 0 60 60 37 60\nobstacle 30 0 35 0 35 60 30 60"),
        "line 4. To be clear of the body, the obstacle has to move 2 lattice steps right",
        "line 5. To be clear of the body, the obstacle has to move 2 lattice steps left",
        "makes the start clear is 9 lattice steps left, to 25 20",
    ),
    blocked(
        "where bars cross",
        field(BAR, b"start 50 50"),
        "line 4. To be clear of the body, the obstacle has to move 11 lattice steps down",
        "No move along one axis makes the start clear",
    ),
    blocked(
        "in many obstacles",
        field(b"start 39 20", b"\n".join([b"obstacle 40 0 60 0 60 60 40 60"] * 23)),
        "the obstacle of line 23.",
        "3 more obstacles are in the way",
    ),
    blocked(
        "a body that fits nowhere",
        field(b"body -1 0 100 0 0 5"),
        "fits nowhere in the room",
        "it is 101 wide and 5 high, and the room is 100 wide and 100 high",
    ),
    blocked("a body beside its origin", field(b"body 90 0 102 0 102 5"), "it is 102 wide and 5 high, and the"),
]

GOALS = [
    planned(
        "in an obstacle",
        field(b"goal 40 10 50 20"),
        "The goal of line 6 has no lattice point that is clear, so no path ends in it",
        "the obstacle of line 4 covers all of it.",
        "5 lattice steps left, after which 35 ",
        "lies in it and is clear. `twin W` ends with `goal blocked`",
    ),
    Case(
        "in an obstacle, from both ends",
        field(b"goal 41 10 50 20"),
        "",
        ("is 6 lattice steps left, after which 35 ", "lies in it and is clear. `twin W` ends with `goal blocked`"),
        words="twin 1",
        program=TWIN,
    ),
    planned(
        "a point",
        field(b"goal 36 21 36 21"),
        "The goal 36 21 (line 6) is not clear. The body touches the obstacle of line 4",
        "makes the goal clear is 1 lattice step left, to 35 21. No path ends in it",
    ),
    planned(
        "in two obstacles together",
        field(b"goal 40 10 70 20", b"obstacle 40 0 60 0 60 60 40 60\nobstacle 60 0 70 0 70 60 60 60"),
        "the obstacles of lines 4 and 5 cover all of it",
        "makes the goal clear is 1 lattice step right, after which 71 10 lies in it",
    ),
    planned(
        "between two obstacles, with a clear point",
        field(b"goal 40 10 70 20", b"obstacle 40 0 60 0 60 60 40 60\nobstacle 66 0 70 0 70 60 66 60"),
        "The middle 55 15 of the first goal (line 7) is not clear",
        "makes the middle clear is 6 lattice steps right, to 61 15. This matters for `twin W` alone",
    ),
    Case(
        "the middle of the first goal",
        field(b"goal 31 10 50 20"),
        "",
        (
            "The middle 40 15 of the first goal (line 6) is not clear",
            "is 5 lattice steps left, to 35 15",
            "This matters for `twin W` alone",
        ),
        words="twin 1",
        program=TWIN,
    ),
    planned(
        "outside the room",
        field(b"goal 150 50 160 60"),
        "The goal of line 6 lies outside the room",
        "54 lattice steps left, after which 96 50 lies in it",
    ),
    planned(
        "far outside",
        field(b"goal 200 200 210 210"),
        "line 6 lies outside the room",
        "No move along one axis makes the goal",
    ),
    planned(
        "where the body does not fit",
        field(b"goal 98 10 100 20"),
        "The goal of line 6 lies where the body does not fit in the room",
        "2 lattice steps left, after which 96 10 lies in it",
    ),
    planned(
        "partly where the body does not fit",
        field(b"goal 90 10 100 20", b"obstacle 92 0 96 0 96 100 92 100"),
        "the obstacle of line 4 covers all of it where the body fits in the room",
        "3 lattice steps left, after which 87 ",
    ),
    planned(
        "a second goal",
        field(b"prrt 2", b"goal 80 80 90 90\ngoal 44 10 50 20"),
        "The goal of line 7 has no lattice point that is clear",
        "9 lattice steps left, after which 35 10 lies in it",
        absent=("twin W",),
    ),
    planned(
        "with one clear point",
        field(b"goal 36 0 60 61", b"start 50 80"),
        "The middle 48 30 of the first goal",
        absent=("no lattice point",),
    ),
    planned(
        "on the line between two obstacles",
        b"prrt 1\nroom 60000 65000\nobstacle 0 0 60000 0 60000 60000\nobstacle 0 1 60000 60001 0 60001\n"
        b"start 0 65000\ngoal 9000 9000 51000 51000\nstep 25\ngamma 70\nmarks 5000\n",
        "Whether the goal of line 6 has a clear lattice point was not decided",
    ),
    planned(
        "below the line between two obstacles",
        b"prrt 1\nroom 60000 65000\nobstacle 0 0 60000 0 60000 60000\nobstacle 0 1 60000 60001 0 60001\n"
        b"start 0 65000\ngoal 1000 100 50000 200\nstep 25\ngamma 70\nmarks 5000\n",
        "the obstacle of line 3 covers all of it. How far the goal has to move was not decided",
    ),
    planned(
        "on a line with one clear point in its middle",
        b"prrt 1\nroom 60000 65000\nobstacle 0 0 29999 0 29999 29999\n"
        b"obstacle 29999 0 30001 0 30001 29999 29999 29999\nobstacle 30001 0 60000 0 60000 60000 30001 30001\n"
        b"obstacle 0 1 60000 60001 0 60001\nstart 0 65000\ngoal 9000 9000 51000 51000\nstep 25\ngamma 70\nmarks 5000\n",
        "No fault was found in this scene",
        "4 obstacles",
    ),
]

SAMPLES = [
    planned(
        "no marks",
        field(b"marks 500")[: -len(b"marks 500\n")],
        "no line `marks` and no line `mark`",
        "try `marks 2000`",
    ),
    planned("marks 0", field(b"marks 0"), "`marks` is 0 (line 9)", "the tree stays the start alone"),
    planned(
        "no gamma", field().replace(b"gamma 70\n", b""), "Gamma is 0 (there is no line `gamma`)", "RRT", "`gamma 80`"
    ),
    planned("gamma 0", field(b"gamma 0", b"room 100 300"), "Gamma is 0 (line 8)", "RRT", "area: `gamma 138`"),
    planned(
        "marks that do not reach",
        field(b"marks 3"),
        "the nearest is 107 lattice steps away (rounded up)",
        "3 marks lead no farther than 75, with edges of at most 25. It takes 5 marks or a step of 36",
    ),
    planned(
        "marks that just do not reach",
        field(b"goal 80 5 80 5", b"marks 2"),
        "75 lattice steps away",
        "3 marks or a step of 38",
    ),
    planned(
        "marks that just reach", field(b"goal 80 5 80 5", b"marks 3"), "No fault was found", " 3 drawn marks, step 25"
    ),
    planned(
        "marks that do not reach the nearest of two goals",
        field(b"prrt 2", b"goal 95 95 96 96\ngoal 5 90 9 96").replace(b"marks 500", b"mark 9 9\nmark 8 8"),
        "the nearest is 85 lattice steps away (rounded up)",
        "2 marks lead no farther than 50",
    ),
    planned("strips", field(b"marks 500\nstrips 4"), "There are 4 strips (line 10)", "Leave `strips` out"),
    planned(
        "a scene of version 2",
        with_clearance(3, b"marks 500\ninformed 1"),
        "No fault was found in this scene: version 2, room 100 by 100, body of 4 corners, 1 obstacle, 1 goal,"
        " 500 drawn marks, step 25, gamma 70, clearance 3, informed.",
    ),
]

MANY_GAPS = field(b"\n".join(b"obstacle %d 40 %d 40 %d 60 %d 60" % (x, x + 1, x + 1, x) for x in range(2, 98, 3)))
WELL, NO_GAP = "No fault was found in this scene", ("too narrow",)
GAPS = [
    planned(
        "as high as the body",
        PASSAGE,
        "between the obstacles of lines 4 and 5, about 48 48: 1 lattice step wider along y",
    ),
    planned(
        "3 lattice steps lower",
        PASSAGE.replace(b"48", b"51"),
        "This is only a hint: a path may lead another way",
        "between the obstacles of lines 4 and 5, about 48 49: 4 lattice steps wider along y",
    ),
    planned(
        "1 lattice step higher",
        field(b"marks 501", text=PASSAGE).replace(b"48", b"47"),
        WELL,
        "501 drawn",
        absent=NO_GAP,
    ),
    planned(
        "none, if obstacles touch",
        field(b"marks 502", text=PASSAGE).replace(b"48", b"52"),
        WELL,
        "502 drawn",
        absent=NO_GAP,
    ),
    planned(
        "between two corners",
        field(b"obstacle 40 40 50 40 50 50 40 50\nobstacle 53 52 63 52 63 62 53 62"),
        "between the obstacles of lines 4 and 5, about 49 49: 2 lattice steps wider along x",
    ),
    planned(
        "with a clearance",
        with_clearance(5, b"obstacle 40 0 60 0 60 40 40 40\nobstacle 40 53 60 53 60 100 40 100"),
        "between the obstacles of lines 5 and 6, about 48 44: 2 lattice steps wider along y",
    ),
    planned(
        "above the lower wall",
        field(b"obstacle 40 3 60 3 60 60 40 60"),
        "between the obstacle of line 4 and the lower wall, about 48 0: 2 lattice steps wider along y",
    ),
    planned(
        "as wide as the body before the right wall",
        field(b"obstacle 76 10 96 10 96 60 76 60"),
        "between the obstacle of line 4 and the right wall, about 96 33: 1 lattice step wider along x",
    ),
    planned(
        "of a body round its origin before the left wall",
        field(b"body -2 -2 2 -2 2 2 -2 2", b"obstacle 3 20 30 20 30 60 3 60"),
        "between the obstacle of line 4 and the left wall, about 2 40: 2 lattice steps wider along x",
    ),
    planned(
        "of a slope below the upper wall",
        field(b"obstacle 40 90 60 70 60 99"),
        "between the obstacle of line 4 and the upper wall, about 54 96: 4 lattice steps wider along y",
    ),
    planned(
        "none, if the wall is touched",
        field(b"obstacle 0 20 30 20 30 60 0 60", b"marks 503"),
        WELL,
        "503 drawn marks",
        absent=NO_GAP,
    ),
    planned(
        "none, if the obstacle is outside",
        with_clearance(9, b"obstacle 20 -5 60 -5 60 -1 20 -1", b"start 50 50"),
        WELL,
        "clearance 9",
        absent=NO_GAP,
    ),
    planned(
        "none, if zones meet outside alone",
        field(b"obstacle 20 -9 30 -9 30 1 20 1\nobstacle 33 -9 40 -9 40 1 36 1", b"marks 504"),
        WELL,
        "504 drawn marks",
        absent=NO_GAP,
    ),
    planned(
        "many",
        MANY_GAPS,
        "between the obstacle of line 35 and the right wall, about 96 48: 1 lattice step wider along x",
        "between the obstacles of lines 4 and 5, about 2 48: 3 lattice steps wider along x",
        "- and 13 more.",
    ),
]
SCENES = [*STARTS, *GOALS, *SAMPLES, *GAPS]
