"""Texts that are refused, and what is to be said of each: all refusals that docs/scene-format.md shows, and more."""

from dataclasses import dataclass

from kimorefo.reports import START_BLOCKED
from kimorefo.scene_text import KINDS, MOST_TEXT_BYTES

SCENE = b"prrt 1\nroom 100 100\nstart 0 0\ngoal 30 40 35 45\nstep 25\ngamma 70\nmarks 100\n"
SECOND = SCENE.replace(b"prrt 1", b"prrt 2")
LISTED = SCENE.replace(b"marks 100\n", b"")
BOM = b"\xef\xbb\xbf"
NUMBER_OF = {name: number for number, name in KINDS.items()}


@dataclass
class Case:
    """A text, the line with which the program refuses it, if it does, words of its explanation, and how it is read.

    Of a refused line that can be mended there are the lines to write in its place. A case may stand for a row of a
    table in docs/scene-format.md, named by its first cell. `program` is what the program writes and its status, if
    these are others, and `absent` what is not to be said.
    """

    name: str
    text: bytes
    verdict: str
    telling: tuple
    mended: tuple = ()
    words: str = "show"
    row: str = ""
    program: tuple | None = None
    absent: tuple = ()


def verdict_of(kind, line):
    """The line with which the program refuses a text."""
    return f"line {line} kind {NUMBER_OF[kind]} {kind}"


def refused(kind, line, name, text, *telling, **more):
    """The case of a text that is refused at a line."""
    return Case(name, text, verdict_of(kind, line), telling, **more)


def added(kind, name, line, *telling, text=SCENE, **more):
    """The case of a scene of seven lines with one more, which is refused."""
    return refused(kind, 8, name, text + line + b"\n", *telling, **more)


def changed(kind, name, old, new, *telling, text=SCENE, **more):
    """The case of a scene with a line in place of another, which is refused."""
    return refused(kind, text.split(b"\n").index(old) + 1, name, instead(old, new, text), *telling, **more)


def instead(old, new, text=SCENE):
    """The scene with a line in place of another, or without it."""
    return text.replace(old + b"\n", new + b"\n" * bool(new))


def many(count, line, text=SCENE):
    """The scene with a line so many times, each with its number."""
    return text + b"".join(line % n + b"\n" for n in range(count))


def batch(*texts):
    """The text of several scenes."""
    return b"next\n".join(texts)


def curve(count):
    """So many corners on a curve that bends to the left."""
    return b" ".join(b"%d %d" % (n, n * n) for n in range(count))


def encoded(name, text, *telling, line=1):
    """The case of a scene in another encoding."""
    return refused("Version", line, name, text, *telling)


WIDE = SCENE.decode()
RETURNS = SCENE.replace(b"\n", b"\r\n")
CHARACTERS = [
    refused("Version", 1, "Windows line ends", RETURNS, r"prrt 1\r", "Windows", r"tr -d '\r'", mended=(b"prrt 1",)),
    changed("Number", "one of them", b"step 25", b"step 25\r", r"step 25\r", "Windows", mended=(b"step 25",)),
    added("Key", "an empty line with one", b"\r", "Line 8 is: \\r\n", "Windows"),
    refused("Version", 1, "old line ends", SCENE.replace(b"\n", b"\r"), r"tr '\r' '\n'", "carriage returns inside"),
    encoded("UTF-16 with a mark", WIDE.encode("utf-16"), r"\xff\xfep", "by its byte order mark", "-f UTF-16 -t UTF-8"),
    encoded("the same, turned", ("\ufeff" + WIDE).encode("utf-16-be"), r"\xfe\xff", "order mark", "-f UTF-16 -t UTF-8"),
    encoded("UTF-16, the lower byte first", WIDE.encode("utf-16-le"), "Line 1", "lower byte first", "-f UTF-16LE -t"),
    encoded("UTF-16, the higher byte first", WIDE.encode("utf-16-be"), "higher byte first", "-f UTF-16BE -t UTF-8"),
    encoded("the same after a comment", b"#\0\n\0" + WIDE.encode("utf-16-le"), "is: \\x00p", "-f UTF-16LE", line=2),
    encoded("and empty lines", b"\n\0\n\0" + WIDE.encode("utf-16-le"), "Line 2 is: \\x00\n", "-f UTF-16LE", line=2),
    encoded("UTF-32", WIDE.encode("utf-32"), "The text is in UTF-32", "iconv -f UTF-32 -t UTF-8"),
    refused("Version", 1, "a byte order mark", BOM + SCENE, "EF BB BF", "tail -c +4", mended=(b"prrt 1",)),
    refused("Version", 1, "the same before a comment", BOM + b"# a\n" + SCENE, "EF BB BF", "    # a", mended=(b"# a",)),
    added("Key", "a tab after a key", b"seed\t5", r"seed\t5", "It has a tab", mended=(b"seed 5",)),
    changed("Words", "a tab", b"start 0 0", b"start 0\t0", r"start 0\t0", "It has a tab", mended=(b"start 0 0",)),
    added("Number", "a tab at the end", b"strips 1\t", r"strips 1\t", "It has a tab", mended=(b"strips 1",)),
    added(
        "Key",
        "a space that is none",
        b"seed\xc2\xa06",
        r"seed\xa06",
        "a space that is not the plain one",
        mended=(b"seed 6",),
    ),
    added(
        "Number",
        "a dash",
        b"body \xe2\x88\x921 0",
        "a dash that is not the hyphen",
        "body -1 0",
        mended=(b"body -1 0",),
    ),
]

BEGIN = "`prrt 1` or `prrt 2`"
VERSIONS = [
    changed("Version", "another version", b"prrt 1", b"prrt 3", "no version `3`", BEGIN, row="version"),
    changed("Version", "a capital", b"prrt 1", b"PRRT 1", "PRRT 1", "in lower case", mended=(b"prrt 1",)),
    changed("Version", "a comment", b"prrt 1", b"prrt 1 # a", "Nothing else may stand", mended=(b"prrt 1",)),
    changed("Version", "no number", b"prrt 1", b"prrt", "Line 1 is: prrt\n", "the two words of a version", BEGIN),
    changed("Version", "a point", b"prrt 1", b"prrt 2.0", "no version `2.0`", BEGIN, mended=(b"prrt 2",)),
    refused("Version", 1, "a key before it", b"room 9 9\n\n" + SCENE, "Line 3 has a version: move it to the top"),
    refused("Version", 1, "no version", SCENE[7:], "Line 1 is: room 100 100", BEGIN),
    refused(
        "Version", 4, "comments alone", b"# one\n\n  # two\n", "before the end of the text but comments and empty ones"
    ),
    refused("Version", 1, "no line", b"", "line 1 kind 1", "no line before the end of the text but comments"),
]

KEYS_AND_REPEATS = [
    added("Key", "a misspelt key", b"gaol 1 1 2 2", "`gaol` is no key", "of version 1 are room, body", row="key"),
    added("Key", "a capital", b"Seed 8", "`seed` in place of `Seed`", "in lower case", mended=(b"seed 8",)),
    added("Key", "a key of version 2", b"clearance 2", "`clearance` is a key of version 2", "begin it with `prrt 2`"),
    added("Key", "the other one", b"informed 1", "`informed` is a key of version 2", "begin it with `prrt 2`"),
    added("Key", "none of version 2", b"gate 1", "`gate` is no key", "mark, clearance and informed", text=SECOND),
    added("Key", "a second version", b"prrt 1", "stands in the first line alone", "a line `next`"),
    added("Key", "a separator with a space", b" next", "`batch`", "exactly `next`, without a space"),
    added("Key", "that of a report", b"report ", "`check`", "exactly `report`, without a space"),
    added("Key", "a report without its separator", b"nodes 2 placed 1", "`nodes` begins a line of a report"),
    added("Key", "a number at the beginning", b"12 4", "begins with a number", "stand in one line"),
    added("Key", "another sign for a comment", b"// walls", "`//` is no key. A comment begins with `#`"),
    added(
        "Repeat",
        "a key twice",
        b"room 100 100",
        "`room` stands in line 2 already",
        "one of the two lines",
        row="repeat",
    ),
    added(
        "Repeat",
        "a second goal",
        b"goal 1 1 2 2",
        "`goal` stands in line 4 already",
        "several goals, begin with `prrt 2`",
    ),
    refused(
        "Repeat", 9, "a second body", SCENE + b"body 0 0\nbody 1 1", "`body` stands in line 8", row="a second `body`"
    ),
    added("Repeat", "a mark after marks", b"mark 1 1", "`mark` may not stand beside `marks`, which stands in line 7"),
    refused("Repeat", 9, "marks after two", LISTED + b"mark 1 1\nmark 2 2\nmarks 5", "`mark`, which", "in line 7:"),
    refused("Repeat", 5, "line 5", b"prrt 1\nroom 9 9\nstep 4\nstart 0 0\nstep 5\n", "`step` stands in line 3 already"),
]

SIXTEEN_GOALS = many(15, b"goal %d 0 99 99", SECOND)
WORDS = [
    changed(
        "Words", "too few", b"start 0 0", b"start 5", "takes 2 numbers, `start x y`, and here stand 1", row="words"
    ),
    added("Words", "too many", b"seed 5 6", "takes 1 number, `seed n`, and here stand 2"),
    added("Words", "a comment", b"seed 5 # mine", "A comment needs a line of its own", mended=(b"seed 5",)),
    added("Words", "commas", b"obstacle 0,0 9,0 0,9", "leave the commas out", mended=(b"obstacle 0 0 9 0 0 9",)),
    added("Words", "two keys in a line", b"seed 5 strips 2", "A line has one key", "here stand 3"),
    added("Words", "a rod", b"body 0 0 1 0", "one corner, or three to 16", "here 2 corners", row="`body 0 0 1 0`"),
    added("Words", "a body without corners", b"body", "one corner, or three to 16", "here 0 corners"),
    added("Words", "a point", b"obstacle 5 5", "three corners at least", "1 corner stands", row="`obstacle 5 5`"),
    added(
        "Words", "half a corner", b"obstacle 0 0 9 0 9 9 0", "stand 7: half a corner", row="`obstacle 0 0 9 0 9 9 0`"
    ),
    refused("Words", 23, "words of the 17th goal", SIXTEEN_GOALS + b"goal 1 1 2\n", "takes 4 numbers", "here stand 3"),
]

MANY_MARKS = LISTED + b"mark 9 9\n" * 262_144
MANY = [
    refused("Many", 23, "the 17th goal", SIXTEEN_GOALS + b"goal a b c d\n", "line 17 with `goal`, and there may be 16"),
    added("Many", "17 corners", b"body " + curve(17), "`body` has 17 corners, and may have 16", row="many"),
    added(
        "Many",
        "65 corners",
        b"obstacle " + curve(65),
        "`obstacle` has 65 corners, and may have 64",
        row="a `body` of 17 corners, an `obstacle` of 65",
    ),
    refused(
        "Many",
        1_032,
        "the 1,025th obstacle",
        many(1_025, b"obstacle 50 50 9%d 50 50 99"),
        "line 1025 with `obstacle`, and there may be 1024",
        "leave out those outside the room",
        row="the 1,025th `obstacle`",
    ),
    refused("Many", 262_150, "the 262,144th mark", MANY_MARKS, "line 262144 with `mark`, and there may be 262143"),
]

NUMBERS = [
    added(
        "Number",
        "a decimal point",
        b"body 0 0 9 0 9 9.5",
        "`9.5` (y of corner 3)",
        "a decimal point",
        row="`body 0 0 9 0 9 9.5`",
    ),
    added("Number", "one before a half", b"seed 7.5", "`7.5` (n) has a decimal point"),
    added("Number", "that of a whole number", b"seed 7.0", "`7.0` (n) has a decimal point", mended=(b"seed 7",)),
    added("Number", "a decimal comma", b"seed 7,5", "`7,5` (n) has a decimal comma"),
    changed("Number", "an exponent", b"step 25", b"step 1e3", "`1e3` (s) has an exponent", mended=(b"step 1000",)),
    added("Number", "a negative exponent", b"seed 1e-3", "`1e-3` (n) has an exponent"),
    added("Number", "a great exponent", b"seed 1e999999999", "`1e999999999` (n) has an exponent"),
    added(
        "Number",
        "commas between thousands",
        b"seed 1,000,000",
        "`1,000,000` (n) has separators",
        mended=(b"seed 1000000",),
    ),
    added("Number", "one comma", b"seed 1,000", "`1,000` (n) has separators", mended=(b"seed 1000",)),
    added("Number", "underscores", b"seed 1_000", "`1_000` (n) has separators", mended=(b"seed 1000",)),
    added("Number", "apostrophes", b"seed 1'000", "`1'000` (n) has separators", mended=(b"seed 1000",)),
    added("Number", "a point that may do both", b"seed 1.000", "`1.000` (n) has a point: if it separates thousands"),
    added("Number", "a plus sign", b"seed +7", "`+7` (n) has a plus sign", mended=(b"seed 7",), row="number"),
    changed(
        "Number", "a zero first", b"start 0 0", b"start 05 5", "`05` (x) begins with a zero", mended=(b"start 5 5",)
    ),
    added("Number", "a zero before a digit", b"seed 07", "`07` (n) begins with a zero", mended=(b"seed 7",)),
    added("Number", "minus zero", b"seed -0", "`-0` (n) is zero with a minus sign", mended=(b"seed 0",)),
    added("Number", "base 16", b"seed 0x1F", "`0x1F` (n) is in base 16"),
    changed("Number", "a unit", b"step 25", b"step 25mm", "`25mm` (s) has more than digits", "without a unit"),
    changed("Number", "a word", b"room 100 100", b"room wide 100", "`wide` (w) is no number"),
    changed("Number", "two words", b"goal 30 40 35 45", b"goal 30 +40 35 45.5", "`+40` (y0)", "`45.5` (y1)"),
    added(
        "Number",
        "seven words",
        b"body a b c d e f g 1",
        "`e` (x of corner 3)",
        "2 more words of this line are no number",
    ),
    added(
        "Number",
        "a comment",
        b"obstacle 9 9 19 9 19 19 # a",
        "`#` (x of corner 4)",
        mended=(b"obstacle 9 9 19 9 19 19",),
    ),
]

RANGES = [
    refused(
        "Range",
        3,
        "below 0",
        b"prrt 1\nroom 10 10\nstart -1 5\n",
        "`-1` (x)",
        "room is 0 0: move the whole",
        row="range",
    ),
    changed("Range", "no height", b"room 100 100", b"room 100 0", "`0` (h) is out of range: 1 to 65535 in version 1"),
    changed(
        "Range", "a wide room", b"room 100 100", b"room 70000 9", "`70000` (w)", "1 to 1048575 in version 2. Begin with"
    ),
    changed("Range", "a wider room", b"room 100 100", b"room 9 2000000", "`2000000` (h)", "larger unit"),
    changed(
        "Range", "one of version 2", b"room 100 100", b"room 9 1048576", "`1048576` (h)", "larger unit", text=SECOND
    ),
    changed("Range", "a longer step", b"step 25", b"step 70000", "`70000` (s)", "larger unit"),
    changed("Range", "a short step", b"step 25", b"step 3", "`3` (s)", "4 to 4096 in version 1", "smaller unit"),
    changed(
        "Range", "a long step", b"step 25", b"step 5000", "`5000` (s)", "4 to 65536 in version 2. Begin with `prrt 2`"
    ),
    changed(
        "Range", "many marks", b"marks 100", b"marks 300000", "`300000` (n)", "0 to 262143", "number of this range"
    ),
    added("Range", "a large body", b"body 0 0 5000 0 0 5", "`5000` (x of corner 2)", "-4096 to 4096", "larger unit"),
    added(
        "Range",
        "an obstacle for version 2",
        b"obstacle 0 0 131072 0 9 9",
        "`131072` (x of corner 2) is out of range: -131072 to 131071 in version 1",
        "-2097152 to 2097151 in version 2. Begin with `prrt 2`",
        row="`obstacle 0 0 131072 0 9 9` in `prrt 1`",
    ),
    added(
        "Range",
        "one for none",
        b"obstacle 0 0 9 0 9 -3000000",
        "`-3000000` (y of corner 3)",
        "Cut the obstacle at the room",
    ),
    added(
        "Range", "a great seed", b"seed 18446744073709551616", "`18446744073709551616` (n)", "0 to 18446744073709551615"
    ),
    added("Range", "very many digits", b"seed " + b"9" * 150, "9.. (150 bytes)` (n) is out of range"),
    added("Range", "no strip", b"strips 0", "`0` (g) is out of range: 1 to 64 in version 1", "number of this range"),
    added("Range", "informed 2", b"informed 2", "`2` (n) is out of range: 0 to 1 in version 2", text=SECOND),
    added("Range", "clearance below 0", b"clearance -3", "`-3` (c) is out of range: 0 to 4096", text=SECOND),
    changed(
        "Range",
        "a goal from its upper right corner",
        b"goal 30 40 35 45",
        b"goal 35 45 30 40",
        "x0 is 35 and x1 is 30: the lower left corner comes first",
        "y0 is 45 and y1 is 40",
        mended=(b"goal 30 40 35 45",),
    ),
    changed(
        "Range",
        "a goal from its upper end",
        b"goal 30 40 35 45",
        b"goal 35 46 35 41",
        "y0 is 46 and y1 is 41: the lower left corner comes first",
        mended=(b"goal 35 41 35 46",),
        absent=("x0 is",),
    ),
    changed(
        "Range",
        "a goal twice wrong",
        b"goal 30 40 35 45",
        b"goal 36 0 35 99999",
        "`99999` (y1)",
        "x0 is 36 and x1 is 35",
    ),
]

IN_TURN = b"obstacle 10 0 -9 4 6 -8 -2 10 -2 -10 6 8 -9 -4"
IN_ORDER = b"obstacle 10 0 6 8 -2 10 -9 4 -9 -4 -2 -10 6 -8"
CORNERS = [
    added(
        "Corners",
        "clockwise",
        b"obstacle 0 0 0 9 9 9",
        "The corners are listed clockwise",
        mended=(b"obstacle 0 0 9 9 0 9",),
        row="`obstacle 0 0 0 9 9 9`",
    ),
    added(
        "Corners",
        "a clockwise body",
        b"body 0 0 0 4 4 4 4 0",
        "The corners are listed clockwise",
        mended=(b"body 0 0 4 0 4 4 0 4",),
        row="corners",
    ),
    added(
        "Corners",
        "three corners in a line",
        b"obstacle 0 0 5 0 9 0 9 9",
        "Corner 2 (5, 0) lies in a line with its neighbours",
        mended=(b"obstacle 0 0 9 0 9 9",),
        row="`obstacle 0 0 5 0 9 0 9 9`",
    ),
    added(
        "Corners",
        "the first corner at the end",
        b"obstacle 0 0 9 0 9 9 0 0",
        "A corner comes twice: corner 4 (0, 0) is corner 1 again",
        mended=(b"obstacle 0 0 9 0 9 9",),
        row="`obstacle 0 0 9 0 9 9 0 0`",
    ),
    added(
        "Corners",
        "a corner twice",
        b"obstacle 1 0 9 0 9 0 9 9",
        "A corner comes twice: corner 3 (9, 0) is corner 2 again",
        mended=(b"obstacle 1 0 9 0 9 9",),
    ),
    added(
        "Corners",
        "a dent",
        b"obstacle 0 0 9 0 3 3 0 9",
        "Corner 3 (3, 3) makes a dent",
        mended=(b"obstacle 0 0 9 0 3 3", b"obstacle 0 0 3 3 0 9"),
        row="`obstacle 0 0 9 0 3 3 0 9`",
    ),
    added(
        "Corners", "a dent of a body", b"body 0 0 8 0 3 3 0 8", "Corner 3 (3, 3) makes a dent", "is `body 0 0 8 0 0 8`"
    ),
    added(
        "Corners",
        "dents for more than one cut",
        b"obstacle 0 0 9 0 6 4 9 9 5 6 0 9 3 5",
        "Corner 3 (6, 4) makes a dent",
        "Corner 5 (5, 6) makes a dent",
        "Corner 7 (3, 5) makes a dent",
        "Cut the obstacle into convex ones",
        "is `obstacle 0 0 9 0 9 9 0 9`",
    ),
    added(
        "Corners",
        "clockwise with a dent",
        b"obstacle 0 9 4 4 9 0 0 0",
        "The corners are listed clockwise",
        "Corner 2 (4, 4) makes a dent",
        mended=(b"obstacle 4 4 0 0 9 0", b"obstacle 0 9 0 0 4 4"),
    ),
    added(
        "Corners",
        "twice round",
        b"obstacle 8 0 5 9 2 0 10 6 0 6",
        "wind round twice",
        "from corner 1 to 2 meets that from corner 3 to 4",
        mended=(b"obstacle 8 0 10 6 5 9 0 6 2 0",),
        row="`obstacle 8 0 5 9 2 0 10 6 0 6`",
    ),
    added("Corners", "three times round", IN_TURN, "wind round 3 times", "from corner 1 to 2", mended=(IN_ORDER,)),
    added(
        "Corners",
        "crossing sides",
        b"obstacle 0 0 9 9 9 0 0 9",
        "The sides cross or touch each other",
        "from corner 1 to 2 meets that from corner 3 to 4",
        mended=(b"obstacle 0 0 9 0 9 9 0 9",),
    ),
    added("Corners", "corners in one line", b"obstacle 0 0 5 5 9 9", "All corners lie in one line"),
]

TOO_LONG = SCENE + b"\n" * (MOST_TEXT_BYTES + 5 - len(SCENE))
ENDS = [
    refused(
        "Missing", 7, "no start", instead(b"start 0 0", b""), "no line `start x y` before the end of", row="the end"
    ),
    refused(
        "Missing", 4, "two keys", b"prrt 1\ngoal 0 0 9 9\nstep 4\n", "no line `room w h` or `start x y` before the end"
    ),
    refused(
        "Missing", 3, "a version alone", b"prrt 2\n# end", "`room w h`, `start x y`, `goal x0 y0 x1 y1` or `step s`"
    ),
    Case(
        "a text that is too long", TOO_LONG, "text too long", ("has 16777221 bytes, and may have 16777216: 5 too many",)
    ),
]


def several(kind, line, name, texts, *telling):
    """The case of several scenes with a fault."""
    return refused(kind, line, name, batch(*texts), *telling, words="batch 1 1")


SHORT_STEP, NO_STEP = instead(b"step 25", b"step 2"), instead(b"step 25", b"")
OUTSIDE = instead(b"start 0 0", b"start 101 0")
SEVERAL = [
    several(
        "Range", 13, "a fault of the second scene", (SCENE, SHORT_STEP), "Line 13 is: step 2", "Scene 1, from line 9 on"
    ),
    several(
        "Version",
        9,
        "a line next at the end",
        (SCENE, b""),
        "Scene 1, from line 9 on",
        "before the end",
        "after the last",
    ),
    several(
        "Version", 1, "one at the beginning", (b"", SCENE), "before line 1, `next` but comments", "before the first"
    ),
    several("Missing", 7, "a part without a step", (NO_STEP, SCENE), "no line `step s` before line 7, `next`"),
    several(
        "Words",
        3,
        "faults of two scenes",
        (instead(b"start 0 0", b"start 0 0 0"), instead(b"start 0 0", b"start x 0")),
        "takes 2 numbers, `start x y`, and here stand 3",
        "line 11 kind 4 Number",
        "`x` (x) is no number",
    ),
    several("Range", 509, "a fault before that", (SCENE,) * 63 + (SHORT_STEP, SCENE), "Scene 63, from", "Line 509 is"),
    several("Many", 512, "64 lines next", (SCENE,) * 65, "Line 512 is line `next` number 64", "64 scenes at most"),
    several("Repeat", 16, "a key twice in it", (SCENE, SCENE + b"room 9 9\n"), "`room` stands in line 10 already"),
    several(
        "Version", 9, "a report in a batch", (SCENE, b"report\n" + SCENE), "Line 9 is: report", "Line 10 has a version"
    ),
    several(
        "Key", 16, "a report after a batch", (SCENE, SCENE + b"report\n"), "a text has lines of one of the two kinds"
    ),
    Case(
        "a blocked start of a second scene",
        batch(SCENE, OUTSIDE),
        START_BLOCKED,
        ("The start 101 0 (line 11)",),
        words="batch 1 1",
    ),
    Case(
        "two scenes",
        batch(SCENE, SECOND),
        "",
        ("Scene 1, from line 9 on", "version 2, room 100 by 100"),
        words="batch 1 1",
    ),
    Case(
        "a comment that says next",
        b"# next\n" + instead(b"marks 100", b"marks 101"),
        "",
        ("No fault", "101 drawn marks"),
    ),
]


def reported(kind, line, name, text, *telling):
    """The case of a scene with a fault before a report."""
    return refused(kind, line, name, text, *telling, words="check")


NUMBERS_OF_SCENE = "room 100 by 100, body of 1 corner, 0 obstacles, 1 goal, 100 drawn marks, step 25, gamma 70."
AFTER = "The report after line 8 was not looked at"
REPORTED = [
    reported(
        "Range", 5, "a fault before a report", SHORT_STEP + b"report\nno path\n", "Line 5 is: step 2", "`2` (s)", AFTER
    ),
    reported(
        "Missing",
        7,
        "no step before a report",
        NO_STEP + b"report\nstep 4\n",
        "no line `step s` before line 7, `report`",
    ),
    reported("Range", 6, "a comment before", b"# report\n" + SHORT_STEP + b"report\nreport\n", "Line 6", "line 9 was"),
    reported("Key", 8, "two lines report", SCENE + b"path 1\nreport\nreport", "`path` begins a line", "line 9 was"),
    Case("a scene before a report", SCENE + b"report\nno path\n", "", ("No fault was found", AFTER), words="check"),
    Case("a blocked start before it", OUTSIDE + b"report\n", START_BLOCKED, ("The start 101 0", AFTER), words="check"),
    Case(
        "no line report after a scene",
        SCENE,
        "",
        (f"No fault was found in this scene: version 1, {NUMBERS_OF_SCENE}",),
        words="check",
        program=(verdict_of("Missing", 8), 3),
        absent=("Scene 1", "The report"),
    ),
]

LINES = [*CHARACTERS, *VERSIONS, *KEYS_AND_REPEATS, *WORDS, *MANY, *NUMBERS, *RANGES, *CORNERS]
REFUSALS = [*LINES, *ENDS, *SEVERAL, *REPORTED]
