"""Shapes in real units for package.py: those that fit, with what becomes of them, and those that do not, by their errors."""

from math import cos, inf, nan, pi, sin

REAL = {"room": (10, 6), "start": ("0.5", "0.5"), "goals": [(9, 5, "9.5", "5.5")], "marks": 300}
GRID = [[0, 0, 0, 0, 0], [0, 1, 1, 0, 0], [0, 1, 100, -1, 0], [0, 0, 0, 1, 0], [0, 0, 0, 0, 0]]
SQUARE = [(3, 3), (4, 3), (4, 4), (3, 4)]
OTHER = [(6, 1), (7, 1), (7, 2)]
DENT = [(3, 0), (4, 0), (4, 3), (6, 3), (6, 4), (3, 4)]
BOW = [(3, 3), (4, 4), (4, 3), (3, 4)]


class Shape:
    """Something that has a shape, as GeoJSON has it."""

    def __init__(self, kind, **others):
        self.__geo_interface__ = {"type": kind, **others}


def polygon(*rings):
    """A polygon of GeoJSON, whose rings end where they begin."""
    return {"type": "Polygon", "coordinates": [[*ring, ring[0]] for ring in rings]}


def on_lattice(corners):
    """Corners in steps of a tenth, as the lattice of `REAL` has them: its point 0 0 is the corner of the room."""
    return tuple((10 * x, 10 * y) for x, y in corners)


def same_set(scene, *polygons):
    """Whether a scene has these obstacles, whatever corner comes first."""
    return {frozenset(own) for own in scene.obstacles} == {frozenset(on_lattice(own)) for own in polygons}


def round_body(count):
    """A body with so many corners."""
    return [(cos(2 * pi * k / count), sin(2 * pi * k / count)) for k in range(count)]


WIDE = [(3 + cos(k * pi / 50), 3 + sin(k * pi / 50)) for k in range(100)]
# What is given in place of REAL, and what the scene is to be.
GOOD_SHAPES = {
    "corners": ({"obstacles": [SQUARE]}, lambda scene: same_set(scene, SQUARE) and scene.clearance == 0),
    "clockwise": ({"obstacles": [SQUARE[::-1]]}, lambda scene: same_set(scene, SQUARE)),
    "closed, with corners in line": ({"obstacles": [[*SQUARE, (3, "3.5"), (3, 3)]]}, lambda scene: same_set(scene, SQUARE)),
    "a polygon": ({"obstacles": [polygon(SQUARE)]}, lambda scene: same_set(scene, SQUARE)),
    "one shape for all": ({"obstacles": polygon(SQUARE)}, lambda scene: same_set(scene, SQUARE)),
    "several polygons": (
        {"obstacles": Shape("MultiPolygon", coordinates=[polygon(SQUARE)["coordinates"], polygon(OTHER)["coordinates"]])},
        lambda scene: same_set(scene, SQUARE, OTHER),
    ),
    "features": (
        {"obstacles": {"type": "FeatureCollection", "features": [{"type": "Feature", "geometry": polygon(OTHER)}]}},
        lambda scene: same_set(scene, OTHER),
    ),
    "a dent": ({"obstacles": [DENT]}, lambda scene: len(scene.obstacles) == 2 and scene.clearance == 0),
    "many corners": ({"obstacles": [WIDE]}, lambda scene: all(len(own) <= 64 for own in scene.obstacles) and scene.clearance == 1),
    "far away": ({"obstacles": [[(x + 9999, y) for x, y in SQUARE]]}, lambda scene: scene.obstacles == ()),
    "far reaching": ({"obstacles": [[(3, 3), (10**6, 3), (10**6, 4)]]}, lambda scene: len(scene.obstacles) == 1),
    "smaller than a step": ({"obstacles": [[(3, 3), ("3.01", 3), (3, "3.01")]]}, lambda scene: len(scene.obstacles) == 1),
    "a rounded obstacle": ({"obstacles": [OTHER + [(6, "1.23")]]}, lambda scene: scene.clearance == 1),
    "a clearance": ({"clearance": "0.21"}, lambda scene: scene.clearance == 3),
    "a rounded body": ({"body": [(0, 0), ("0.12", 0), (0, "0.12")]}, lambda scene: scene.clearance == 1 and scene.room == (98, 58)),
    "a body in steps": ({"body": SQUARE, "start": (1, 1)}, lambda scene: scene.body == on_lattice(SQUARE) and scene.room == (100, 60)),
    "a body that is a point": ({"body": [("0.04", 0), ("0.04", "0.01"), (0, "0.04")]}, lambda scene: scene.body == ((0, 0),)),
    "a rod": ({"body": [(0, 0), ("0.5", 0)]}, lambda scene: len(scene.body) == 3 and scene.clearance == 0),
    "a body with a dent": ({"body": DENT}, lambda scene: len(scene.notes) == 1 and len(scene.body) == 5),
    "a body of many corners": ({"body": round_body(40), "start": (2, 2)}, lambda scene: len(scene.notes) == 1 and len(scene.body) <= 16),
    "a room elsewhere": (
        {"room": (-10, -6, 0, 0), "start": (-5, -3), "goals": [(-1, -1, 0, 0)]},
        lambda scene: (scene.room, scene.start, scene.goals) == ((100, 60), (50, 30), ((90, 50, 100, 60),)),
    ),
    "boxes as shapes": (
        {"room": polygon([(0, 0), (10, 0), (10, 6), (0, 6)]), "goals": [polygon(SQUARE)], "start": Shape("Point", coordinates=(1, 1))},
        lambda scene: scene.goals == ((30, 30, 40, 40),) and scene.start == (10, 10),
    ),
    "one goal of texts": ({"goals": ("9", "5", "9.5", "5.5")}, lambda scene: scene.goals == ((90, 50, 95, 55),)),
    "four goals": ({"goals": [Shape("Polygon", coordinates=polygon(SQUARE)["coordinates"])] * 4}, lambda scene: scene.goals == ((30, 30, 40, 40),) * 4),
    "a goal between steps": ({"goals": [("8.01", "5.01", "8.99", 99)]}, lambda scene: scene.goals == ((81, 51, 89, 60),)),
    "a step": ({"step": "0.59"}, lambda scene: scene.step == 5),
    "samples": ({"marks": [(1, 1), ("2.26", 9)]}, lambda scene: scene.marks == ((10, 10), (23, 60))),
}
# A unit, what is given in place of REAL, and the error.
WRONG_SHAPES = {
    "no number": ("0.1", {"obstacles": [[(nan, 0), (1, 0), (1, 1)]]}, "NotFinite"),
    "infinite": ("0.1", {"room": (inf, 6)}, "NotFinite"),
    "a word": ("a tenth", {}, "NotFinite"),
    "nothing": ("0.1", {"clearance": None}, "NotAShape"),
    "no unit": (0, {}, "UnitTooSmall"),
    "a large room": ("0.000001", {}, "UnitTooSmall"),
    "a large body": ("0.0001", {"body": SQUARE}, "UnitTooSmall"),
    "a wide clearance": ("0.0001", {"clearance": 1}, "UnitTooSmall"),
    "a large unit": (20, {}, "UnitTooLarge"),
    "a short step": ("0.1", {"step": "0.39"}, "StepTooShort"),
    "a long way": ("1e-9000", {}, "UnitTooSmall"),
    "a step far below 0": ("0.1", {"step": "-1e9000"}, "StepTooShort"),
    "a room of no height": ("0.1", {"room": ("1e9000", "0.01")}, "UnitTooLarge"),
    "a small goal": ("0.1", {"goals": [("9.01", 5, "9.09", 6)]}, "GoalTooSmall"),
    "a goal outside": ("0.1", {"goals": [(11, 5, 12, 6)]}, "GoalTooSmall"),
    "a goal that is no box": ("0.1", {"goals": [polygon(OTHER)]}, "NotAShape"),
    "a room that is no box": ("0.1", {"room": polygon(DENT)}, "NotAShape"),
    "a start outside": ("0.1", {"start": (11, 1)}, "StartOutside"),
    "a hole": ("0.1", {"obstacles": [polygon([(1, 1), (6, 1), (6, 6), (1, 6)], SQUARE)]}, "HasHoles"),
    "crossing sides": ("0.1", {"obstacles": [BOW]}, "CrossesItself"),
    "a side on itself": ("0.1", {"obstacles": [[(1, 1), (3, 1), (2, 1), (2, 3)]]}, "CrossesItself"),
    "a corner on a side": ("0.1", {"obstacles": [[(1, 1), (5, 1), (5, 5), (3, 1), (1, 5)]]}, "CrossesItself"),
    "a body that crosses itself": ("0.1", {"body": BOW}, "CrossesItself"),
    "two corners": ("0.1", {"obstacles": [[(1, 1), (2, 2)]]}, "NotAShape"),
    "corners in line": ("0.1", {"obstacles": [[(1, 1), (2, 2), (3, 3)]]}, "NotAShape"),
    "a line": ("0.1", {"obstacles": [Shape("LineString", coordinates=SQUARE)]}, "NotAShape"),
    "a text for a point": ("0.1", {"start": "11"}, "NotAShape"),
    "a text for a box": ("0.1", {"room": "96"}, "NotAShape"),
    "a number for a corner": ("0.1", {"obstacles": SQUARE}, "NotAShape"),
    "a negative clearance": ("0.1", {"clearance": -1}, "NotAShape"),
    "many parts": ("0.1", {"obstacles": [[(1, 1), (2, 1), (1, 2)]] * 1025}, "TooManyParts"),
}


def shapely_shapes():
    """Shapes of Shapely, and the same in numbers; or None if it is not there."""
    try:
        from shapely.geometry import MultiPolygon, Point, Polygon, box
    except ImportError:
        return None
    return {
        "a polygon": ({"obstacles": [Polygon(DENT)]}, {"obstacles": [DENT]}),
        "several": ({"obstacles": MultiPolygon([Polygon(SQUARE), Polygon(OTHER)])}, {"obstacles": [SQUARE, OTHER]}),
        "boxes": ({"room": box(0, 0, 10, 6), "goals": [box(8, 4, 9, 5)]}, {"room": (10, 6), "goals": [(8, 4, 9, 5)]}),
        "a disc": ({"body": Point(0, 0).buffer(0.3)}, {"body": list(Point(0, 0).buffer(0.3).exterior.coords)}),
        "a start": ({"start": Point(1, 1)}, {"start": (1, 1)}),
    }
