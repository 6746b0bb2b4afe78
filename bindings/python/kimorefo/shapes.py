"""Numbers and shapes as they are given: exact fractions, lists of corners, and anything with `__geo_interface__`."""

from __future__ import annotations

from collections.abc import Iterable, Mapping
from fractions import Fraction
from numbers import Integral
from typing import Any

from .errors import HasHoles, NotAShape, NotFinite
from .geometry import bounds
from .polygons import check_simple, cleaned

Point = tuple[Fraction, Fraction]
Box = tuple[Fraction, Fraction, Fraction, Fraction]


def exact(number: Any) -> Fraction:
    """A number as a fraction: a float is taken as it is, so 0.1 is a little more than a tenth, and "0.1" is a tenth."""
    try:
        if isinstance(number, Integral):
            return Fraction(int(number))
        if hasattr(number, "as_integer_ratio"):
            return Fraction(*map(int, number.as_integer_ratio()))
        return Fraction(number)
    except (ValueError, OverflowError, ZeroDivisionError):
        raise NotFinite(f"{number!r} is no number, or infinite") from None
    except TypeError:
        raise NotAShape(f"{number!r} is no number") from None


def point_of(given: Any) -> Point:
    """A point: two numbers, or a shape that is one."""
    shape = geometry_of(given)
    if shape is not None:
        if shape.get("type") != "Point":
            raise NotAShape(f"a {shape.get('type')} is no point")
        given = shape["coordinates"]
    if is_number(given):
        raise NotAShape(f"{given!r} is no point")
    x, y, *_ = given
    return exact(x), exact(y)


def is_number(given: Any) -> bool:
    """Whether something can be one number at most: it is a text, or has no parts."""
    return geometry_of(given) is None and (isinstance(given, str) or not isinstance(given, Iterable))


def geometry_of(given: Any) -> Mapping[str, Any] | None:
    """What something has as `__geo_interface__`, or is itself, as GeoJSON has it; None otherwise."""
    shape = getattr(given, "__geo_interface__", given)
    return shape if isinstance(shape, Mapping) else None


def polygons_of(given: Any) -> list[list[Point]]:
    """The corners of each polygon of a shape, or of one list of corners, without a last one that is the first."""
    shape = geometry_of(given)
    if shape is None:
        return [corners_of(given)]
    kind = shape.get("type")
    if kind == "Feature":
        return polygons_of(shape["geometry"])
    if kind in ("FeatureCollection", "GeometryCollection"):
        members = shape["features" if kind == "FeatureCollection" else "geometries"]
        return [polygon for member in members for polygon in polygons_of(member)]
    if kind not in ("Polygon", "MultiPolygon"):
        raise NotAShape(f"a {kind} is no polygon")
    members = [shape["coordinates"]] if kind == "Polygon" else shape["coordinates"]
    return [corners_of(outer_ring(rings)) for rings in members if len(rings) > 0]


def outer_ring(rings: Any) -> Any:
    """The one ring of a polygon."""
    if len(rings) > 1:
        raise HasHoles(f"a polygon has {len(rings) - 1} holes: cut it into polygons without one")
    return rings[0]


def corners_of(points: Iterable[Any]) -> list[Point]:
    """Points, without a last one that is the first again."""
    corners = [point_of(p) for p in points]
    if not corners:
        raise NotAShape("a polygon has no corners")
    return corners[:-1] if len(corners) > 1 and corners[-1] == corners[0] else corners


def simple_polygons(given: Any) -> list[list[Point]]:
    """The polygons of a shape, counterclockwise; an error if one crosses itself, or has no area."""
    polygons = [cleaned(corners) for corners in polygons_of(given)]
    for polygon in polygons:
        check_simple(polygon)
    return polygons


def box_of(given: Any, what: str) -> Box:
    """A box: the width and the height from 0 0 on, the coordinates of two corners, or a shape that is one."""
    if is_number(given):
        raise NotAShape(f"{what} is a box, and here it is {given!r}")
    if geometry_of(given) is None:
        given = list(given)
        if all(map(is_number, given)):
            numbers = [exact(number) for number in given]
            numbers = [Fraction(0), Fraction(0), *numbers] if len(numbers) == 2 else numbers
            if len(numbers) != 4:
                raise NotAShape(f"{what} is a box: its corners are four numbers, and here are {len(numbers)}")
            return numbers[0], numbers[1], numbers[2], numbers[3]
    polygons = simple_polygons(given)
    corners = {corner for polygon in polygons for corner in polygon}
    (x0, y0), (x1, y1) = bounds(list(corners))
    if len(polygons) != 1 or corners != {(x0, y0), (x1, y0), (x1, y1), (x0, y1)}:
        raise NotAShape(f"{what} is a box with sides along the axes, and here it is another shape")
    return x0, y0, x1, y1


def shapes_of(given: Any) -> list[Any]:
    """The shapes of a list, or the one shape that is given in its place."""
    return [given] if geometry_of(given) is not None else list(given)
