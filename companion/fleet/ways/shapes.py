"""Shapes on the plane as convex regions of the program. Needs shapely."""

import math
import re
from collections.abc import Sequence
from dataclasses import dataclass

from shapely.geometry import Polygon
from shapely.validation import explain_validity

from fleet.ways.convex import Point, Ring, convex_parts, corners
from fleet.ways.faults import Unfit
from fleet.ways.projection import Projection

POINT_LIMIT = 64
"""The most points of a region."""
DENT = 100
"""The depth of a dent, in thousandths, up to which a shape counts as convex: projecting and rounding bend its sides."""

_PLACE = re.compile(r"\[(\S+) (\S+)\]")


@dataclass(frozen=True, slots=True)
class Parts:
    """The convex parts of a shape; `dent` is the depth of what was filled so that it is one part, in thousandths."""

    rings: list[Ring]
    dent: float = 0.0


def parts_of(ring: Sequence[Point], projection: Projection, dent: int = DENT, simplify: int = 0) -> Parts:
    """The parts of a ring, in thousandths. `simplify` is how far its sides may be moved so that it has fewer points.

    Its convex hull is taken where the ring lies nowhere deeper within it than `dent`. Raises Unfit.
    """
    shape = corners(ring)
    if simplify and shape:
        simpler = Polygon(shape).simplify(simplify, preserve_topology=True)
        shape = corners([(round(x), round(y)) for x, y in simpler.exterior.coords[:-1]])
    if not shape:
        raise Unfit("nothing of its area is left when its points are rounded to millimetres")
    whole = Polygon(shape)
    if not whole.is_valid:
        raise Unfit(f"its sides cross or touch{_crossing(whole, projection)}")
    hull = _hull(shape, whole)
    depth = _depth(shape, hull)
    if depth <= dent:
        return Parts(convex_parts(hull, POINT_LIMIT), depth)
    return Parts(convex_parts(shape, POINT_LIMIT))


def _hull(ring: Ring, whole: Polygon) -> Ring:
    """The points of a ring, in its order, that are corners of its convex hull."""
    hull = {(int(x), int(y)) for x, y in whole.convex_hull.exterior.coords}
    return [point for point in ring if point in hull]


def _depth(ring: Ring, hull: Ring) -> float:
    """How deep the ring lies within its hull at most: a side of the hull that is none of the ring spans a dent."""
    first = ring.index(hull[0])
    ends, deepest = iter([*hull[1:], hull[0]]), 0.0
    a, b = hull[0], next(ends)
    for point in [*ring[first + 1 :], *ring[:first]]:
        if point == b:
            a, b = b, next(ends)
        else:
            deepest = max(deepest, _distance(point, a, b))
    return deepest


def _distance(point: Point, a: Point, b: Point) -> float:
    """The distance of a point from the line through two others."""
    along = (b[0] - a[0], b[1] - a[1])
    return abs(along[0] * (point[1] - a[1]) - along[1] * (point[0] - a[0])) / math.hypot(*along)


def _crossing(shape: Polygon, projection: Projection) -> str:
    """Where the sides of a shape cross, in words."""
    match = _PLACE.search(explain_validity(shape))
    if match is None:
        return ""
    try:
        lon, lat = projection.point(float(match[1]), float(match[2]))
    except (Unfit, ValueError):
        return ""
    return f" near {lon:.6f},{lat:.6f}"
