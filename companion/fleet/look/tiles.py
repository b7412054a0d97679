"""A base map under the page: Leaflet with the tiles of a server, and where the places of the session lie on it.

The page knows nothing of projections. It has a grid of points of the session's plane with the places that these have in
the projection of the tiles, and takes what lies between from the four around.
"""

import argparse
import math
import re
from collections.abc import Iterable
from pathlib import Path
from typing import Any

from fleet.errors import FleetError
from fleet.ways.faults import Unfit
from fleet.ways.planes import add_plane_arguments, plane_in, settled, wanted_plane

LEAFLET = Path("/usr/share/javascript/leaflet")
"""Where the Debian package libjs-leaflet has its files."""
_POINTS = 33
"""The points of a side of the grid: with cells of three kilometres what lies between is off by a fifth of a metre."""
_RADIUS = 6_378_137
_MOST_LATITUDE = 85.06
"""Beyond this the projection of tiles has no place."""
_URL = re.compile(r"(https?)://([A-Za-z0-9.{}-]+(?::[0-9]{1,5})?)(/[!-~]*)")
_SOURCE_MAP = re.compile(r"//# sourceMappingURL=.*|/\*# sourceMappingURL=.*?\*/")


class NoBaseMap(FleetError):
    """There can be no base map."""


def add_arguments(parser: argparse.ArgumentParser) -> None:
    """Adds the options of a base map."""
    parser.add_argument(
        "--tiles", metavar="URL", type=_tiles,
        help="draw on a base map: the address of its tiles, such as https://tile.example.org/{z}/{x}/{y}.png. The page "
        "then needs their server, and the session its plane: by its comment, or by an option",
    )  # fmt: skip
    parser.add_argument("--attribution", metavar="TEXT", default="", help="what the map's maker wants told beside it")
    add_plane_arguments(parser, can_choose=False)


def base_of(arguments: argparse.Namespace, text: bytes, name: str, bounds: dict[str, float] | None) -> dict[str, Any]:
    """The base map as tiles.js has it: { tiles, attribution, grid }, where the grid has a rectangle of the plane with so
    many points a side, row by row from the bottom.

    Raises NoBaseMap where the session doesn't say its plane, or what lies on it has no place on tiles; PlaneFault.
    """
    plane = settled(wanted_plane(arguments), plane_in(text.splitlines()), Path(name))
    if plane is None:
        raise NoBaseMap(f"{name} doesn't say on which plane its places lie: --zone EPSG:CODE or --local LON,LAT says it")
    from fleet.ways.projection import Projection

    projection, wide = Projection(plane), _widened(bounds)
    points = []
    for y in _between(wide["bottom"], wide["top"]):
        for x in _between(wide["left"], wide["right"]):
            try:
                points.append(on_tiles(*projection.point(x * 1000, y * 1000)))
            except Unfit as fault:
                raise NoBaseMap(f"{name} has no place on a base map: {fault}") from None
    grid = {**wide, "count": _POINTS, "x": [x for x, _ in points], "y": [y for _, y in points]}
    return {"tiles": arguments.tiles, "attribution": arguments.attribution, "grid": grid}


def leaflet(name: str) -> str:
    """A file of Leaflet. Raises NoBaseMap where it isn't installed."""
    try:
        text = (LEAFLET / name).read_text(encoding="utf-8")
    except OSError:
        raise NoBaseMap("a base map needs the Debian package libjs-leaflet") from None
    return _SOURCE_MAP.sub("", text)


def source_of(tiles: str) -> str:
    """The source of the tiles, as a content security policy names it: `{s}` stands for any name there."""
    match = _URL.fullmatch(tiles)
    assert match is not None
    return f"{match.group(1)}://{match.group(2).replace('{s}', '*')}"


def _tiles(text: str) -> str:
    match = _URL.fullmatch(text)
    if match is None or not all(part in match.group(3) for part in ("{z}", "{x}", "{y}")):
        raise argparse.ArgumentTypeError(f"{text} isn't of the form https://HOST/..{{z}}..{{x}}..{{y}}..")
    if re.search(r"[{}]", match.group(2).removeprefix("{s}.")):
        raise argparse.ArgumentTypeError(f"{text} may have only {{s}} as the first part of its host")
    return text


def _widened(bounds: dict[str, float] | None) -> dict[str, float]:
    """The rectangle with a margin on each side, and not too small."""
    bounds = bounds or {"left": 0, "right": 0, "bottom": 0, "top": 0}
    margin = max(bounds["right"] - bounds["left"], bounds["top"] - bounds["bottom"], 100) / 4
    return {
        "left": bounds["left"] - margin, "right": bounds["right"] + margin,
        "bottom": bounds["bottom"] - margin, "top": bounds["top"] + margin,
    }  # fmt: skip


def _between(first: float, last: float) -> Iterable[float]:
    return [first + (last - first) * at / (_POINTS - 1) for at in range(_POINTS)]


def on_tiles(lon: float, lat: float) -> tuple[float, float]:
    """The place in the projection of tiles, in its metres, to the millimetre. Raises Unfit."""
    if abs(lat) > _MOST_LATITUDE:
        raise Unfit(f"the latitude {lat:.1f} is beyond what tiles have")
    y = _RADIUS * math.log(math.tan(math.pi / 4 + math.radians(lat) / 2))
    return round(_RADIUS * math.radians(lon), 3), round(y, 3)
