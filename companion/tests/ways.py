"""What the tests of `fleet from` and `fleet to` share: running them, and reading the commands that they write."""

import contextlib
import functools
import io
import json
import math
import re
from collections.abc import Iterable, Sequence
from pathlib import Path
from typing import Any, NamedTuple

import pyproj

from fleet import cli
from fleet.client import Client
from fleet.present import thousandths
from fleet.ways.convex import Point, double_area

CLASSES = "class van 1500 point (fuel dyn,plate text,seats num)\n"
ZONE = "EPSG:32632"
"""The zone in which the tests lie, around Munich."""
CENTRE = (11.5755, 48.1374)

_NUMBER = re.compile(r"(-?)([0-9]+(?:\.[0-9]+)?)")


class Said(NamedTuple):
    """What a run wrote: its exit status, and the lines of standard output and of standard error."""

    status: int
    lines: list[str]
    told: list[str]

    @property
    def commands(self) -> list[str]:
        """The lines that aren't comments."""
        return [line for line in self.lines if not line.startswith("#")]

    @property
    def faults(self) -> list[str]:
        """The faults, each with its place."""
        return [line for line in self.told if ": fault: " in line]


def fleet(*words: str | Path) -> Said:
    """Runs the command in this process."""
    out, error = io.StringIO(), io.StringIO()
    with contextlib.redirect_stdout(out), contextlib.redirect_stderr(error):
        status = cli.main([str(word) for word in words])
    return Said(status, out.getvalue().splitlines(), error.getvalue().splitlines())


def collection(*features: dict[str, Any]) -> str:
    """A collection of features as GeoJSON."""
    return json.dumps({"type": "FeatureCollection", "features": features})


def area(identifier: str, ring: Sequence[Sequence[float]], *holes: Sequence[Sequence[float]]) -> dict[str, Any]:
    """A feature that is a polygon; its rings are closed here."""
    rings = [[*map(list, each), list(each[0])] for each in (ring, *holes)]
    geometry = {"type": "Polygon", "coordinates": rings}
    return {"type": "Feature", "id": identifier, "properties": {}, "geometry": geometry}


def spot(identifier: str, lon: float, lat: float, **properties: Any) -> dict[str, Any]:
    """A feature that is a point."""
    geometry = {"type": "Point", "coordinates": [lon, lat]}
    return {"type": "Feature", "id": identifier, "properties": properties, "geometry": geometry}


def beside(x: float, y: float, centre: tuple[float, float] = CENTRE) -> tuple[float, float]:
    """The degrees of a point so many metres to the east and to the north of a centre, about."""
    lon, lat = centre
    return lon + x / (111_320 * math.cos(math.radians(lat))), lat + y / 111_320


def projected(lon: float, lat: float, zone: str = ZONE) -> Point:
    """The thousandths of a point in a zone, without what is tested."""
    x, y = _transformer(zone).transform(lon, lat)
    return round(x * 1000), round(y * 1000)


@functools.cache
def _transformer(zone: str) -> pyproj.Transformer:
    return pyproj.Transformer.from_crs("EPSG:4326", zone, always_xy=True)


def numbers(text: str) -> list[int]:
    """The numbers of a text in thousandths."""
    return [thousandths(digits) * (-1 if sign else 1) for sign, digits in _NUMBER.findall(text)]


def corners(command: str) -> list[Point]:
    """The corners that the command of a region has."""
    found = numbers(command.partition("(")[2])
    return list(zip(found[::2], found[1::2], strict=True))


def area_of(commands: Iterable[str]) -> int:
    """Twice the area of regions."""
    return sum(abs(double_area(corners(command))) for command in commands)


def place_of(command: str) -> Point:
    """The place that a command writes."""
    x, y = numbers(command.partition(" at ")[2].partition(")")[0])
    return x, y


def move_of(command: str) -> str:
    """The text of the motion that a command writes."""
    return re.sub(r"\)[^)]*$", ")", command.partition(" move ")[2])


def accepted(client: Client, lines: Iterable[str]) -> None:
    """Sends lines that have to be accepted."""
    for line in lines:
        reply = client.send(line)
        assert reply is None or reply.ok, (line, reply.text)


def places(client: Client, folder: Path, class_name: str = "van") -> dict[str, Point]:
    """Where the objects of a class are now, as the program tells it."""
    accepted(client, [f'export {class_name} "places.csv"'])
    header, *rows = [line.split(",") for line in (folder / "places.csv").read_text().splitlines()]
    x, y = header.index("x"), header.index("y")
    return {row[0]: (numbers(row[x])[0], numbers(row[y])[0]) for row in rows}
