"""On which plane the places of a session lie: a zone of the EPSG registry, or a local plane around a point.

The program knows numbers alone. So a session keeps its plane in a comment of one form, which the program passes over
and `fleet roll` carries on:

    # fleet plane EPSG:32632
    # fleet plane local 11.5755,48.1374
"""

import argparse
import re
from collections.abc import Iterable
from dataclasses import dataclass
from pathlib import Path

from fleet.errors import FleetError

AUTO = "auto"
"""What stands for the zone that suits the data."""
BEGINNING = b"# fleet plane"
"""What the comment begins with."""
WEST_EAST, SOUTH_NORTH = 180, 90
"""The largest longitude and latitude, in degrees."""

_ZONE = re.compile(r"(?:EPSG:)?([1-9][0-9]{3,5})", re.IGNORECASE)
_LOCAL = re.compile(r"(-?[0-9]{1,3}(?:\.[0-9]{1,9})?),(-?[0-9]{1,2}(?:\.[0-9]{1,9})?)")
_COMMENT = re.compile(rb"# fleet plane (?:EPSG:([1-9][0-9]{3,5})|local ([^ ]+))")


class PlaneFault(FleetError):
    """It isn't known on which plane the places lie, or two different ones are named."""


@dataclass(frozen=True, slots=True)
class Zone:
    """A projected plane of the EPSG registry, such as a zone of UTM."""

    code: int

    def __str__(self) -> str:
        return f"EPSG:{self.code}"


@dataclass(frozen=True, slots=True)
class Local:
    """The plane around a point, in degrees. Both coordinates are 0 there; x grows to the east, and y to the north."""

    lon: float
    lat: float

    def __str__(self) -> str:
        return f"local {degrees_text(self.lon)},{degrees_text(self.lat)}"


Plane = Zone | Local


def degrees_text(degrees: float) -> str:
    """Degrees with at most nine decimals, a tenth of a millimetre."""
    text = f"{degrees:.9f}".rstrip("0").rstrip(".")
    return "0" if text == "-0" else text


def comment(plane: Plane) -> str:
    """The comment by which a session keeps its plane."""
    return f"# fleet plane {plane}"


def plane_in(lines: Iterable[bytes]) -> Plane | None:
    """The plane that a comment among the lines names, None where none does. Raises PlaneFault where two differ."""
    found: Plane | None = None
    for line in lines:
        if line.startswith(BEGINNING):
            plane = _of_comment(line.rstrip(b"\r\n"))
            if found is not None and plane is not None and plane != found:
                raise PlaneFault(f"it names two planes, {found} and {plane}")
            found = found or plane
    return found


def plane_of_file(path: Path) -> Plane | None:
    """The plane that a session, or a file of commands, names in a comment. Raises PlaneFault and OSError."""
    with path.open("rb") as lines:
        return plane_of(lines, path)


def plane_of(lines: Iterable[bytes], path: Path) -> Plane | None:
    """The plane that the lines of a file name in a comment. Raises PlaneFault, with the name of the file."""
    try:
        return plane_in(lines)
    except PlaneFault as fault:
        raise PlaneFault(f"{path}: {fault}") from None


def settled(wanted: Plane | None, kept: Plane | None, path: Path | None) -> Plane | None:
    """The plane that was asked for or that the file names. Raises PlaneFault where both are there and differ."""
    if wanted is not None and kept is not None and wanted != kept:
        raise PlaneFault(f"{path} lies on {kept}, as its comment says, and not on {wanted}")
    return wanted or kept


def add_plane_arguments(parser: argparse._ActionsContainer, *, can_choose: bool) -> None:
    """Adds the options that name a plane; `can_choose` lets the zone be chosen by the data."""
    group = parser.add_mutually_exclusive_group()
    auto = ", or `auto` for the zone of UTM in which the middle of the data lies" if can_choose else ""
    group.add_argument(
        "--zone", metavar="EPSG:CODE", type=_zone_or_auto if can_choose else _zone,
        help=f"the plane, in metres, by its code of the EPSG registry{auto}",
    )  # fmt: skip
    group.add_argument(
        "--local", metavar="LON,LAT", type=_local,
        help="or a plane of metres around this point (--local=LON,LAT where LON is negative)",
    )  # fmt: skip


def wanted_plane(arguments: argparse.Namespace) -> Plane | None:
    """The plane that the options name; None also where it is to be chosen."""
    return None if arguments.zone == AUTO else arguments.zone or arguments.local


def _of_comment(line: bytes) -> Plane | None:
    match = _COMMENT.fullmatch(line)
    if match is None:
        return None
    if match.group(1):
        return Zone(int(match.group(1)))
    try:
        return _local(match.group(2).decode("ascii"))
    except (argparse.ArgumentTypeError, UnicodeDecodeError):
        return None


def _zone(text: str) -> Zone:
    match = _ZONE.fullmatch(text)
    if match is None:
        raise argparse.ArgumentTypeError(f"{text} isn't of the form EPSG:32632")
    return Zone(int(match.group(1)))


def _zone_or_auto(text: str) -> Zone | str:
    return AUTO if text == AUTO else _zone(text)


def _local(text: str) -> Local:
    match = _LOCAL.fullmatch(text)
    if match is None or abs(float(match.group(1))) > WEST_EAST or abs(float(match.group(2))) > SOUTH_NORTH:
        raise argparse.ArgumentTypeError(f"{text} isn't LON,LAT in degrees, such as 11.5755,48.1374")
    return Local(float(match.group(1)), float(match.group(2)))
