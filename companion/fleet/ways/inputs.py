"""What the ways in share: the files that are read, the names that are there, the plane, and the lines written."""

import argparse
import sys
from collections.abc import Iterable
from contextlib import AbstractContextManager, nullcontext
from dataclasses import dataclass
from pathlib import Path
from typing import BinaryIO, Self

from fleet.errors import FleetError
from fleet.schema import Schema
from fleet.serve.closed import open_session
from fleet.session_text import entries
from fleet.tokens import BadToken, read_lines
from fleet.ways.faults import Faults, Unfit, counted
from fleet.ways.identifiers import Names
from fleet.ways.planes import AUTO, Plane, PlaneFault, comment, plane_of, settled, wanted_plane
from fleet.ways.projection import Projection, check_point, zone_for

STANDARD_INPUT = "-"


class BadFile(FleetError):
    """A file as a whole can't be read, or isn't of its form."""


def opened(file: str) -> AbstractContextManager[BinaryIO]:
    """A file, or standard input. Raises BadFile."""
    if file == STANDARD_INPUT:
        return nullcontext(sys.stdin.buffer)
    try:
        return Path(file).open("rb")
    except OSError as error:
        raise BadFile(f"{file}: {error.strerror}") from None


def text_of(file: str) -> str:
    """The text of a file in UTF-8, without a byte order mark. Raises BadFile."""
    with opened(file) as stream:
        try:
            return stream.read().decode("utf-8-sig")
        except UnicodeDecodeError as error:
            byte = error.object[error.start]
            raise BadFile(f"{file}: the byte 0x{byte:02X} at {error.start:,} isn't UTF-8") from None
        except OSError as error:
            raise BadFile(f"{file}: {error.strerror}") from None


@dataclass(slots=True)
class Base:
    """What is there before the data: the schema, the plane where it is known, and names for ids.

    It writes the map of names as its context ends, and where lines are wanted at once before the first line of a name.
    """

    schema: Schema
    plane: Plane | None
    chooses_zone: bool
    names: Names
    faults: Faults
    flushes: bool

    @classmethod
    def of(cls, arguments: argparse.Namespace, file: str, faults: Faults) -> Self:
        """That of the options and of the first file. Raises BadFile, BadMap, PlaneFault and BadSessionText."""
        path = Path(arguments.session or arguments.schema) if arguments.session or arguments.schema else None
        schema = _schema(path, is_session=bool(arguments.session)) if path else Schema()
        kept = _plane_in(path) if path else None
        plane = settled(wanted_plane(arguments), kept, path)
        names_path = Path(arguments.names) if arguments.names else _beside(file)
        names = Names(names_path, lambda name: name in schema.objects or name in schema.regions)
        return cls(schema, plane, arguments.zone == AUTO, names, faults, arguments.live)

    def __enter__(self) -> Self:
        return self

    def __exit__(self, *of_error: object) -> None:
        self.names.write()
        if self.names.added:
            self.faults.note(f"{self.names.path} has the names of {counted(self.names.added, 'id')} more")

    def projection(self, points: Iterable[tuple[float, float]]) -> Projection:
        """The projection to the plane that is known, or to the zone that has the middle of the points; it is written as
        a comment. Raises PlaneFault."""
        if self.plane is None and not self.chooses_zone:
            raise PlaneFault(
                "it isn't known on which plane the places lie: --zone EPSG:CODE, --zone auto or --local LON,LAT says it"
            )
        projection = Projection(self.plane or zone_for(*_middle(points)))
        if self.plane is None:
            self.faults.note(f"the places lie on {projection.plane}, {projection.name}, as the middle of the data does")
        self.write([comment(projection.plane)])
        return projection

    def write(self, lines: Iterable[str]) -> None:
        """Writes lines for the program."""
        for line in lines:
            if self.flushes:
                self.names.write()
            print(line, flush=self.flushes)


def _beside(file: str) -> Path | None:
    return None if file == STANDARD_INPUT else Path(file).with_suffix(".names.csv")


def _middle(points: Iterable[tuple[float, float]]) -> tuple[float, float]:
    """The middle of the least and the greatest degrees of the points that are some."""
    found = [point for point in points if _is_point(point)]
    if not found:
        raise PlaneFault("no point is there by which a zone could be chosen")
    lons, lats = zip(*found)
    return (min(lons) + max(lons)) / 2, (min(lats) + max(lats)) / 2


def _is_point(point: tuple[float, float]) -> bool:
    try:
        check_point(*point)
    except Unfit:
        return False
    return True


def _plane_in(path: Path) -> Plane | None:
    with open_session(path) as text:
        return plane_of(text, path)


def _schema(path: Path, *, is_session: bool) -> Schema:
    """The names of a saved session, which the program has to accept, or after the lines of a file that it accepts."""
    try:
        if not is_session:
            return _schema_of_commands(path)
        with open_session(path) as text:
            return Schema.of_lines(entry.text for entry in entries(text))
    except OSError as error:
        raise BadFile(f"{path}: {error.strerror}") from None
    except (LookupError, ValueError, BadToken):
        raise BadFile(f"{path} is no session that the program loads") from None


def _schema_of_commands(path: Path) -> Schema:
    # Which of the lines are accepted is judged with a package of its own.
    from fleet.lint import Check

    check = Check(Schema(), path.parent)
    with path.open("rb") as stream:
        for _ in check.lines(read_lines(stream)):
            pass
    return check.schema
