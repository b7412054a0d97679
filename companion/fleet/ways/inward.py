"""`fleet from`: positions and areas of other programs as commands."""

import argparse
import importlib
from decimal import Decimal
from typing import Any, NamedTuple

from fleet.options import some_ticks
from fleet.ways.faults import Faults, Unfit
from fleet.ways.fields import add_column_arguments
from fleet.ways.measures import SECOND, moment_in, number, tick_length
from fleet.ways.planes import add_plane_arguments

DESCRIPTION = """
Reads a file of another program and writes commands to standard output, for the program, a server or a file; it sends
none itself. Longitude and latitude become metres on a plane, rounded to millimetres. The first line is a comment that
names the plane; `fleet to` and later runs find it in a session that has it.
What can't be taken is told on standard error, with its place and cause, and the status is 1 then; the lines of all else
are written.
"""


class Format(NamedTuple):
    """A form of files: the module that reads it, and a line of help."""

    module: str
    help: str


FORMATS: dict[str, Format] = {
    "geojson": Format(
        "fleet.ways.from_geojson",
        "areas as regions, cut into convex parts where they have to be, and points as objects",
    ),
    "csv": Format("fleet.ways.from_csv", "rows with longitude and latitude as inserts and updates of objects"),
    "gpx": Format("fleet.ways.from_gpx", "tracks as motions with legs, with the ticks between them"),
    "nmea": Format("fleet.ways.from_nmea", "RMC sentences as places and motions of an object"),
}


SEVERAL = ("gpx", "nmea")
"""The forms of which several files are read at once."""


def add_arguments(parser: argparse.ArgumentParser) -> None:
    """Adds the forms and their options."""
    parser.description = DESCRIPTION
    formats = parser.add_subparsers(title="forms", metavar="FORM", dest="form", required=True)
    for name, (_, help_line) in FORMATS.items():
        below = formats.add_parser(name, help=help_line, description=help_line, allow_abbrev=False)
        several: dict[str, Any] = {"nargs": "+"} if name in SEVERAL else {}
        below.add_argument("file", metavar="FILE", help="the file, `-` for standard input", **several)
        _add_common(below)
        _OPTIONS[name](below)


def main(arguments: argparse.Namespace) -> int:
    """Writes the lines and gives the exit status."""
    faults = Faults()
    importlib.import_module(FORMATS[arguments.form].module).run(arguments, faults)
    return faults.end()


def _add_common(parser: argparse.ArgumentParser) -> None:
    add_plane_arguments(parser, can_choose=True)
    before = parser.add_mutually_exclusive_group()
    before.add_argument(
        "--session", metavar="FILE", help="the saved session, or the folder of a log, that the lines go on from"
    )
    before.add_argument("--schema", metavar="FILE", help="or a file of commands that they go on from")
    parser.add_argument(
        "--class", dest="class_name", metavar="CLASS", help="the class of the objects (else the only one with a place)"
    )
    parser.add_argument(
        "--names", metavar="FILE",
        help="a csv of the names that ids have which are no names: it is read, and new ones are added (else that of "
        "the first file with .names.csv at its end)",
    )  # fmt: skip


def _add_geojson(parser: argparse.ArgumentParser) -> None:
    add_column_arguments(parser, "property")
    parser.add_argument(
        "--dent", metavar="METRES", type=_millimetres, default=100,
        help="an area that is no deeper dented than this is taken as its convex hull (0.1)",
    )  # fmt: skip
    parser.add_argument(
        "--simplify", metavar="METRES", type=_millimetres, default=0,
        help="take points away that move the sides of an area by no more than this (0: none)",
    )  # fmt: skip
    _add_tick(parser)
    _add_start(parser)
    _add_hold(parser)
    parser.set_defaults(live=False)


def _add_csv(parser: argparse.ArgumentParser) -> None:
    add_column_arguments(parser, "column")
    parser.add_argument("--delimiter", metavar="SIGN", type=_sign, default=",", help="what parts the fields (a comma)")
    parser.add_argument(
        "--encoding", metavar="NAME", type=_encoding, default="utf-8-sig", help="in what the file is written (utf-8)"
    )
    _add_tick(parser)
    _add_reports(parser)


def _add_gpx(parser: argparse.ArgumentParser) -> None:
    parser.add_argument("--name", metavar="ID", help="the id of the object (else that of each track, or of the file)")
    _add_tick(parser)
    _add_start(parser)
    parser.add_argument(
        "--go-on", action="store_true", help="let objects go on after the end of their tracks (else they rest)"
    )
    parser.set_defaults(live=False)


def _add_nmea(parser: argparse.ArgumentParser) -> None:
    parser.add_argument("--name", metavar="ID", help="the id of the object (else the file's name without its ending)")
    _add_tick(parser)
    _add_reports(parser)


def _add_tick(parser: argparse.ArgumentParser) -> None:
    parser.add_argument(
        "--tick", metavar="SECONDS", type=tick_length, default=SECOND, help="how long a tick is (1)"
    )


def _add_start(parser: argparse._ActionsContainer) -> None:
    parser.add_argument(
        "--start", metavar="TIME", type=moment_in,
        help="the time of the present tick, as 2024-06-07T08:00:00Z (else that of what comes first)",
    )  # fmt: skip


def _add_reports(parser: argparse.ArgumentParser) -> None:
    when = parser.add_mutually_exclusive_group()
    _add_start(when)
    when.add_argument(
        "--now", metavar="TIME", type=moment_in,
        help="write no ticks: all is told at the present tick, which is at this time, and carried on to it",
    )  # fmt: skip
    when.add_argument(
        "--live", action="store_true", help="the same by the machine's clock, each line as soon as it is read"
    )
    _add_hold(parser)


def _add_hold(parser: argparse.ArgumentParser) -> None:
    parser.add_argument(
        "--hold", metavar="TICKS", type=some_ticks,
        help="for how long a speed holds; from then on the object counts as standing (else it goes on)",
    )  # fmt: skip


_OPTIONS = {"geojson": _add_geojson, "csv": _add_csv, "gpx": _add_gpx, "nmea": _add_nmea}


def _millimetres(text: str) -> int:
    try:
        found = number(text, "")
    except Unfit as unfit:
        raise argparse.ArgumentTypeError(str(unfit)) from None
    if not 0 <= found <= Decimal(1_000_000):
        raise argparse.ArgumentTypeError(f"{text} isn't from 0 to 1,000,000 metres")
    return round(found * 1000)


def _encoding(text: str) -> str:
    try:
        "".encode(text)
    except LookupError:
        raise argparse.ArgumentTypeError(f"{text} is no known encoding of texts") from None
    return text


def _sign(text: str) -> str:
    sign = "\t" if text == "\\t" else text
    if len(sign) != 1 or sign in '"\r\n':
        raise argparse.ArgumentTypeError(f"{text} isn't one sign")
    return sign
