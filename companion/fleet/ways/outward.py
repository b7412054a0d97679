"""`fleet to`: the objects and regions of a saved session for other programs."""

import argparse
import importlib
from pathlib import Path
from typing import NamedTuple

from fleet.ways.faults import Faults
from fleet.ways.measures import SECOND, moment_in, tick_length
from fleet.ways.planes import add_plane_arguments
from fleet.words import TICK_LIMIT

DESCRIPTION = """
Reads a saved session, or the log of a server that may run meanwhile, and writes its objects with longitude and latitude
to standard output. The plane on which the places lie is the one that a comment of the session names, else that of --zone
or --local; without one nothing is written.
What can't be written is told on standard error, and the status is 1 then.
"""


class Format(NamedTuple):
    """A form: the module that writes it, and a line of help."""

    module: str
    help: str


FORMATS: dict[str, Format] = {
    "geojson": Format("fleet.ways.to_geojson", "the regions, and the objects at a tick"),
    "csv": Format("fleet.ways.to_csv", "the objects of a class at a tick, as `fleet from csv` reads them"),
    "mfjson": Format("fleet.ways.to_mfjson", "the ways of objects as OGC Moving Features in JSON, in linear pieces"),
}


def add_arguments(parser: argparse.ArgumentParser) -> None:
    """Adds the forms and their options."""
    parser.description = DESCRIPTION
    formats = parser.add_subparsers(title="forms", metavar="FORM", dest="form", required=True)
    for name, (_, help_line) in FORMATS.items():
        below = formats.add_parser(name, help=help_line, description=help_line, allow_abbrev=False)
        below.add_argument("session", metavar="SESSION", type=Path, help="the saved session, or the folder of a log")
        add_plane_arguments(below, can_choose=False)
        below.add_argument(
            "--class", dest="class_name", metavar="CLASS", help="the objects of this class alone, and no regions"
        )
        below.add_argument("--tick", metavar="SECONDS", type=tick_length, default=SECOND, help="how long a tick is (1)")
        if name == "mfjson":
            _add_window(below)
        else:
            below.add_argument("--at", metavar="TICK", type=_tick, help="the tick, past or coming as well (else now)")


def main(arguments: argparse.Namespace) -> int:
    """Writes what was asked for and gives the exit status."""
    faults = Faults()
    importlib.import_module(FORMATS[arguments.form].module).run(arguments, faults)
    return faults.end()


def _add_window(parser: argparse.ArgumentParser) -> None:
    parser.add_argument("--first", metavar="TICK", type=_tick, help="the first tick, also a past one (else now)")
    parser.add_argument("--last", metavar="TICK", type=_tick, help="the last tick (else 3,600 ticks after the first)")
    parser.add_argument(
        "--start", metavar="TIME", type=moment_in, default=0,
        help="the time of tick 0, as 2024-06-07T08:00:00Z (else the beginning of 1970)",
    )  # fmt: skip


def _tick(text: str) -> int:
    if not text.isdecimal() or int(text) > TICK_LIMIT:
        raise argparse.ArgumentTypeError(f"{text} isn't a tick from 0 to {TICK_LIMIT:,}")
    return int(text)
