"""`fleet look`: answers and sessions as pictures: timelines, maps, and a page in which a session plays."""

import argparse
import importlib

PARTS: dict[str, str] = {
    "timeline": "the rows of answers as bars over the ticks",
    "map": "where the objects of a session are and go",
    "play": "one page in which a session plays, without a server",
    "diff": "what of one answer another one has gained and lost",
    "live": "the page of a running server",
}
"""The kinds of pictures, each with a line of help; each is a module of its name."""

DESCRIPTION = """
Draws answers and sessions. The same input gives the same bytes. All that is told of queries is the program's own word;
places are worked out from the motions that a session has.
"""


def add_arguments(parser: argparse.ArgumentParser) -> None:
    """Adds the options of the word."""
    parser.description = DESCRIPTION
    kinds = parser.add_subparsers(title="kinds", metavar="KIND", required=True)
    for kind, help_line in PARTS.items():
        part = importlib.import_module(f"fleet.look.{kind}")
        below = kinds.add_parser(kind, help=help_line, allow_abbrev=False)
        part.add_arguments(below)
        below.set_defaults(draw=part.main)


def main(arguments: argparse.Namespace) -> int:
    """Draws, and gives the exit status."""
    status: int = arguments.draw(arguments)
    return status
