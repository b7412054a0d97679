"""The command `fleet`: its words, each a module that is imported when its word is used."""

import argparse
import importlib
import os
import sys
from collections.abc import Sequence
from types import ModuleType
from typing import NamedTuple

from fleet import __version__
from fleet.errors import FleetError


class Part(NamedTuple):
    """A word of the command: the module with its `add_arguments` and `main`, and a line of help."""

    module: str
    help: str


PARTS: dict[str, Part] = {
    "shell": Part("fleet.shell", "type commands on a terminal, with history, completion and the places of faults"),
    "run": Part("fleet.runner", "run a file of commands, and say at which lines it is refused"),
    "check": Part("fleet.lint", "check a file of commands or of csv without running it"),
    "json": Part("fleet.json_lines", "answer the commands of standard input in lines of JSON"),
    "serve": Part("fleet.serve", "serve one database to many clients, with a clock and a log"),
    "roll": Part("fleet.roll", "make of a saved session a short one of its present state"),
    "from": Part("fleet.ways.inward", "make commands of positions and areas in files of other programs"),
    "to": Part("fleet.ways.outward", "write the objects and regions of a saved session for other programs"),
    "look": Part("fleet.look", "draw answers and sessions: timelines, maps, and a page in which a session plays"),
}

PACKAGES: dict[str, str] = {
    "lark": "python3-lark",
    "prompt_toolkit": "python3-prompt-toolkit",
    "rich": "python3-rich",
    "websockets": "python3-websockets",
    "shapely": "python3-shapely",
    "pyproj": "python3-pyproj",
    "gpxpy": "python3-gpxpy",
    "pynmea2": "python3-nmea2",
    "paho": "python3-paho-mqtt",
    "redis": "python3-redis",
}
"""The Debian package of each module that only some parts need."""

EXIT_USAGE = 2
EXIT_INTERRUPTED = 130


def main(words: Sequence[str] | None = None) -> int:
    """Runs the command with its words, those of the process if none are given, and gives its exit status."""
    words = list(sys.argv[1:] if words is None else words)
    if not words and sys.stdin.isatty():
        words = ["shell"]
    try:
        return _run(words)
    except ModuleNotFoundError as error:
        if error.name is None or error.name.partition(".")[0] not in PACKAGES:
            raise
        return _tell(f"this part needs the Debian package {PACKAGES[error.name.partition('.')[0]]}")
    except BrokenPipeError:
        # The reader has gone. Without this the interpreter would write to the closed pipe once more as it ends.
        os.dup2(os.open(os.devnull, os.O_WRONLY), sys.stdout.fileno())
        return 1
    except FleetError as error:
        return _tell(str(error), error.exit_status)
    except OSError as error:
        return _tell(str(error))
    except KeyboardInterrupt:
        return EXIT_INTERRUPTED


def _run(words: list[str]) -> int:
    chosen = next((word for word in words if not word.startswith("-")), None)
    part = importlib.import_module(PARTS[chosen].module) if chosen in PARTS else None
    arguments = _parser(chosen, part).parse_args(words)
    if part is None:
        _parser(None, None).print_help(sys.stderr)
        return EXIT_USAGE
    status: int = part.main(arguments)
    return status


def _parser(chosen: str | None, part: ModuleType | None) -> argparse.ArgumentParser:
    """The parser of all words, with the options of the chosen one alone: the others aren't imported."""
    parser = argparse.ArgumentParser(
        prog="fleet", description="A companion of DOMINO, the moving objects database.", allow_abbrev=False
    )
    parser.add_argument("--version", action="version", version=f"fleet {__version__}")
    subparsers = parser.add_subparsers(title="words", metavar="WORD")
    for word, (_, help_line) in PARTS.items():
        below = subparsers.add_parser(word, help=help_line, description=help_line, allow_abbrev=False)
        if word == chosen and part is not None:
            part.add_arguments(below)
    return parser


def _tell(message: str, status: int = 1) -> int:
    print(f"fleet: {message}", file=sys.stderr)
    return status
