"""Finds the built program."""

import argparse
import os
import shutil
from pathlib import Path

from fleet.errors import FleetError

IN_CHECKOUT = Path("crates/domino/out/domino")
"""Where the build leaves the program, from the top of the repository."""


class NotBuilt(FleetError):
    """There is no program that can be run."""


def find_program(named: str | os.PathLike[str] | None = None) -> Path:
    """The full path of the program.

    It is the one that is named; else the one that the variable DOMINO names; else the one that the repository of this
    package has built; else `domino` on the PATH. Raises NotBuilt where there is none, and where the first two name
    something that can't be run.
    """
    chosen = named or os.environ.get("DOMINO")
    if chosen:
        return _runnable(Path(chosen))
    built = Path(__file__).resolve().parents[2] / IN_CHECKOUT
    if _can_run(built):
        return built
    on_path = shutil.which("domino")
    if on_path:
        return Path(on_path).absolute()
    raise NotBuilt(f"there is no program: {built} isn't built; ./domino build makes it, or DOMINO names another")


def add_program_argument(parser: argparse.ArgumentParser) -> None:
    """Adds the option that names the program."""
    parser.add_argument(
        "--program",
        metavar="FILE",
        help="the program to run (else $DOMINO, else crates/domino/out/domino, else domino on the PATH)",
    )


def _can_run(path: Path) -> bool:
    return path.is_file() and os.access(path, os.X_OK)


def _runnable(path: Path) -> Path:
    if not _can_run(path):
        raise NotBuilt(f"there is no program that can be run at {path}")
    return path.absolute()
