"""`fleet`, `fleet shell`: commands typed on a terminal. Without one it is the program itself, as a plain pipe."""

import argparse
import os
import sys
from pathlib import Path

from fleet.client import add_arguments as add_client_arguments
from fleet.filenames import check_name
from fleet.program import find_program

DESCRIPTION = """
Takes commands on a terminal, with history and completion, and tells of a refusal its place and cause; \\help lists what
else can be typed. Nothing is saved by itself: `save "name"` saves, and --session goes on from there. Without a terminal
it is the program as a plain pipe: its replies alone, and its exit status.
"""


def add_arguments(parser: argparse.ArgumentParser) -> None:
    """Adds the options of the word."""
    parser.description = DESCRIPTION
    add_client_arguments(parser)
    parser.add_argument("--check", action="store_true", help="only say by the exit status whether its packages are there")


def main(arguments: argparse.Namespace) -> int:
    """Runs the shell, or becomes the program where there is no terminal, and gives the exit status."""
    if not arguments.check and not (sys.stdin.isatty() and sys.stdout.isatty()):
        become_program(arguments)
    from fleet.terminal import run  # what it needs is needed on a terminal alone

    return 0 if arguments.check else run(arguments)


def become_program(arguments: argparse.Namespace) -> None:
    """Runs the program in place of this process. Raises as a client does where it can't be run."""
    program = str(find_program(arguments.program))
    directory = Path(arguments.directory or ".")
    words = [program]
    if arguments.session is not None:
        check_name(arguments.session, directory, writes=False)
        words += ["--session", arguments.session]
    os.chdir(directory)
    os.execv(program, words)
