"""`fleet serve`: one database for many clients, with a clock and a log that survives a crash."""

import argparse

from fleet.serve.options import add_arguments

__all__ = ["add_arguments", "main"]


def main(arguments: argparse.Namespace) -> int:
    """Serves until it is told to end, and gives the exit status."""
    from fleet.serve.server import main as serve

    return serve(arguments)
