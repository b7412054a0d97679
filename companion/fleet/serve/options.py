"""The options of `fleet serve`."""

import argparse
from pathlib import Path

from fleet.brokers.options import add_broker_arguments
from fleet.options import port, whole
from fleet.program import add_program_argument
from fleet.serve.rolling import DEFAULT_ENTRIES
from fleet.streams.options import add_stream_arguments
from fleet.words import JOURNAL_ENTRIES

DEFAULT_PORT = 7171
DESCRIPTION = """
Serves one database to many clients, over lines and over WebSocket, with a clock by real time and a log from which it
goes on after any crash. Each line that changes the database is on the disk before its reply is passed on. The protocol
is told in docs/PROTOCOL.md.
"""
EPILOG = """
SIGTERM and SIGINT end it when the lines that are being carried out are answered; the log has all of them. The status is
0 then, 1 where it can't go on, and 2 where its options can't be had.
"""


def add_arguments(parser: argparse.ArgumentParser) -> None:
    """Adds the options of the word."""
    parser.description, parser.epilog = DESCRIPTION, EPILOG
    _add_addresses(parser)
    _add_log(parser)
    parser.add_argument(
        "--tick", metavar="SECONDS", type=_seconds, default=0.0,
        help="the clock goes on by one tick each so many seconds, by itself; with 0 by the lines of clients alone "
        "(default). After a pause it goes on by one tick of so many; while no server runs it stands",
    )  # fmt: skip
    parser.add_argument(
        "--patience", metavar="SECONDS", type=_some_seconds, default=10.0,
        help="how long one line may take (10). One that takes longer isn't carried out: the program is ended, and "
        "another goes on from the log",
    )  # fmt: skip
    parser.add_argument(
        "--clients", metavar="NUMBER", type=whole(1, 10_000), default=256, help="the most clients at once (256)"
    )
    add_program_argument(parser)
    add_stream_arguments(parser)
    add_broker_arguments(parser)


def _add_addresses(parser: argparse.ArgumentParser) -> None:
    parser.add_argument(
        "--host", metavar="ADDRESS", default="127.0.0.1",
        help="the address to be reached at (127.0.0.1: this machine alone); another than the loopback needs --token",
    )  # fmt: skip
    parser.add_argument(
        "--port", metavar="NUMBER", type=port, default=DEFAULT_PORT,
        help=f"the port of the line protocol ({DEFAULT_PORT}); 0 takes a free one",
    )  # fmt: skip
    parser.add_argument(
        "--ws-port", metavar="NUMBER", type=port, help="the port of the same lines over WebSocket; none without it"
    )
    parser.add_argument(
        "--origin", metavar="URL", action="append", default=[],
        help="lets the pages of this origin use WebSocket, such as http://localhost:8000; without it no page may",
    )  # fmt: skip
    parser.add_argument(
        "--token", metavar="FILE", type=Path,
        help="a file with a word of 16 characters or more, which each client must give before all else",
    )  # fmt: skip


def _add_log(parser: argparse.ArgumentParser) -> None:
    parser.add_argument(
        "--log", metavar="DIR", type=Path, default=Path("fleet-log"), help="the folder of the log (fleet-log)"
    )
    parser.add_argument(
        "--session", metavar="FILE", type=Path,
        help="a saved session from which a new log begins; it is refused where the folder has a log",
    )  # fmt: skip
    parser.add_argument(
        "--files", metavar="DIR", type=Path,
        help="the folder of the files that clients save, import and export (the folder files of the log's)",
    )  # fmt: skip
    parser.add_argument(
        "--sync", choices=["each", "group"], default="group",
        help="what is on the disk before a reply is passed on: with each, every line is synced by itself; with group "
        "(default), lines that come while the disk is busy are synced together. Neither passes a reply on before its "
        "line is on the disk",
    )  # fmt: skip
    parser.add_argument(
        "--roll-at", metavar="ENTRIES", type=whole(1, JOURNAL_ENTRIES), default=DEFAULT_ENTRIES,
        help=f"how many entries the log may have before it is rolled ({DEFAULT_ENTRIES}; the program takes "
        f"{JOURNAL_ENTRIES})",
    )  # fmt: skip


def _seconds(text: str) -> float:
    try:
        seconds = float(text)
    except ValueError:
        seconds = -1.0
    if not (seconds == 0 or 0.01 <= seconds <= 86_400):
        raise argparse.ArgumentTypeError(f"{text} is no number of seconds from 0.01 to 86400, and not 0")
    return seconds


def _some_seconds(text: str) -> float:
    seconds = _seconds(text)
    if not seconds:
        raise argparse.ArgumentTypeError("0 seconds are too few")
    return seconds
