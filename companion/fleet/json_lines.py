"""`fleet json`: answers the commands of standard input by an object of JSON for each line of a reply."""

import argparse
import json
import sys
from collections.abc import Iterator
from typing import Any

from fleet.client import BadName, BadSession, Client, Ended, add_arguments as add_client_arguments, client_of
from fleet.replies import printable
from fleet.tokens import line_text, read_lines

DESCRIPTION = """
Reads commands from standard input, one a line, and writes for each line of a reply an object of JSON on a line of its
own: rows, changes, lines of list, and at the end of each reply {"kind": "ok"} or {"kind": "refused"} with the number of
the line. A line is answered before the next is read. A file name with which the program would end is told by
{"kind": "bad_name"}, and that line isn't sent; an end of the program by {"kind": "ended"}.
The status is 1 where a line was refused or not sent, and the program's own where it ended before its input did.
"""


def add_arguments(parser: argparse.ArgumentParser) -> None:
    """Adds the options of the word."""
    parser.description = DESCRIPTION
    add_client_arguments(parser)


def main(arguments: argparse.Namespace) -> int:
    """Answers all lines and gives the exit status."""
    try:
        with client_of(arguments) as client:
            faults = _answer_all(client)
    except BadSession as error:
        _write({"kind": "bad_session", "line": error.number})
        return error.exit_status
    except Ended as error:
        _write({"kind": "ended", "status": error.status, "cause": str(error)})
        return error.exit_status
    return 1 if faults else 0


def _answer_all(client: Client) -> int:
    """Answers the lines up to the end of the input or a `quit`, and gives how many weren't carried out."""
    faults = 0
    for number, line in enumerate(read_lines(sys.stdin.buffer), 1):
        for told in _answer(client, number, line):
            _write(told)
            faults += told["kind"] in ("refused", "bad_name")
        if client.status is not None:
            break
    return faults


def _answer(client: Client, number: int, line: bytes) -> Iterator[dict[str, Any]]:
    try:
        reply = client.send(line)
    except BadName as error:
        text = printable(line_text(line))
        yield {"kind": "bad_name", "name": error.name, "cause": error.cause, "line": number, "text": text}
        return
    if reply is not None:
        yield from reply.json(number)


def _write(told: dict[str, Any]) -> None:
    sys.stdout.write(json.dumps(told, separators=(",", ":")) + "\n")
    sys.stdout.flush()
