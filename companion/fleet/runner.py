"""`fleet run`: runs a file of commands, and says at which lines and places it is refused."""

import argparse
import json
import sys
from collections import deque
from collections.abc import Iterator
from contextlib import contextmanager
from dataclasses import dataclass, field
from pathlib import Path
from typing import BinaryIO

from fleet.client import BadName, Client, Ended, add_arguments as add_client_arguments, client_of
from fleet.errors import FleetError
from fleet.explain import Explainer, pointed
from fleet.replies import Reply, Row, printable
from fleet.schema import Schema, listing
from fleet.tokens import BadToken, is_silent, line_text, read_lines, tokens

DESCRIPTION = """
Runs the commands of FILE, one a line, and writes the replies as the program does. For each line that is refused it
writes to standard error the file, the number of the line, the refusal and its cause, and a caret under the place.
A `save`, `import` or `export` with a file name that would end the program isn't sent, and counts as refused.
The status is 0 where no line was refused, 1 where one was, 2 where FILE can't be read or the session is bad, and the
program's own, 3 to 7, where it ended early.
"""
STANDARD_INPUT = "-"


class Unreadable(FleetError):
    """The file of commands can't be read."""

    exit_status = 2


def add_arguments(parser: argparse.ArgumentParser) -> None:
    """Adds the options of the word."""
    parser.description = DESCRIPTION
    parser.add_argument("file", metavar="FILE", help="the commands, `-` for standard input")
    parser.add_argument("--bail", action="store_true", help="stop at the first line that is refused")
    form = parser.add_mutually_exclusive_group()
    form.add_argument("--echo", action="store_true", help="write each line, and under it its reply, indented by four")
    form.add_argument("--json", action="store_true", help="write an object of JSON for each line of a reply")
    add_client_arguments(parser)


def main(arguments: argparse.Namespace) -> int:
    """Runs the file and gives the exit status."""
    with _opened(arguments.file) as stream, client_of(arguments) as client:
        schema = Schema.of_session(client.directory / arguments.session) if arguments.session else Schema()
        run = Run(client, schema, Printer(arguments.file, arguments.echo, arguments.json), arguments.program)
        one_by_one = arguments.bail or arguments.file == STANDARD_INPUT
        try:
            run.all(read_lines(stream), one_by_one, arguments.bail)
            status = client.close()
        except Ended as ended:
            run.printer.tell(run.number_unanswered, str(ended))
            return ended.exit_status
    if status:
        raise Ended(status)
    return 1 if run.refused else 0


@contextmanager
def _opened(file: str) -> Iterator[BinaryIO]:
    if file == STANDARD_INPUT:
        yield sys.stdin.buffer
        return
    try:
        stream = Path(file).open("rb")
    except OSError as error:
        raise Unreadable(f"{file}: {error.strerror}") from None
    with stream:
        yield stream


@dataclass(frozen=True, slots=True)
class Printer:
    """Writes replies to standard output in the form that was asked for, and faults to standard error."""

    file: str
    echo: bool
    json: bool

    def silent(self, line: bytes) -> None:
        """Writes a line that has no reply."""
        if self.echo:
            print(_shown(line))

    def reply(self, number: int, line: bytes, reply: Reply) -> None:
        """Writes the reply to the line of this number."""
        if self.json:
            print(*(json.dumps(told) for told in reply.json(number)), sep="\n")
        elif self.echo:
            print(_shown(line), *(f"    {each}" for each in reply.text), sep="\n")
        else:
            print(*reply.text, sep="\n")

    def unsent(self, number: int, line: bytes, error: BadName) -> None:
        """Writes that a line wasn't sent."""
        if self.json:
            told = {"kind": "bad_name", "name": error.name, "cause": error.cause}
            print(json.dumps({**told, "line": number, "text": printable(line_text(line))}))
        else:
            self.silent(line)
        self.tell(number, str(error))

    def tell(self, number: int, message: str, *more: str) -> None:
        """Writes a fault at the line of this number, and more lines."""
        sys.stdout.flush()
        print(f"{self.file}:{number}: {message}", *more, sep="\n", file=sys.stderr)


def _shown(line: bytes) -> str:
    return printable(line_text(line.removesuffix(b"\r")))


@dataclass(frozen=True, slots=True)
class _Item:
    """A line of the file, or one that asks for the names that the line before it may have brought."""

    number: int
    line: bytes
    asks_names_of: str = ""


@dataclass(slots=True)
class Run:
    """Runs lines on a client. `refused` counts those that were refused or not sent."""

    client: Client
    schema: Schema
    printer: Printer
    program: str | None
    refused: int = 0
    number_answered: int = 0
    _taken: deque[_Item] = field(default_factory=deque)

    def all(self, lines: Iterator[bytes], one_by_one: bool, bail: bool) -> None:
        """Runs all lines, up to a `quit`, and with `bail` up to the first one that is refused.

        One by one each is answered before the next is read; else lines are sent ahead. Raises Ended.
        """
        explainer = Explainer(self.schema, self.program, self.client.directory)
        items = self._items(lines)
        for item, answer in self._answers(items, one_by_one):
            self.number_answered = item.number
            if item.asks_names_of:
                self._take_names(item, answer)
            elif isinstance(answer, BadName):
                self.refused += 1
                self.printer.unsent(item.number, item.line, answer)
            elif answer is None:
                self.printer.silent(item.line)
            else:
                self._take(item, answer, explainer)
            if one_by_one:
                sys.stdout.flush()
            if bail and self.refused:
                return

    @property
    def number_unanswered(self) -> int:
        """The number of the first line that has a reply and has got none."""
        waiting = (item.number for item in self._taken if not is_silent(item.line))
        return next(waiting, self.number_answered + 1)

    def _items(self, lines: Iterator[bytes]) -> Iterator[_Item]:
        for number, line in enumerate(lines, 1):
            yield _Item(number, line)
            class_name = _imported(line)
            if class_name:
                yield _Item(number, listing(class_name).encode("ascii"), class_name)

    def _answers(self, items: Iterator[_Item], one_by_one: bool) -> Iterator[tuple[_Item, Reply | BadName | None]]:
        """Each line with its reply, with None where it has none, or with why it wasn't sent."""
        if one_by_one:
            for item in items:
                yield item, self._answer(item)
                if self.client.status is not None:
                    return
            return
        more = True
        while more:
            more = False
            try:
                for reply in self.client.send_many(self._sent(items)):
                    yield from self._silent_before()
                    yield self._taken.popleft(), reply
            except BadName as error:
                unsent = self._taken.pop()
                yield from self._silent_before()
                yield unsent, error
                more = True
        yield from self._silent_before()

    def _answer(self, item: _Item) -> Reply | BadName | None:
        try:
            return self.client.send(item.line)
        except BadName as error:
            return error

    def _sent(self, items: Iterator[_Item]) -> Iterator[bytes]:
        for item in items:
            self._taken.append(item)
            yield item.line

    def _silent_before(self) -> Iterator[tuple[_Item, None]]:
        """The lines without reply that stand before the next that has one."""
        while self._taken and is_silent(self._taken[0].line):
            yield self._taken.popleft(), None

    def _take(self, item: _Item, reply: Reply, explainer: Explainer) -> None:
        self.printer.reply(item.number, item.line, reply)
        if reply.refusal is None:
            self.schema.record(item.line.removesuffix(b"\r"))
            return
        self.refused += 1
        why = explainer.explain(item.line, reply.refusal.number)
        caret = [] if why.place is None else pointed(item.line, why.place, why.length)
        self.printer.tell(item.number, f"refused {reply.refusal}: {why.message}", *(f"    {each}" for each in caret))

    def _take_names(self, item: _Item, answer: Reply | BadName | None) -> None:
        if isinstance(answer, Reply) and answer.ok:
            rows = (row for row in answer.records if isinstance(row, Row))
            self.schema.record_present(item.asks_names_of, (row.objects[0] for row in rows))


def _imported(line: bytes) -> str:
    """The class of an `import`, empty where the line is another one."""
    if not line.lstrip(b" \t").startswith(b"import"):
        return ""
    try:
        found = tokens(line)
    except BadToken:
        return ""
    kinds = [token.kind for token in found]
    return found[1].text if kinds == ["word", "name", "text"] and found[0].text == "import" else ""
