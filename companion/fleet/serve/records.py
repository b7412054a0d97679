"""The lines of a log, and reading them back after a crash.

A log is the text of a session of format 1 without its `end`, so that with `end` the program loads it. Beside the
commands it has comments, which the program passes over:

    # rolled                          stands in front where the log goes on from a rolled one
    # fleet plane PLANE               the plane on which the places lie, as `fleet.ways.planes` has it
    #@ CLIENT NUMBER CHECK            the command that follows had this number
    #@ CLIENT NUMBER CHECK REFUSAL    the line of this number was refused: the refusal's number and name, or `ok`
                                      where its command stands in an earlier log
    #@ CLIENT NUMBER forgotten        the numbers of this client up to this one are forgotten
    #> LOG-ENTRY TAKEN CHAIN          where a stream has the lines before it, see `fleet.streams.positions`
    #= CHECK SIZE                     the lines since the last such mark were written whole: the CRC-32 of their bytes,
                                      and how many they are

What was written at once stands between two marks. It counts only where its mark is there and right, so that what a
crash cut off is never taken for a command, and a number never stands without its command.
"""

import re
import zlib
from collections.abc import Iterable, Iterator
from dataclasses import dataclass, field
from itertools import chain
from pathlib import Path
from typing import BinaryIO, NamedTuple

from fleet.errors import FleetError
from fleet.serve.outcomes import Number, Outcomes
from fleet.session_text import FIRST_LINES
from fleet.streams.positions import COMMENT, Position
from fleet.ways.planes import BEGINNING

FIRST = FIRST_LINES[1] + b"\n"
FORM = b"# fleet log 1\n"
"""The second line: the form of the comments."""
ROLLED = b"# rolled\n"
ACCEPTED = "ok"
"""What stands for the refusal of an accepted line whose command stands elsewhere."""

_MARK = re.compile(rb"#= ([0-9a-f]{8}) ([0-9]+)\n")
_NUMBER = re.compile(rb"#@ ([A-Za-z0-9_.-]+) ([0-9]+) ([0-9a-f]{8})(?: (ok|[0-9]+ [A-Za-z]+))?\n")
_FORGOTTEN = re.compile(rb"#@ ([A-Za-z0-9_.-]+) ([0-9]+) forgotten\n")


class DamagedLog(FleetError):
    """A log has other bytes than were written, and that isn't what a crash leaves."""


class Record(NamedTuple):
    """What is kept of a line: its number where it has one, and its command where it was accepted, else its refusal; or
    the comment that names the plane. And the place in a stream up to which the log has all with it."""

    command: bytes | None
    number: Number | None = None
    refusal: str = ""
    plane: bytes = b""
    position: Position | None = None

    def text(self) -> bytes:
        plane = self.plane + b"\n" if self.plane else b""
        number = b""
        if self.number is not None:
            refusal = f" {self.refusal}" if self.command is None else ""
            number = b"#@ %s %d %08x%s\n" % (
                self.number.client.encode(),
                self.number.number,
                self.number.check,
                refusal.encode(),
            )
        position = b"" if self.position is None else self.position.comment()
        return plane + number + (b"" if self.command is None else self.command + b"\n") + position


def mark(check: int, size: int) -> bytes:
    """The mark after lines of this CRC-32 and this many bytes."""
    return b"#= %08x %d\n" % (check, size)


def group(records: Iterable[Record]) -> bytes:
    """The text of records that are written at once, with its mark."""
    text = b"".join(record.text() for record in records)
    return text + mark(zlib.crc32(text), len(text))


def head(
    commands: Iterable[bytes], outcomes: Outcomes, numbers: Iterable[Number] = (), *, is_rolled: bool = False,
    plane: bytes = b"", position: Position | None = None,
) -> Iterator[bytes]:
    """The text, in pieces, with which a log begins that goes on from these commands, with the numbers that are known
    and those of lines that were accepted since, with the comment that names the plane, and with its place in a
    stream."""
    check, size = 0, 0
    last = b"" if position is None else position.comment()
    for piece in chain(_head_lines(commands, outcomes, numbers, is_rolled, plane), (last,)):
        check, size = zlib.crc32(piece, check), size + len(piece)
        yield piece
    yield mark(check, size)


def _head_lines(
    commands: Iterable[bytes], outcomes: Outcomes, numbers: Iterable[Number], is_rolled: bool, plane: bytes
) -> Iterator[bytes]:
    yield FIRST + FORM + (ROLLED if is_rolled else b"") + (plane + b"\n" if plane else b"")
    for command in commands:
        yield command + b"\n"
    for client, floor in outcomes.floors():
        yield b"#@ %s %d forgotten\n" % (client.encode(), floor)
        for number, refusal in outcomes.of(client):
            yield Record(None, number, refusal or ACCEPTED).text()
    for number in numbers:
        yield Record(None, number, ACCEPTED).text()


@dataclass(slots=True)
class Found:
    """What a log holds: the bytes up to its last right mark, its commands, its numbers, the comment that names the
    plane, and its place in a stream."""

    size: int = 0
    head_size: int = 0
    entries: int = 0
    command_bytes: int = 0
    outcomes: Outcomes = field(default_factory=Outcomes)
    is_rolled: bool = False
    plane: bytes = b""
    position: Position | None = None
    cut: int = 0


class _Group:
    """What the lines since the last mark say, until their own mark is found right."""

    def __init__(self) -> None:
        self._entries = 0
        self._command_bytes = 0
        self._is_rolled = False
        self._plane = b""
        self._numbers: list[tuple[Number, str]] = []
        self._floors: list[tuple[str, int]] = []
        self._number: Number | None = None
        self._position: Position | None = None

    def take(self, line: bytes) -> None:
        """Takes the next line."""
        if not line.startswith(b"#"):
            self._entries += 1
            self._command_bytes += len(line)
            if self._number is not None:
                self._numbers.append((self._number, ""))
                self._number = None
        elif match := _NUMBER.fullmatch(line):
            self._take_number(match)
        elif match := COMMENT.fullmatch(line):
            self._position = Position.of_comment(match)
        elif match := _FORGOTTEN.fullmatch(line):
            self._floors.append((match.group(1).decode(), int(match.group(2))))
        elif line.startswith(BEGINNING):
            self._plane = self._plane or line.removesuffix(b"\n")
        elif line == ROLLED:
            self._is_rolled = True

    def _take_number(self, match: re.Match[bytes]) -> None:
        number = _number_of(match)
        if match.group(4) is None:
            self._number = number
        else:
            refusal = match.group(4).decode()
            self._numbers.append((number, "" if refusal == ACCEPTED else refusal))

    def add_to(self, found: Found) -> None:
        """Adds what the lines say: their mark is right."""
        found.entries += self._entries
        found.command_bytes += self._command_bytes
        found.is_rolled |= self._is_rolled
        found.plane = found.plane or self._plane
        found.position = self._position or found.position
        for client, floor in self._floors:
            found.outcomes.forget_up_to(client, floor)
        for number, refusal in self._numbers:
            found.outcomes.record(number, refusal)


def _number_of(match: re.Match[bytes]) -> Number:
    return Number(match.group(1).decode(), int(match.group(2)), int(match.group(3), 16))


def records_of(lines: bytes) -> Iterator[Record]:
    """The records whose text, without their places, the lines are."""
    number: Number | None = None
    for line in lines.split(b"\n")[:-1]:
        match = _NUMBER.fullmatch(line + b"\n")
        if line.startswith(BEGINNING):
            yield Record(None, plane=line)
        elif match is None:
            yield Record(line, number)
            number = None
        elif match.group(4) is None:
            number = _number_of(match)
        else:
            yield Record(None, _number_of(match), match.group(4).decode())


def read_log(path: Path) -> Found:
    """Reads a log. What stands after its last right mark is a group that wasn't written whole: `cut` counts its bytes.

    Of such a group the mark may be there, with the size that it should have, and bytes before it not. Raises DamagedLog
    where a mark is wrong otherwise, or isn't the last, and OSError.
    """
    with path.open("rb") as file:
        if file.read(len(FIRST)) != FIRST:
            raise DamagedLog(f"{path} is no log")
        return _read(path, file)


def _read(path: Path, file: BinaryIO) -> Found:
    """Reads a log from its second line on."""
    found, lines, is_wrong = Found(), _Group(), False
    at, check, group_at = len(FIRST), zlib.crc32(FIRST), 0
    for count, line in enumerate(file, 2):
        match = _MARK.fullmatch(line)
        if match is None:
            lines.take(line)
            at, check = at + len(line), zlib.crc32(line, check)
            continue
        if is_wrong or int(match.group(2)) != at - group_at:
            raise DamagedLog(f"{path} is damaged before line {count}: other lines were written there")
        is_wrong = int(match.group(1), 16) != check
        at += len(line)
        if not is_wrong:
            lines.add_to(found)
            found.size = group_at = at
            found.head_size = found.head_size or at
            lines, check = _Group(), 0
    if not found.size:
        raise DamagedLog(f"{path} is damaged: it has no right mark")
    found.cut = at - found.size
    return found


def commands_from(path: Path, first: int, last: int) -> Iterator[bytes]:
    """The commands of a log between two places in bytes, each that of a mark's end or 0."""
    with path.open("rb") as file:
        file.seek(first)
        while first < last:
            line = file.readline()
            first += len(line)
            if not line.startswith(b"#") and line != FIRST:
                yield line.removesuffix(b"\n")


def entries_of(path: Path, last: int) -> Iterator[tuple[Position, bytes]]:
    """The entries of a stream that a log names up to a place in bytes, each with its lines; the first one that it names
    without, since what a log begins with stands before it."""
    place: Position | None = None
    lines, since = b"", b""
    for line in _lines_to(path, last):
        match = COMMENT.fullmatch(line)
        if match is None:
            since += b"" if _MARK.fullmatch(line) else line
            continue
        found = Position.of_comment(match)
        if place is not None and place.id != found.id:
            yield place, lines
            lines = b""
        lines, since = lines + since if place is not None else b"", b""
        place = found
    if place is not None:
        yield place, lines


def _lines_to(path: Path, last: int) -> Iterator[bytes]:
    """The lines of a file up to a place in bytes, where a line ends."""
    with path.open("rb") as file:
        while file.tell() < last:
            yield file.readline()
