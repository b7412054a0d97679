"""The text of a saved session: its first lines, a command on each line, `end`.

Format 1 is the line `domino-session 1`, the commands, and `end`. Format 2 has a second line, `entries N clock T`, with
the number of commands and the clock after them, and is what the program saves. The program loads both. A command may
stand as it was typed; blank lines and comments may stand between, whatever bytes they have, and after `end` stands
nothing. Lines end with a line feed, and one carriage return before it is dropped; the last one may lack its line feed.

What is read here is the frame alone. Whether the program takes each command it alone can say, by loading the text.
"""

import os
import re
from collections.abc import Iterable, Iterator
from dataclasses import dataclass
from pathlib import Path
from typing import BinaryIO

from fleet.errors import FleetError
from fleet.words import JOURNAL_ENTRIES, KEPT_COMMANDS, SESSION_LINE_LIMIT, TICK_LIMIT

FIRST_LINES: dict[int, bytes] = {1: b"domino-session 1", 2: b"domino-session 2"}
"""The first line of each format."""
END = b"end"
"""The last line."""

_COUNTS = re.compile(rb"entries (0|[1-9][0-9]*) clock (0|[1-9][0-9]*)")
_SILENT = re.compile(rb"[ \t]*(?:#.*)?", re.DOTALL)
_WORD = re.compile(rb"[ \t]*([A-Za-z_][A-Za-z0-9_]*)")
_TICK = re.compile(rb"[ \t]*tick[ \t]*([0-9]+)[ \t]*")
_KEPT = frozenset(word.encode() for word in KEPT_COMMANDS)


class BadSessionText(FleetError):
    """The text has not the form of a saved session; `line` is the number of the first faulty line, from 1.

    It is the number that the program tells in `bad session n`.
    """

    exit_status = 2

    def __init__(self, line: int, cause: str) -> None:
        super().__init__(f"line {line} of the session {cause}")
        self.line = line
        self.cause = cause


@dataclass(frozen=True, slots=True)
class Entry:
    """A command of a session as it stands there, and the number of its line, from 1."""

    line: int
    text: bytes


def first_word(line: bytes) -> bytes:
    """The name or word that the line begins with; empty where it begins with something else."""
    match = _WORD.match(line)
    return match.group(1) if match else b""


def is_kept(line: bytes) -> bool:
    """Whether the line is one that the journal keeps where it is accepted."""
    return first_word(line) in _KEPT


def ticks_of(line: bytes) -> int:
    """The ticks by which the line moves the clock, where it is accepted: 0 of any but a `tick`."""
    match = _TICK.fullmatch(line)
    return int(match.group(1)) if match else 0


def entries(text: BinaryIO) -> Iterator[Entry]:
    """The commands of a saved session, in order. Raises BadSessionText at the first faulty line."""
    lines = enumerate((line.removesuffix(b"\n").removesuffix(b"\r") for line in text), 1)
    wanted = _read_head(lines)
    last, count, clock, ended = 1 if wanted is None else 2, 0, 0, False
    for last, line in lines:
        if ended:
            raise BadSessionText(last, "stands after `end`")
        if _SILENT.fullmatch(line):
            continue
        if line == END:
            if wanted is not None and wanted != (count, clock):
                raise BadSessionText(last, f"ends it after {count} commands at tick {clock}, unlike its second line")
            ended = True
            continue
        count += 1
        _check_command(last, line, count, wanted)
        clock += ticks_of(line)
        yield Entry(last, line)
    if not ended:
        raise BadSessionText(last + 1, "isn't there: it should be `end`")


def _read_head(lines: Iterator[tuple[int, bytes]]) -> tuple[int, int] | None:
    """Reads what stands before the commands, and gives the counts of format 2."""
    _, first = next(lines, (1, b""))
    if first == FIRST_LINES[1]:
        return None
    if first != FIRST_LINES[2]:
        raise BadSessionText(1, "isn't that of a saved session")
    _, second = next(lines, (2, None))
    if second is None:
        raise BadSessionText(2, "isn't there: it should be `end`")
    counts = _COUNTS.fullmatch(second)
    if counts is None:
        raise BadSessionText(2, "isn't of the form `entries N clock T`")
    count, clock = int(counts.group(1)), int(counts.group(2))
    if count > JOURNAL_ENTRIES or clock > TICK_LIMIT:
        raise BadSessionText(2, "has a number that is too large")
    return count, clock


def _check_command(number: int, line: bytes, count: int, wanted: tuple[int, int] | None) -> None:
    if not is_kept(line):
        raise BadSessionText(number, "is no command that a session keeps")
    if len(line) > SESSION_LINE_LIMIT:
        raise BadSessionText(number, f"has more than {SESSION_LINE_LIMIT:,} bytes")
    if wanted is not None and count > wanted[0]:
        raise BadSessionText(number, "is a command more than its second line tells")


def saved(commands: Iterable[str], comments: Iterable[str] = ()) -> Iterator[bytes]:
    """The lines of the text of format 2 that has these commands, and comments after them, with their line feeds."""
    lines = [command.encode("ascii") for command in commands]
    yield FIRST_LINES[2] + b"\n"
    yield b"entries %d clock %d\n" % (len(lines), sum(map(ticks_of, lines)))
    for line in lines:
        yield line + b"\n"
    for comment in comments:
        yield comment.encode("ascii") + b"\n"
    yield END + b"\n"


def write_whole(path: Path, lines: Iterable[bytes]) -> None:
    """Writes a file so that after a crash it is there whole or not at all, in place of what was there.

    Raises OSError; what was there stays then.
    """
    beside = path.with_name(f".{path.name}.new")
    try:
        with beside.open("wb") as file:
            file.writelines(lines)
            file.flush()
            os.fsync(file.fileno())
        beside.replace(path)
    except BaseException:
        beside.unlink(missing_ok=True)
        raise
    sync_folder(path.parent)


def sync_folder(folder: Path) -> None:
    """Waits until the names of the folder's files are on the disk. Raises OSError."""
    descriptor = os.open(folder, os.O_RDONLY | os.O_DIRECTORY)
    try:
        os.fsync(descriptor)
    finally:
        os.close(descriptor)
