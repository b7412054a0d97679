"""Reads answers from the text of replies: as the program writes them, with their lines as `fleet run --echo` writes
them, or in lines of JSON."""

import json
from collections.abc import Iterable, Iterator
from dataclasses import dataclass, field
from typing import Any

from fleet.errors import FleetError
from fleet.replies import ListedClock, Reply, ReplyReader, Row, Span, printable
from fleet.session_text import FIRST_LINES, ticks_of
from fleet.tokens import is_silent, line_text
from fleet.words import TICK_LIMIT

INDENT = "    "
"""What stands before the lines of a reply where the lines that are answered stand there too."""
_ANSWERED_NOW = ("ask", "nearest", "range", "must", "may", "watch", "keep")
"""The commands whose answer begins at the present tick, where it doesn't begin later."""


class NoAnswer(FleetError):
    """The text has no answer, or isn't that of replies."""


@dataclass(slots=True)
class Answer:
    """The rows of a reply; `title` is the line that it answers or the number of the reply, `clock` the present tick,
    None where the text doesn't tell it."""

    title: str
    rows: list[Row] = field(default_factory=list)
    clock: int | None = None


def is_session(text: bytes) -> bool:
    """Whether the text is that of a saved session."""
    return text.partition(b"\n")[0].rstrip(b"\r") in FIRST_LINES.values()


def answers_in(text: bytes, name: str) -> list[Answer]:
    """The answers of all replies that have rows; where none has, that of the last reply that isn't refused.

    Raises NoAnswer, with the number of the line, where the text named `name` isn't one of replies.
    """
    lines = [printable(line_text(line.removesuffix(b"\r"))) for line in text.split(b"\n")]
    if text.lstrip().startswith(b"{"):
        found = list(_in_json(lines, name))
    elif any(line.startswith(INDENT) for line in lines):
        found = list(_in_transcript(lines, name))
    else:
        found = list(_in_replies(lines, name))
    if not found:
        raise NoAnswer(f"{name} has no reply")
    return [answer for answer in found if answer.rows] or found[-1:]


def clock_of(rows: Iterable[Row], begins_now: bool = False) -> int | None:
    """The present tick of an answer where its rows leave only one.

    `begins_now` says that it has no tick before the present one.
    """
    least, most = 0, None
    for row in rows:
        if row.when == "past":
            least = max(least, row.spans[-1][1] + 1)
        elif row.when == "now" and begins_now:
            return row.spans[0][0]
        elif row.when == "now" and len(row.spans) == 1:
            least, most = max(least, row.spans[0][0]), _least(most, row.spans[0][1])
    return least if least == most else None


def _least(one: int | None, other: int) -> int:
    return other if one is None else min(one, other)


def _in_replies(lines: list[str], name: str) -> Iterator[Answer]:
    count = 0
    for reply in _read(enumerate(lines, 1), name):
        count += 1
        if reply.ok:
            yield _answer(reply, f"reply {count}", _listed(reply))


def _in_transcript(lines: list[str], name: str) -> Iterator[Answer]:
    """Those of lines with their replies under them. From where the clock is told on, the lines say how it goes on."""
    command, clock = "", None
    reader = ReplyReader()
    for number, line in enumerate(lines, 1):
        if not line.startswith(INDENT):
            command = command if is_silent(line) else line.strip()
            continue
        reply = _fed(reader, line[len(INDENT) :], number, name)
        if reply is None or not reply.ok:
            continue
        if clock is not None:
            clock += ticks_of(command.encode())
        begins_now = command.startswith(_ANSWERED_NOW)
        told = _listed(reply)
        if told is None:
            told = clock_of(_rows(reply), begins_now)
        clock = clock if told is None else told
        yield _answer(reply, command, clock)


def _in_json(lines: list[str], name: str) -> Iterator[Answer]:
    rows: list[Row] = []
    for number, line in enumerate(lines, 1):
        if not line.strip():
            continue
        try:
            told = json.loads(line)
            kind = told["kind"]
            if kind == "row":
                rows.append(_row(told))
            elif kind == "ok":
                yield Answer(f"line {told['line']}", rows, _tick(told["tick"]))
        except (ValueError, KeyError, TypeError, RecursionError):
            raise NoAnswer(f"{name}:{number}: this is no line of JSON that tells of a reply") from None
        if kind in ("ok", "refused", "bad_name"):
            rows = []


def _row(told: dict[str, Any]) -> Row:
    objects = tuple(map(str, told["objects"]))
    spans = tuple((int(first), int(last)) for first, last in told["spans"])
    if told["when"] not in ("now", "later", "past") or not objects or not _are_right(spans):
        raise ValueError
    return Row(told["when"], objects, spans, tuple(map(str, told["columns"])), _tick(told["tick"]))


def _tick(told: object) -> int | None:
    """A tick as JSON has it. Raises ValueError."""
    if told is not None and not (isinstance(told, int) and 0 <= told <= TICK_LIMIT):
        raise ValueError
    return told


def _are_right(spans: tuple[Span, ...]) -> bool:
    """Whether spans are those of a row: in order, and of ticks that there are."""
    ends = [end for span in spans for end in span]
    return bool(ends) and ends == sorted(ends) and 0 <= ends[0] and ends[-1] <= TICK_LIMIT


def _read(lines: Iterable[tuple[int, str]], name: str) -> Iterator[Reply]:
    reader = ReplyReader()
    for number, line in lines:
        if line.strip() and (reply := _fed(reader, line, number, name)):
            yield reply


def _fed(reader: ReplyReader, line: str, number: int, name: str) -> Reply | None:
    try:
        reply = reader.feed(line)
        if reply is not None and not all(_are_right(row.spans) for row in _rows(reply)):
            raise ValueError
    except ValueError:
        raise NoAnswer(f"{name}:{number}: this is no line of a reply, or ends a faulty one: {line[:100]}") from None
    return reply


def _answer(reply: Reply, title: str, clock: int | None) -> Answer:
    rows = _rows(reply)
    return Answer(title, rows, clock_of(rows) if clock is None else clock)


def _rows(reply: Reply) -> list[Row]:
    return [record for record in reply.records if isinstance(record, Row)]


def _listed(reply: Reply) -> int | None:
    ticks = (record.tick for record in reply.records if isinstance(record, ListedClock) and record.tick <= TICK_LIMIT)
    return next(ticks, None)
