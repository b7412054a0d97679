"""The replies of the program as records, and each record as an object of JSON."""

import re
from collections.abc import Callable, Iterator, Mapping
from dataclasses import dataclass, field
from typing import Any, ClassVar, Literal, TypeAlias, cast

from fleet.errors import FleetError

Span: TypeAlias = tuple[int, int]
"""A first and a last tick, both included."""
When = Literal["now", "later", "past"]
What = Literal["gain", "lose", "enter", "leave"]

_NAME = r"[A-Za-z_][A-Za-z0-9_]*"
_SPAN = r"[0-9]+\.\.[0-9]+"
_ROW = re.compile(rf"(now|later|past) ({_NAME}(?: {_NAME})*) : ({_SPAN}(?: {_SPAN})*)")
_GAIN = re.compile(rf"(gain|lose) ({_NAME}) ({_NAME}(?: {_NAME})*) : ({_SPAN}(?: {_SPAN})*)")
_ENTER = re.compile(rf"(enter|leave) ({_NAME}) ({_NAME}(?: {_NAME})*)")
_CLOCK = re.compile(r"clock ([0-9]+)")
_CLASS = re.compile(rf"class ({_NAME}) ([0-9]+)/([0-9]+)")
_REGION = re.compile(rf"region ({_NAME}) ([0-9]+)")
_QUERY = re.compile(rf"(watch|keep) ({_NAME}) ([0-9]+)\.\.([0-9]+)")
_REFUSED = re.compile(rf"refused ([0-9]+) ({_NAME})")


class BadReply(FleetError, ValueError):
    """A line that is none of a reply; `line` has it."""

    def __init__(self, line: str) -> None:
        super().__init__(f"this is no line of a reply: {line[:200]!r}")
        self.line = line


@dataclass(frozen=True, slots=True)
class Row:
    """A row of an answer: the target objects, in the order of RETRIEVE, and the ticks at which they satisfy the query.

    `columns` has the variables of RETRIEVE, and is empty where the query isn't known; `tick` is the clock.
    """

    when: When
    objects: tuple[str, ...]
    spans: tuple[Span, ...]
    columns: tuple[str, ...] = ()
    tick: int | None = None

    def json(self) -> dict[str, Any]:
        return {
            "kind": "row",
            "when": self.when,
            "columns": list(self.columns),
            "objects": list(self.objects),
            "spans": [list(span) for span in self.spans],
            "tick": self.tick,
        }


@dataclass(frozen=True, slots=True)
class Change:
    """What a write or a tick changes of a registered query. `spans` is empty where the targets enter or leave.

    `tick` is the clock after the command; `columns` has the variables of RETRIEVE where the query is known.
    """

    what: What
    query: str
    objects: tuple[str, ...]
    spans: tuple[Span, ...] = ()
    columns: tuple[str, ...] = ()
    tick: int | None = None

    def json(self) -> dict[str, Any]:
        told: dict[str, Any] = {"kind": self.what, "query": self.query, "objects": list(self.objects)}
        if self.spans:
            told["spans"] = [list(span) for span in self.spans]
        return told | {"tick": self.tick}


@dataclass(frozen=True, slots=True)
class Listed:
    """A line of `list`: what it tells of, and its name."""

    what: str
    name: str

    NUMBERS: ClassVar[tuple[str, ...]] = ()

    def json(self) -> dict[str, Any]:
        told = {"kind": self.what} | ({"name": self.name} if self.name else {})
        return told | {number: getattr(self, number) for number in self.NUMBERS}


@dataclass(frozen=True, slots=True)
class ListedClock(Listed):
    """The clock, which has no name."""

    tick: int

    NUMBERS: ClassVar[tuple[str, ...]] = ("tick",)


@dataclass(frozen=True, slots=True)
class ListedClass(Listed):
    """A class, the number of names that it has had, and its capacity."""

    names: int
    capacity: int

    NUMBERS: ClassVar[tuple[str, ...]] = ("names", "capacity")


@dataclass(frozen=True, slots=True)
class ListedRegion(Listed):
    """A region and the number of its points."""

    points: int

    NUMBERS: ClassVar[tuple[str, ...]] = ("points",)


@dataclass(frozen=True, slots=True)
class ListedQuery(Listed):
    """A registered query, with the first and the last tick of its window; `what` is `watch` or `keep`."""

    entry: int
    expiry: int

    NUMBERS: ClassVar[tuple[str, ...]] = ("entry", "expiry")


Record: TypeAlias = Row | Change | Listed


@dataclass(frozen=True, slots=True)
class Refusal:
    """Why a line wasn't carried out."""

    number: int
    name: str

    def __str__(self) -> str:
        return f"{self.number} {self.name}"


@dataclass(frozen=True, slots=True)
class Reply:
    """The reply to one line: its records, or its refusal.

    `text` has the lines of the reply as they were written, the last one, `ok` or `refused ..`, included. `line` is the
    line that it answers, and `tick` the clock after it, where the reader was told them.
    """

    records: list[Record]
    refusal: Refusal | None
    text: list[str]
    line: str = ""
    tick: int | None = None

    @property
    def ok(self) -> bool:
        """Whether the line was carried out."""
        return self.refusal is None

    def json(self, number: int | None = None) -> Iterator[dict[str, Any]]:
        """An object for each line of the reply; the last one has the number of the line that is answered."""
        for record in self.records:
            yield record.json()
        if self.refusal is None:
            yield {"kind": "ok", "line": number, "tick": self.tick}
        else:
            yield {
                "kind": "refused",
                "number": self.refusal.number,
                "name": self.refusal.name,
                "line": number,
                "text": printable(self.line),
                "tick": self.tick,
            }


@dataclass(slots=True)
class ReplyReader:
    """Reads replies line by line.

    `begin` may say what the lines of the next reply don't. `queries` has the columns of the registered queries.
    """

    queries: Mapping[str, tuple[str, ...]] = field(default_factory=dict)
    _records: list[Record] = field(default_factory=list)
    _text: list[str] = field(default_factory=list)
    _line: str = ""
    _before: int | None = None
    _tick: int | None = None
    _columns: tuple[str, ...] = ()

    @property
    def is_between(self) -> bool:
        """Whether no line of a reply is waiting for its end."""
        return not self._text

    def begin(self, line: str, before: int | None, after: int | None, columns: tuple[str, ...] = ()) -> None:
        """Says of the reply that comes next: the line that it answers, the clock before it, the clock after it where it
        is accepted, and the columns of its rows."""
        self._line, self._before, self._tick, self._columns = line, before, after, columns

    def feed(self, line: str) -> Reply | None:
        """Takes a line, without its line feed, and gives the reply that ends with it.

        Raises BadReply where the line is none of a reply.
        """
        if line == "ok":
            return self._ended(line, None)
        first, _, _ = line.partition(" ")
        if first == "refused":
            number, name = _parts(_REFUSED, line)
            return self._ended(line, Refusal(int(number), name))
        read = _READERS.get(first)
        if read is None:
            raise BadReply(line)
        self._records.append(read(self, line))
        self._text.append(line)
        return None

    def _ended(self, line: str, refusal: Refusal | None) -> Reply:
        tick = self._before if refusal else self._tick
        reply = Reply(self._records, refusal, [*self._text, line], self._line, tick)
        self._records, self._text = [], []
        self.begin("", None, None)
        return reply

    def _row(self, line: str) -> Row:
        when, objects, spans = _parts(_ROW, line)
        return Row(cast(When, when), tuple(objects.split()), _spans(spans), self._columns, self._tick)

    def _gain(self, line: str) -> Change:
        what, query, objects, spans = _parts(_GAIN, line)
        return Change(cast(What, what), query, tuple(objects.split()), _spans(spans), self.queries.get(query, ()), self._tick)

    def _enter(self, line: str) -> Change:
        what, query, objects = _parts(_ENTER, line)
        return Change(cast(What, what), query, tuple(objects.split()), (), self.queries.get(query, ()), self._tick)

    def _clock(self, line: str) -> ListedClock:
        (tick,) = _parts(_CLOCK, line)
        return ListedClock("clock", "", int(tick))

    def _class(self, line: str) -> ListedClass:
        name, names, capacity = _parts(_CLASS, line)
        return ListedClass("class", name, int(names), int(capacity))

    def _region(self, line: str) -> ListedRegion:
        name, points = _parts(_REGION, line)
        return ListedRegion("region", name, int(points))

    def _query(self, line: str) -> ListedQuery:
        what, name, entry, expiry = _parts(_QUERY, line)
        return ListedQuery(what, name, int(entry), int(expiry))


_READERS: dict[str, Callable[[ReplyReader, str], Record]] = {
    "now": ReplyReader._row,
    "later": ReplyReader._row,
    "past": ReplyReader._row,
    "gain": ReplyReader._gain,
    "lose": ReplyReader._gain,
    "enter": ReplyReader._enter,
    "leave": ReplyReader._enter,
    "clock": ReplyReader._clock,
    "class": ReplyReader._class,
    "region": ReplyReader._region,
    "watch": ReplyReader._query,
    "keep": ReplyReader._query,
}


def printable(line: str) -> str:
    """The line with each byte that is no text written as `\\xNN`."""
    return line.encode("utf-8", "surrogateescape").decode("utf-8", "backslashreplace")


def _parts(form: re.Pattern[str], line: str) -> tuple[str, ...]:
    match = form.fullmatch(line)
    if match is None:
        raise BadReply(line)
    return match.groups()


def _spans(text: str) -> tuple[Span, ...]:
    return tuple((int(first), int(last)) for first, last in (span.split("..") for span in text.split()))
