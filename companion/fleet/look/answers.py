"""The answers of a session's registered queries, tick by tick, as the program tells them.

A program of its own runs the session's commands again. What it answers to a `watch` or a `keep`, and what it then tells
to be gained and lost, is all that is known here: no query is judged. Ticks of a watch that have passed keep what was told
of them last, though the program itself forgets them.
"""

from bisect import bisect_right
from collections.abc import Callable, Iterable, Iterator, Mapping, Sequence
from dataclasses import dataclass, field
from pathlib import Path
from tempfile import TemporaryDirectory

from fleet.client import Client
from fleet.errors import FleetError
from fleet.look.history import NotThere
from fleet.replies import Change, Reply, Row, Span
from fleet.session_text import saved, ticks_of
from fleet.tokens import tokens
from fleet.words import LINE_LIMIT

Spans = tuple[Span, ...]
Targets = tuple[str, ...]


class NotAnswered(FleetError):
    """The program refuses what it was asked."""


@dataclass(slots=True)
class Query:
    """A registered query: `text` begins with RETRIEVE; `rows` has for each choice of target objects the ticks at which
    their spans changed, with the new spans. `dropped` is the tick at which it ended, None where it still stands, and
    `number` tells it from others of its name."""

    number: int
    kind: str
    name: str
    entry: int
    expiry: int
    text: str
    rows: dict[Targets, list[tuple[int, Spans]]] = field(default_factory=dict)
    dropped: int | None = None

    def spans_at(self, targets: Targets, tick: int) -> Spans:
        """The spans of a row as they were known at a tick."""
        versions = self.rows.get(targets, [])
        at = bisect_right(versions, tick, key=_tick_of)
        return versions[at - 1][1] if at else ()

    def is_there(self, tick: int) -> bool:
        """Whether it is registered at a tick."""
        return self.entry <= tick and (self.dropped is None or tick < self.dropped)

    def take(self, tick: int, targets: Targets, spans: Spans) -> None:
        """Takes the spans that a row has from a tick on; of several at one tick the last stay."""
        versions = self.rows.setdefault(targets, [])
        if versions and versions[-1][0] == tick:
            versions.pop()
        versions.append((tick, spans))

    def forget_before(self, tick: int) -> None:
        """Forgets what was known before a tick alone."""
        for targets, versions in list(self.rows.items()):
            kept = versions[max(bisect_right(versions, tick, key=_tick_of) - 1, 0) :]
            if len(kept) == 1 and (not kept[0][1] or kept[0][1][-1][1] < tick):
                del self.rows[targets]
            else:
                self.rows[targets] = kept

    def sort(self, order: Mapping[str, int]) -> None:
        """Puts the rows in the order of first insertion of their objects, as the program has them."""
        self.rows = dict(sorted(self.rows.items(), key=lambda row: [order[name] for name in row[0]]))


class Replay:
    """A program of its own that runs the commands of a session again."""

    def __init__(self, program: str | None = None) -> None:
        self._program = program
        self._folder = TemporaryDirectory(prefix="fleet-look-")
        self._client = Client(program, directory=self._folder.name)

    def __enter__(self) -> "Replay":
        return self

    def __exit__(self, *_: object) -> None:
        self.close()

    def close(self) -> None:
        """Ends the program."""
        self._client.kill()
        self._folder.cleanup()

    def interrupt(self) -> None:
        """Ends the program, from any thread: what is being run raises Ended."""
        self._client.interrupt()

    def run(self, commands: Iterable[bytes]) -> Iterator[tuple[bytes, Reply]]:
        """Runs commands, and gives each with its reply. Raises NotAnswered where the program refuses one of them."""
        sent: list[bytes] = []
        for command in commands:
            if len(command) <= LINE_LIMIT:
                sent.append(command)
            else:
                yield from self._answered(sent)
                yield command, self._load_with(command)
                sent = []
        yield from self._answered(sent)

    def ask(self, line: str) -> Reply:
        """The reply to another line. Raises NotAnswered where it is refused."""
        reply = self._client.send(line)
        if reply is None or reply.refusal is not None:
            raise NotAnswered(f"the program answers `{line}` by {'nothing' if reply is None else reply.text[-1]}")
        return reply

    def _answered(self, commands: list[bytes]) -> Iterator[tuple[bytes, Reply]]:
        for command, reply in zip(commands, self._client.send_many(commands), strict=True):
            if reply.refusal is not None:
                text = command[:200].decode("ascii", "replace")
                raise NotAnswered(f"the program refuses a command of the session by {reply.refusal}: {text}")
            yield command, reply

    def _load_with(self, command: bytes) -> Reply:
        """Goes on after a command that is longer than a line may be: only a session may have it, so that one is loaded."""
        folder = Path(self._folder.name)
        self.ask('save "before"')
        with (folder / "before").open("rb") as text:
            lines = [line.rstrip(b"\n").decode("ascii") for line in text][2:-1]
        (folder / "after").write_bytes(b"".join(saved([*lines, command.decode("ascii")])))
        self._client.close()
        self._client = Client(self._program, "after", folder)
        return self.ask(f"show {command.split()[1].decode('ascii')}")


def _tick_of(version: tuple[int, Spans]) -> int:
    return version[0]


def queries_of(commands: Sequence[bytes], to: int, program: str | None = None) -> list[Query]:
    """The registered queries of a session, with their rows at all ticks up to one, in the order of registration."""
    recorder = Recorder()
    with Replay(program) as replay:
        for command, reply in replay.run(_up_to(commands, to)):
            recorder.take(command.decode("ascii"), reply)
    for query in recorder.queries:
        query.sort(recorder.order)
    return recorder.queries


def query_at(commands: Sequence[bytes], tick: int, name: str, program: str | None = None) -> list[Row]:
    """The rows of a registered query as the program shows them at a tick. Raises NotThere."""
    with Replay(program) as replay:
        names = set()
        for command, _ in replay.run(_up_to(commands, tick)):
            match command.split(maxsplit=2):
                case [b"watch" | b"keep", query, _]:
                    names.add(query.decode("ascii"))
                case [b"drop", query]:
                    names.discard(query.decode("ascii"))
        if name not in names:
            known = f"; there are {' '.join(sorted(names))}" if names else ""
            raise NotThere(f"no query of the name {name} is registered at tick {tick}{known}")
        return _rows(replay.ask(f"show {name}"))


def ask_at(commands: Sequence[bytes], tick: int, line: str, program: str | None = None) -> list[Row]:
    """The rows of an answer at a tick, of a line such as `ask 60 RETRIEVE ..`. Raises NotAnswered."""
    with Replay(program) as replay:
        for _ in replay.run(_up_to(commands, tick)):
            pass
        return _rows(replay.ask(line))


class Recorder:
    """Takes the commands and their replies, and keeps what they say of the registered queries.

    `order` has the objects' places in the order of first insertion.
    """

    def __init__(self) -> None:
        self.queries: list[Query] = []
        self.order: dict[str, int] = {}
        self._there: dict[str, Query] = {}
        self._clock = 0
        self._count = 0

    def take(self, command: str, reply: Reply) -> list[tuple[Query, Targets | None]]:
        """Takes the next command, which was accepted, and its reply. Gives the rows that have changed, and with None
        the queries that were registered or dropped."""
        self._clock += ticks_of(command.encode("ascii"))
        changed: list[tuple[Query, Targets | None]] = []
        match command.split(maxsplit=3):
            case ["watch" | "keep", *_]:
                changed.append((self._register(command, reply), None))
            case ["drop", name]:
                dropped = self._there.pop(name)
                dropped.dropped = self._clock
                changed.append((dropped, None))
            case ["insert", _, name, *_]:
                self.order.setdefault(name, len(self.order))
        for record in reply.records:
            if isinstance(record, Change) and record.spans:
                changed.append((self._change(record), record.objects))
        return changed

    def forget_before(self, tick: int) -> None:
        """Forgets what was known before a tick alone."""
        self.queries = [query for query in self.queries if query.dropped is None or query.dropped > tick]
        for query in self.queries:
            query.forget_before(tick)

    def _register(self, command: str, reply: Reply) -> Query:
        kind, name, span, retrieve = tokens(command)[:4]
        expiry = self._clock + int(span.text)
        query = Query(self._count, kind.text, name.text, self._clock, expiry, command[retrieve.at :])
        self._count += 1
        self.queries.append(query)
        self._there[query.name] = query
        for row in _rows(reply):
            query.take(self._clock, row.objects, row.spans)
        return query

    def _change(self, change: Change) -> Query:
        query = self._there[change.query]
        before = query.spans_at(change.objects, self._clock)
        combined = union if change.what == "gain" else difference
        query.take(self._clock, change.objects, combined(before, change.spans))
        return query


def _rows(reply: Reply) -> list[Row]:
    return [record for record in reply.records if isinstance(record, Row)]


def _up_to(commands: Sequence[bytes], to: int) -> Iterator[bytes]:
    """The commands of the ticks up to `to`, and a tick more that leads there."""
    clock = 0
    for command in commands:
        ticks = ticks_of(command)
        if clock + ticks > to:
            break
        clock += ticks
        yield command
    if clock < to:
        yield b"tick %d" % (to - clock)


def _combined(one: Spans, other: Spans, has: Callable[[bool, bool], bool]) -> Spans:
    """The runs of the ticks that `has` takes, by whether one and the other have them."""
    ends = sorted({end for first, last in (*one, *other) for end in (first, last + 1)})
    runs: list[Span] = []
    at_one = at_other = 0
    for first, after in zip(ends, ends[1:]):
        while at_one < len(one) and one[at_one][1] < first:
            at_one += 1
        while at_other < len(other) and other[at_other][1] < first:
            at_other += 1
        if has(_covers(one, at_one, first), _covers(other, at_other, first)):
            joins = bool(runs) and runs[-1][1] == first - 1
            runs.append((runs.pop()[0] if joins else first, after - 1))
    return tuple(runs)


def _covers(spans: Spans, at: int, tick: int) -> bool:
    return at < len(spans) and spans[at][0] <= tick


def union(one: Spans, other: Spans) -> Spans:
    """The ticks that one or the other has."""
    return _combined(one, other, lambda first, second: first or second)


def common(one: Spans, other: Spans) -> Spans:
    """The ticks that both have."""
    return _combined(one, other, lambda first, second: first and second)


def difference(one: Spans, other: Spans) -> Spans:
    """The ticks that the first alone has."""
    return _combined(one, other, lambda first, second: first and not second)
