"""What replies don't say of the program's state: the clock, and the windows of the registered queries."""

import re
from dataclasses import dataclass
from typing import NamedTuple

from fleet.replies import Change, ListedClock, ListedQuery, Reply
from fleet.serve.process import Answer
from fleet.serve.wire import told
from fleet.session_text import first_word, ticks_of

_CHANGING = frozenset((b"insert", b"update", b"remove", b"import", b"tick"))
_REGISTERED = re.compile(rb"[ \t]*(watch|keep)[ \t]+([A-Za-z_][A-Za-z0-9_]*)[ \t]+([0-9]+)")
_DROPPED = re.compile(rb"[ \t]*drop[ \t]+([A-Za-z_][A-Za-z0-9_]*)")


class Push(NamedTuple):
    """A line for those who follow a query; with an empty name for those who are told of each tick."""

    query: str
    line: bytes


@dataclass(frozen=True, slots=True)
class Registered:
    """A registered query: `watch` or `keep`, its first tick and its last."""

    kind: str
    entry: int
    expiry: int


class Known:
    """The clock and the registered queries, from the reply to `list` on."""

    def __init__(self, listed: Reply) -> None:
        self.clock = 0
        self.queries: dict[str, Registered] = {}
        for record in listed.records:
            if isinstance(record, ListedClock):
                self.clock = record.tick
            elif isinstance(record, ListedQuery):
                self.queries[record.name] = Registered(record.what, record.entry, record.expiry)

    def take(self, line: bytes, answer: Answer) -> list[Push]:
        """Takes an accepted line that changes the state, and gives what those who follow are told of it."""
        word = first_word(line)
        pushes = []
        if word == b"tick":
            pushes = self._tick(ticks_of(line))
        elif word in (b"watch", b"keep"):
            pushes = self._register(line)
        elif word == b"drop":
            pushes = self._drop(line)
        if word in _CHANGING and answer.block != b"ok\n":
            pushes[1:1] = self._changes(answer)
        return pushes

    def _changes(self, answer: Answer) -> list[Push]:
        reply = answer.read()
        return [
            Push(record.query, told(self.clock, line))
            for record, line in zip(reply.records, reply.text)
            if isinstance(record, Change)
        ]

    def _tick(self, ticks: int) -> list[Push]:
        before, self.clock = self.clock, self.clock + ticks
        return [Push("", told(self.clock, "tick"))] + [
            Push(name, told(self.clock, "expired", name))
            for name, query in self.queries.items()
            if before <= query.expiry < self.clock
        ]

    def _register(self, line: bytes) -> list[Push]:
        match = _REGISTERED.match(line)
        assert match is not None
        kind, name, span = match.group(1).decode(), match.group(2).decode(), int(match.group(3))
        query = self.queries[name] = Registered(kind, self.clock, self.clock + span)
        return [Push(name, told(self.clock, kind, name, f"{query.entry}..{query.expiry}"))]

    def _drop(self, line: bytes) -> list[Push]:
        match = _DROPPED.match(line)
        assert match is not None
        name = match.group(1).decode()
        self.queries.pop(name, None)
        return [Push(name, told(self.clock, "drop", name))]
