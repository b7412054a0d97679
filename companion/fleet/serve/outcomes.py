"""The numbers that clients gave to their lines, and what came of each."""

import zlib
from collections import OrderedDict
from collections.abc import Iterator
from dataclasses import dataclass, field
from enum import Enum
from typing import NamedTuple

MOST_NUMBERS = 256
"""How many numbers are remembered of each client."""
MOST_CLIENTS = 1_000
"""How many clients are remembered: those that gave a number last."""


class Number(NamedTuple):
    """A number that a client gave to a line, and a check of the line, by which another line of that number is known."""

    client: str
    number: int
    check: int

    @classmethod
    def of(cls, client: str, number: int, line: bytes) -> "Number":
        return cls(client, number, zlib.crc32(line))


class Outcome(NamedTuple):
    """What came of a line: `refusal` is the number and the name of its refusal, empty where it was accepted."""

    check: int
    refusal: str


class Unknown(Enum):
    """Why no outcome is told of a number."""

    NEW = "no line of that number was carried out"
    FORGOTTEN = "the number is too old for its outcome to be remembered"
    TAKEN = "another line had that number"


@dataclass(slots=True)
class _Numbers:
    """The outcomes of one client; of numbers up to `floor` those that aren't here are forgotten."""

    outcomes: dict[int, Outcome] = field(default_factory=dict)
    floor: int = 0


class Outcomes:
    """The outcomes that are remembered, by client and number."""

    def __init__(self) -> None:
        self._clients: OrderedDict[str, _Numbers] = OrderedDict()

    def look(self, number: Number) -> Outcome | Unknown:
        """The outcome of a number, or why there is none."""
        numbers = self._clients.get(number.client, _Numbers())
        outcome = numbers.outcomes.get(number.number)
        if outcome is None:
            return Unknown.FORGOTTEN if number.number <= numbers.floor else Unknown.NEW
        return outcome if outcome.check == number.check else Unknown.TAKEN

    def last(self, client: str) -> int:
        """The largest number of a client that is remembered; 0 where there is none."""
        numbers = self._clients.get(client, _Numbers())
        return max(numbers.outcomes, default=numbers.floor)

    def record(self, number: Number, refusal: str) -> None:
        """Remembers an outcome, and forgets the oldest where there are too many."""
        numbers = self._numbers(number.client)
        numbers.outcomes[number.number] = Outcome(number.check, refusal)
        if len(numbers.outcomes) > MOST_NUMBERS:
            oldest = next(iter(numbers.outcomes))
            del numbers.outcomes[oldest]
            numbers.floor = max(numbers.floor, oldest)

    def forget_up_to(self, client: str, floor: int) -> None:
        """Takes over that the numbers of a client up to one are forgotten."""
        self._numbers(client).floor = floor

    def floors(self) -> Iterator[tuple[str, int]]:
        """The clients, oldest first, each with the number up to which its numbers are forgotten."""
        for client, numbers in self._clients.items():
            yield client, numbers.floor

    def of(self, client: str) -> Iterator[tuple[Number, str]]:
        """The numbers of a client that are remembered, oldest first, each with its refusal."""
        for number, (check, refusal) in self._clients[client].outcomes.items():
            yield Number(client, number, check), refusal

    def _numbers(self, client: str) -> _Numbers:
        numbers = self._clients.setdefault(client, _Numbers())
        self._clients.move_to_end(client)
        if len(self._clients) > MOST_CLIENTS:
            self._clients.popitem(last=False)
        return numbers
