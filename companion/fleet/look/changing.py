"""A session that goes on while it is looked at, and what a page is told of its changes."""

from collections.abc import Sequence
from typing import Any

from fleet.look.answers import Query, Recorder, Replay, Targets
from fleet.look.history import History
from fleet.look.play import data_of, motion_of, query_data, region_data
from fleet.words import TICK_LIMIT

PRUNE = 2
"""What is older than is kept is forgotten when it is so many times as long."""


class Changing:
    """The state after the commands so far: motions and rows of the last `keep` ticks.

    `keep` is how many past ticks a page has, and `after` how many later ones; `back` and `ahead` are those of trails and
    ways.
    """

    def __init__(self, program: str | None, keep: int, after: int, back: int, ahead: int) -> None:
        self._keep, self._after, self._back, self._ahead = keep, after, back, ahead
        self._history = History()
        self._recorder = Recorder()
        self._replay = Replay(program)
        self._forgot_at = 0

    def close(self) -> None:
        """Ends the program."""
        self._replay.close()

    def interrupt(self) -> None:
        """Ends the program, from any thread: what is being taken raises Ended."""
        self._replay.interrupt()

    def whole(self) -> dict[str, Any]:
        """The data of a page that begins now, as play.py tells it."""
        clock = self._history.clock
        for query in self._recorder.queries:
            query.sort(self._recorder.order)
        data = data_of(self._history, self._recorder.queries, *self._window(clock), self._back, self._ahead)
        # what will be there isn't known, so that the map has to look for itself
        return data | {"bounds": None}

    def take(self, commands: Sequence[bytes]) -> dict[str, Any]:
        """Takes commands, and gives what they change: as Recording.take of recording.js has it.

        Raises NotLoaded, NotAnswered and Ended.
        """
        told: dict[str, Any] = {"regions": [], "classes": [], "motions": [], "queries": [], "rows": [], "dropped": []}
        for command, reply in self._replay.run(commands):
            self._take_command(command, told)
            for query, targets in self._recorder.take(command.decode("ascii"), reply):
                self._take_row(query, targets, told)
        clock = self._history.clock
        first, last = self._window(clock)
        self._forget(first)
        return {**told, "clock": clock, "from": first, "to": last}

    def _take_command(self, command: bytes, told: dict[str, Any]) -> None:
        history = self._history
        regions, classes = len(history.regions), len(history.classes)
        track = history.take(command)
        if track is not None and track.changes:
            told["motions"].append([track.class_name, track.name, motion_of(track.changes[-1])])
        told["regions"] += map(region_data, history.regions[regions:])
        told["classes"] += history.classes[classes:]

    def _take_row(self, query: Query, targets: Targets | None, told: dict[str, Any]) -> None:
        if targets is not None:
            told["rows"].append([query.number, targets, *query.rows[targets][-1]])
        elif query.dropped is None:
            told["queries"].append(query_data(query))
        else:
            told["dropped"].append([query.number, query.dropped])

    def _window(self, clock: int) -> tuple[int, int]:
        return max(clock - self._keep, 0), min(clock + self._after, TICK_LIMIT)

    def _forget(self, first: int) -> None:
        """Forgets what a page no longer has, from time to time."""
        if first - self._forgot_at >= PRUNE * self._keep:
            self._forgot_at = first
            self._history.forget_before(first)
            self._recorder.forget_before(first)
