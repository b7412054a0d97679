"""What was answered, until it is in the log: nothing is passed on before all that it rests on is on the disk."""

import asyncio
from collections import deque
from collections.abc import Callable
from dataclasses import dataclass

from fleet.serve.log import Log, LogFull
from fleet.serve.peers import Item
from fleet.serve.process import Answer
from fleet.serve.records import Record
from fleet.serve.thread import Thread


@dataclass(slots=True)
class Done:
    """A line that was carried out, and what the log keeps of it. `answer` is the program's; without one the server
    answers the line by itself with `block`, or with what `block` gives when its turn has come."""

    item: Item
    answer: Answer | None = None
    block: bytes | Callable[[], bytes] = b""
    record: Record | None = None


class Committer:
    """Takes what was answered, in order, adds it to the log in groups, and passes it on when the group is synced.

    While a group is synced the next one gathers. With `each` a group has one record. Where the log can't be written
    `fault` says so, and what rests on unkept lines is handed to `refuse` in place of `pass_on`; the program must then
    be started anew from the log, and `mend` be called.
    """

    def __init__(
        self, log: Log, thread: Thread, pass_on: Callable[[Done], None], refuse: Callable[[Item], None], *, each: bool
    ) -> None:
        self.fault: LogFull | None = None
        self._log = log
        self._thread = thread
        self._pass_on = pass_on
        self._refuse = refuse
        self._each = each
        self._waiting: deque[Done] = deque()
        self._changed = asyncio.Event()
        self._idle = asyncio.Event()
        self._idle.set()

    def put(self, done: Done) -> None:
        """Takes what was answered next."""
        self._waiting.append(done)
        self._idle.clear()
        self._changed.set()

    async def drained(self) -> None:
        """Waits until all that was taken is passed on or refused. Raises what ended the committer."""
        await self._idle.wait()

    def mend(self) -> None:
        """Goes on after a fault."""
        self.fault = None

    async def run(self) -> None:
        """Commits until it is cancelled. Raises LogUnsure."""
        while True:
            await self._changed.wait()
            await self._commit(self._next())
            if not self._waiting:
                self._changed.clear()
                self._idle.set()

    def _next(self) -> list[Done]:
        """What is passed on together: all that waits, or up to the first record."""
        if not self._each:
            group = list(self._waiting)
            self._waiting.clear()
            return group
        group = []
        while self._waiting:
            group.append(self._waiting.popleft())
            if group[-1].record is not None:
                break
        return group

    async def _commit(self, group: list[Done]) -> None:
        records = [done.record for done in group if done.record is not None]
        if records and self.fault is None:
            try:
                await self._thread.run(self._log.commit, records)
                self._log.took(records)
            except LogFull as fault:
                self.fault = fault
        for done in group:
            if self.fault is not None and done.answer is not None:
                self._refuse(done.item)
            else:
                self._pass_on(done)
