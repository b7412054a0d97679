"""A reader's source of lines: the entries of the stream, one after the other, each carried out as a client's line is."""

import asyncio
import logging
from collections import deque
from collections.abc import Callable
from dataclasses import dataclass
from functools import partial

from fleet.errors import FleetError
from fleet.serve.known import Known
from fleet.serve.peers import Item
from fleet.serve.process import Program
from fleet.serve.rolling import Tells
from fleet.serve.runner import Runner
from fleet.serve.thread import Thread
from fleet.serve.wire import Kind, Parsed, is_quick
from fleet.streams.log import OtherStream, StreamLog, records_in
from fleet.streams.positions import Position
from fleet.streams.stream import MOST_ENTRIES, Entry, NoStream, Stream, StreamAway
from fleet.waiting import in_thread

_MILLISECONDS = 1_000
"""How long an entry is waited for before it is looked whether the stream still has the last one."""
_PAUSE = 1.0

_LOGGER = logging.getLogger("fleet.serve")


class ReaderDiffers(FleetError):
    """The program doesn't accept what the writer's has accepted."""


@dataclass(frozen=True, slots=True)
class Anew:
    """What clients are told where a reader goes on from another log."""

    is_told: bool

    def lines(self) -> list[str]:
        return ["the reader goes on from another beginning of the log: what was told before may be gone"] * self.is_told


class Follower:
    """Follows a stream. It is a source of lines, and what the engine asks where another log begins."""

    must_wait = False

    def __init__(
        self, log: StreamLog, runner: Runner, thread: Thread, give: Callable[["Follower"], None], wake: Callable[[], None]
    ) -> None:
        # So questions don't keep it behind the writer.
        self.share = MOST_ENTRIES
        self.waiting: deque[Item] = deque()
        self._log = log
        self._runner = runner
        self._thread = thread
        self._give = give
        self._wake = wake
        self._stream = Stream(log.stream.address, writes=False)
        self._unanswered = 0
        self._answered = asyncio.Event()
        self._fault = ""
        self._beginning: Entry | None = None
        self._is_taken = asyncio.Event()

    async def run(self) -> None:
        """Follows until it is cancelled. Raises ReaderDiffers."""
        is_away = False
        while True:
            try:
                await self._follow()
                is_away = False
            except (StreamAway, NoStream) as error:
                if not is_away:
                    _LOGGER.warning("the stream can't be followed now: %s", error)
                is_away = True
                await asyncio.sleep(_PAUSE)

    async def _follow(self) -> None:
        """Takes the next entries, or finds out that the stream has gone on elsewhere."""
        at = self._position()
        entries = await in_thread(partial(self._stream.after, at, _MILLISECONDS))
        if not entries and await in_thread(partial(self._stream.entry, at)) is None:
            await self._go_on_elsewhere(f"it hasn't the entry {at.id}")
        items: list[Item] = []
        for entry in entries:
            if not entry.number:
                await self._carry_out(items)
                await self._go_on_from(entry)
                return
            try:
                at = self._log.follow(at, entry)
            except OtherStream as fault:
                await self._carry_out(items)
                await self._go_on_elsewhere(str(fault))
                return
            items += self._items(entry)
        await self._carry_out(items)

    def _position(self) -> Position:
        at = self._log.position
        assert at is not None
        return at

    def _items(self, entry: Entry) -> list[Item]:
        items = []
        for record in records_in(entry):
            text = record.command or b"#"
            items.append(Item(self, Kind.KEPT, text, is_quick(Parsed(Kind.KEPT, text)), record=record))
        return items

    async def _carry_out(self, items: list[Item]) -> None:
        """Waits until lines are carried out and kept."""
        if not items:
            return
        self._unanswered = len(items)
        self._answered.clear()
        self.waiting.extend(items)
        self._give(self)
        await self._answered.wait()
        if self._fault:
            raise ReaderDiffers(f"the program of this reader doesn't accept a line of the stream: {self._fault}")

    def reply(self, block: bytes) -> None:
        """Takes the reply to a line."""
        last = block.splitlines()[-1] if block else b"ok"
        if last != b"ok":
            self._fault = self._fault or last.decode("ascii", "replace")
        self._unanswered -= 1
        if not self._unanswered or self._fault:
            self._answered.set()

    # where another log begins

    async def _go_on_elsewhere(self, why: str) -> None:
        beginning = await in_thread(self._stream.beginning)
        if beginning is None:
            raise NoStream("the stream has nothing")
        _LOGGER.warning("the stream isn't as it was followed: %s", why)
        await self._go_on_from(beginning)

    async def _go_on_from(self, beginning: Entry) -> None:
        """Lets the engine go on from the beginning of a log."""
        self._beginning = beginning
        self._is_taken.clear()
        self._wake()
        await self._is_taken.wait()
        if self._position().log != beginning.log:
            await asyncio.sleep(_PAUSE)

    @property
    def is_ready(self) -> bool:
        return self._beginning is not None

    def look(self) -> None:
        """Nothing: the writer rolls."""

    def hurry(self) -> None:
        """Nothing: the writer rolls."""

    async def wait(self) -> None:
        """Nothing: the writer rolls."""

    def stop(self) -> None:
        """Nothing: `run` is cancelled."""

    async def take_over(self, clock: int) -> tuple[Program, Known, Tells] | None:
        """Goes on from the beginning that was found: a program that has loaded it, and what it holds; None where it
        can't be had."""
        assert self._beginning is not None
        beginning, self._beginning = self._beginning, None
        try:
            return await self._adopted(beginning)
        except (StreamAway, NoStream, OSError) as error:
            _LOGGER.warning("the beginning of the log %d can't be had: %s", beginning.log, error)
            return None
        finally:
            self._is_taken.set()

    async def _adopted(self, beginning: Entry) -> tuple[Program, Known, Tells]:
        log = self._log
        before = self._position()
        prepared = await self._thread.run(lambda: log.write_beside(log.stream.head(beginning)))
        program, known = await self._runner.start(prepared)
        try:
            await self._thread.run(log.adopt, prepared)
        except BaseException:
            await program.kill()
            raise
        is_next = self._position().log == before.log + 1
        return program, known, Anew(log.is_rolled or not is_next)
