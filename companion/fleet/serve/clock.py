"""The clock of the server: a tick each so many seconds of real time."""

import asyncio
import math
from collections import deque
from collections.abc import Callable

from fleet.serve.peers import Item
from fleet.serve.wire import Kind
from fleet.words import REFUSALS, TICK_LIMIT


_MOST_LEFT_OUT = 63
_CLOCK_END = f"refused 13 {REFUSALS[13]}"


class Clock:
    """A source of `tick` lines.

    One line at most waits, and how many ticks it has is known when it is carried out: after a pause it is one line of
    so many ticks. A tick that couldn't be carried out is made up for by a later one, after ever longer waits as long as
    none can. While no server runs the clock stands.
    """

    def __init__(self, seconds: float, give: Callable[["Clock"], None]) -> None:
        self.share = 1
        self.waiting: deque[Item] = deque()
        self.fault = ""
        self._seconds = seconds
        self._give = give
        self._start = 0.0
        self._told = 0
        self._asked = 0
        self._is_waiting = False
        self._left_out = 0
        self._most = TICK_LIMIT

    async def run(self) -> None:
        """Asks for a tick whenever one is due, until the clock is at its end."""
        time = asyncio.get_running_loop().time
        self._start = time()
        while not self.fault:
            to_next = self._seconds - math.fmod(time() - self._start, self._seconds)
            await asyncio.sleep(to_next + self._seconds * self._left_out)
            if not self._is_waiting:
                self._is_waiting = True
                self.waiting.append(Item(self, Kind.KEPT, b"", is_quick=True))
                self._give(self)

    def line(self) -> bytes:
        """The line of the ticks that are due now; empty where none is."""
        passed = asyncio.get_running_loop().time() - self._start
        self._asked = min(int(passed / self._seconds) - self._told, self._most)
        if self._asked < 1:
            self._is_waiting = False
            return b""
        return b"tick %d" % self._asked

    def reply(self, block: bytes) -> None:
        """Takes the reply to the line."""
        self._is_waiting = False
        last = block.splitlines()[-1].decode()
        if last == "ok":
            self._told += self._asked
            self._left_out = 0
        elif last != _CLOCK_END:
            self._left_out = min(2 * self._left_out + 1, _MOST_LEFT_OUT)
        elif self._asked > 1:
            # Fewer may be left than are due.
            self._most = self._asked // 2
        else:
            self.fault = last
