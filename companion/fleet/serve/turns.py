"""Whose line is next: each source that has one in turn, so that none waits for all lines of another."""

import asyncio
from collections import deque
from collections.abc import Iterable

from fleet.serve.peers import Item, Source


class Turns:
    """The sources that have lines that wait."""

    def __init__(self) -> None:
        self._ready: deque[Source] = deque()
        self._taken = 0
        self._changed = asyncio.Event()

    def give(self, source: Source) -> None:
        """Says that a source has a line that waits."""
        if source not in self._ready:
            self._ready.append(source)
        self._changed.set()

    def wake(self) -> None:
        """Lets `take` come back without a line."""
        self._changed.set()

    async def take(self, most: int) -> list[Item]:
        """Waits for lines and takes some, of each source its share in turn; one that may take long comes alone.

        There are none where it was woken.
        """
        await self._changed.wait()
        items: list[Item] = []
        while self._ready and len(items) < most:
            source = self._ready[0]
            comes_alone = not source.waiting[0].is_quick
            if comes_alone and items:
                break
            items.append(source.waiting.popleft())
            self._taken += 1
            if not source.waiting or self._taken >= source.share:
                self._pass_on(source)
            if comes_alone:
                break
        if not self._ready:
            self._changed.clear()
        return items

    def _pass_on(self, source: Source) -> None:
        """Lets the next source have its turn."""
        self._taken = 0
        self._ready.popleft()
        if source.waiting:
            self._ready.append(source)

    def put_back(self, items: Iterable[Item]) -> None:
        """Lets lines that were taken wait again, before all others."""
        for item in reversed(list(items)):
            item.source.waiting.appendleft(item)
            if item.source in self._ready:
                self._ready.remove(item.source)
            self._ready.appendleft(item.source)
        if self._ready:
            self._changed.set()

    def take_all(self) -> list[Item]:
        """Takes all lines that wait."""
        items = [item for source in self._ready for item in source.waiting]
        for source in self._ready:
            source.waiting.clear()
        self._ready.clear()
        return items
