"""How often what happened while a server runs, and the faults among it, of which some are told."""

from collections import Counter
from collections.abc import Callable

MOST_TOLD = 20
"""So many faults are told in a period; further ones are counted, and how many they were is told in the next one."""
PERIOD = 60.0
"""The seconds of a period."""


class Tally:
    """Counts, and tells faults by a call, at times in seconds."""

    def __init__(self, tell: Callable[[str], None], time: Callable[[], float]) -> None:
        self.counts: Counter[str] = Counter()
        self._tell = tell
        self._time = time
        self._since = time()
        self._told = 0
        self._untold = 0

    def add(self, what: str, count: int = 1) -> None:
        """Counts something."""
        self.counts[what] += count

    def fault(self, what: str, message: str) -> None:
        """Counts a fault, and tells it where not too many were told lately."""
        self.add(what)
        self.look()
        if self._told < MOST_TOLD:
            self._told += 1
            self._tell(message)
        else:
            self._untold += 1

    def look(self) -> None:
        """Begins a period where the last one is over."""
        if self._time() < self._since + PERIOD:
            return
        if self._untold:
            self._tell(f"{self._untold:,} more faults weren't told")
        self._since, self._told, self._untold = self._time(), 0, 0
