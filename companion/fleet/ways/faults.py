"""What can't be taken of a file: each fault is told with its place, and what has none is written all the same."""

import sys
from collections.abc import Mapping
from dataclasses import dataclass, field

MOST_TOLD = 100
"""So many faults are told; further ones are counted."""


class Unfit(Exception):
    """A part of what was read can't be taken; `field` names the part, and is empty where it is about the whole."""

    def __init__(self, message: str, field: str = "") -> None:
        super().__init__(message)
        self.field = field


@dataclass(frozen=True, slots=True)
class Where:
    """A place in a file; `columns` has those of its parts, from 1, where the file has columns."""

    text: str
    columns: Mapping[str, int] = field(default_factory=dict)

    def of(self, part: str) -> str:
        """The place of a part."""
        return f"{self.text}:{self.columns[part]}" if part in self.columns else self.text


@dataclass(slots=True)
class Faults:
    """Tells faults and notes on standard error, and counts the faults."""

    count: int = 0

    def add(self, where: Where, fault: Unfit) -> None:
        """Tells a fault."""
        self.tell(where.of(fault.field), str(fault))

    def tell(self, place: str, message: str) -> None:
        """Tells a fault at a place."""
        self.count += 1
        if self.count <= MOST_TOLD:
            _write(f"{place}: fault: {message}")

    def note(self, message: str) -> None:
        """Tells what is no fault."""
        _write(message)

    def end(self) -> int:
        """Tells how many faults there were, and gives the exit status: 1 where there was one."""
        if not self.count:
            return 0
        untold = f", of which {self.count - MOST_TOLD:,} aren't told" if self.count > MOST_TOLD else ""
        _write(f"{counted(self.count, 'fault')}{untold}; all else is written")
        return 1


def counted(count: int, what: str) -> str:
    """A number of things, in words."""
    return f"{count:,} {what}" + ("" if count == 1 else "s")


def _write(line: str) -> None:
    # Lines that were written before are to be seen before, where both go to one terminal.
    sys.stdout.flush()
    print(line, file=sys.stderr)
