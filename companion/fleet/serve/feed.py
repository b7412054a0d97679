"""Tells a client of the commands of the log: of those that are there, and then of each that is added.

They are read from the log itself, no faster than the client takes them: so one that is slow only falls behind.
"""

import asyncio
from functools import partial
from pathlib import Path
from typing import NamedTuple

from fleet.serve.peers import PIECE, Peer
from fleet.serve.records import FIRST
from fleet.serve.wire import told
from fleet.waiting import in_thread
from fleet.ways.planes import plane_in


class Extent(NamedTuple):
    """How far the log goes: its file, the bytes that are on the disk, and the commands that these have."""

    path: Path
    size: int
    entries: int


class Feed:
    """What one client is told of the log.

    `name` is the log of which it has `number` commands already; it isn't told of these where that is still the log.
    """

    def __init__(self, peer: Peer, name: str, number: int) -> None:
        self._peer = peer
        self._name, self._known = name, number
        self._path = Path()
        self._at = self._count = 0
        self._extent = Extent(Path(), 0, 0)
        self._grown = asyncio.Event()

    def grow(self, extent: Extent) -> None:
        """Says how far the log goes now."""
        self._extent = extent
        self._grown.set()

    async def run(self) -> None:
        """Tells the client, until it is cancelled."""
        try:
            while True:
                await self._grown.wait()
                self._grown.clear()
                await self._tell_up_to(self._extent)
        except OSError as error:
            self._peer.lose(f"the log can't be read: {error}")

    async def _tell_up_to(self, extent: Extent) -> None:
        if extent.path != self._path:
            await self._begin(extent)
        while self._at < extent.size:
            await self._peer.room()
            try:
                piece = await in_thread(partial(_read, self._path, self._at, extent.size - self._at))
            except FileNotFoundError:
                # Another log has taken its place, which is told of next.
                return
            self._peer.give(b"".join(map(self._told, piece.splitlines(keepends=True))))
            self._at += len(piece)

    async def _begin(self, extent: Extent) -> None:
        """Begins with a log, from the first command on that the client hasn't."""
        goes_on = extent.path.name == self._name and self._known <= extent.entries
        self._known = self._known if goes_on else 0
        self._path, self._at, self._count = extent.path, 0, 0
        self._name = ""
        await self._peer.room()
        self._peer.give(told("log", extent.path.name, self._known, extent.entries))

    def _told(self, line: bytes) -> bytes:
        """What is told of a line of the log."""
        if line.startswith(b"#"):
            plane = plane_in([line])
            return b"" if plane is None else told("plane", plane)
        if line == FIRST:
            return b""
        self._count += 1
        return b"" if self._count <= self._known else b"* command " + line


def _read(path: Path, first: int, most: int) -> bytes:
    """Some whole lines of a file from a place on, where `most` bytes are whole lines. Raises OSError."""
    with path.open("rb") as file:
        file.seek(first)
        piece = file.read(min(most, PIECE))
    end = piece.rfind(b"\n") + 1
    if not end:
        raise OSError(f"{path} has no whole line at {first}")
    return piece[:end]
