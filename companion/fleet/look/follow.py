"""Follows the log of a server: the commands that it has, and those that are added. Nothing is written or locked."""

import zlib
from io import BytesIO
from pathlib import Path

from fleet.serve.closed import NoLog, last_log
from fleet.serve.records import FIRST, mark

_PIECE = 1 << 24
"""The most bytes that are read at once, but for a group that is longer."""


class Follower:
    """Follows the log of a folder.

    What was written at once ends with a mark; what stands after the last one may still be cut off, and is read when its
    mark is there.
    """

    def __init__(self, folder: Path) -> None:
        """Raises NoLog."""
        self._folder = folder
        self._path = last_log(folder)
        self._at = 0

    @property
    def has_other(self) -> bool:
        """Whether another log has taken the place of the one that is followed. Raises NoLog."""
        return last_log(self._folder) != self._path

    def start_over(self) -> None:
        """Follows the log that the folder has now, from its beginning. Raises NoLog."""
        self._path, self._at = last_log(self._folder), 0

    def more(self) -> list[bytes]:
        """The commands that were added since. Raises NoLog where what was added isn't that of a log."""
        commands: list[bytes] = []
        size = _PIECE
        while True:
            piece = self._read(size)
            taken = self._take(piece, commands)
            self._at += taken
            if len(piece) < size:
                return commands
            size = _PIECE if taken else size * 2

    def _read(self, size: int) -> bytes:
        try:
            with self._path.open("rb") as file:
                file.seek(self._at)
                return file.read(size)
        except FileNotFoundError:
            return b""
        except OSError as error:
            raise NoLog(f"{self._path} can't be read: {error.strerror}") from None

    def _take(self, piece: bytes, commands: list[bytes]) -> int:
        """Takes the commands of the groups that are whole, and gives how many bytes these are."""
        taken = 0
        group: list[bytes] = []
        for line in BytesIO(piece):
            if not line.startswith(b"#= "):
                group.append(line)
                continue
            if not line.endswith(b"\n"):
                break
            text = b"".join(group)
            if line != mark(zlib.crc32(text), len(text)):
                raise NoLog(f"{self._path} has other bytes than its marks tell")
            commands += [each.rstrip(b"\n") for each in group if not each.startswith(b"#") and each != FIRST]
            taken += len(text) + len(line)
            group = []
        return taken
