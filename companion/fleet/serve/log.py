"""The write-ahead log: a folder with the log's file, a lock, and what is left of rolled logs.

    lock            held while a server uses the folder
    log-00000012    the log
    past-00000011   a log that was rolled, closed: a session that the program loads

A new log is written beside the old one, synced, and given its name, and then the folder is synced. So at any moment the
log with the highest number is whole, and goes on from all that was replied to.
"""

import contextlib
import os
import re
from collections.abc import Iterable
from pathlib import Path

from fleet.errors import FleetError
from fleet.serve.locks import lock
from fleet.serve.outcomes import Number, Outcomes
from fleet.serve.records import ACCEPTED, DamagedLog, Found, Record, commands_from, group, head, read_log
from fleet.session_text import END, sync_folder
from fleet.streams.positions import Position

_LOG = re.compile(r"log-([0-9]{8})")
_BEGUN = ".log-begun"
"""The name of a log that isn't whole yet."""
_PIECE = 1 << 20
_ROOM = 1 << 16


class LogFull(FleetError):
    """The log couldn't be written, and is as it was before."""


class LogUnsure(FleetError):
    """The log couldn't be synced: what the disk has of it isn't known, so nothing may be added to it."""


class Log:
    """The log of one folder. `commit` and `begin` take time, and may be called by another thread, one at a time.

    Raises FolderInUse, DamagedLog and OSError.
    """

    def __init__(self, folder: Path) -> None:
        folder.mkdir(mode=0o700, parents=True, exist_ok=True)
        sync_folder(folder.parent)
        self.folder = folder
        self._lock = lock(folder / "lock", folder)
        self._file = -1
        self._number = 0
        self._is_synced = True
        self._found = Found()
        (folder / _BEGUN).unlink(missing_ok=True)

    @property
    def path(self) -> Path:
        return self._path(self._number)

    @property
    def is_there(self) -> bool:
        """Whether the folder has a log."""
        return bool(self._numbers())

    @property
    def size(self) -> int:
        """Its bytes."""
        return self._found.size

    @property
    def growth(self) -> int:
        """The bytes that were added since the log began."""
        return self._found.size - self._found.head_size

    @property
    def entries(self) -> int:
        """The commands that it has."""
        return self._found.entries

    @property
    def command_bytes(self) -> int:
        """The bytes of its commands as they were typed, with their line feeds."""
        return self._found.command_bytes

    @property
    def plane(self) -> bytes:
        """The comment that names the plane on which the places lie; empty where none does."""
        return self._found.plane

    @property
    def is_rolled(self) -> bool:
        """Whether it goes on from a log that was rolled."""
        return self._found.is_rolled

    @property
    def outcomes(self) -> Outcomes:
        """What came of numbered lines."""
        return self._found.outcomes

    @property
    def position(self) -> Position | None:
        """Its place in a stream; None where it isn't of one."""
        return self._found.position

    @property
    def status(self) -> dict[str, object]:
        """What it tells of itself besides its entries and its file."""
        return {}

    def open(self) -> int:
        """Opens the log that is there, cuts off what a crash left unfinished, and gives how many bytes that was."""
        *older, self._number = self._numbers()
        self._found = read_log(self.path)
        self._file = os.open(self.path, os.O_WRONLY | os.O_APPEND)
        if self._found.cut:
            os.ftruncate(self._file, self._found.size)
            os.fsync(self._file)
        for number in older:
            self._put_away(number)
        return self._found.cut

    def begin(self, commands: Iterable[bytes], numbers: Iterable[Number] = (), *, plane: bytes = b"") -> None:
        """Begins a new log that goes on from these commands, in place of the old one.

        It has the numbers that are known, and these, whose lines were accepted; and the old one's plane, else this one.
        Raises OSError, and then the old log stands, and LogUnsure.
        """
        self.adopt(self.prepare(commands, numbers, plane=plane))

    def prepare(
        self, commands: Iterable[bytes], numbers: Iterable[Number] = (), *, is_rolled: bool = False, plane: bytes = b""
    ) -> Path:
        """Writes a new log that isn't used yet, and gives its file. `is_rolled` says that the old one has what this one
        hasn't. Raises OSError."""
        plane = self.plane or plane
        position = self._position_of_next()
        return self.write_beside(
            head(commands, self.outcomes, numbers, is_rolled=is_rolled, plane=plane, position=position)
        )

    def write_beside(self, pieces: Iterable[bytes]) -> Path:
        """Writes the text of a new log that isn't used yet, and gives its file. Raises OSError."""
        beside = self.folder / _BEGUN
        try:
            with beside.open("wb") as file:
                file.writelines(pieces)
                file.flush()
                os.fsync(file.fileno())
        except BaseException:
            beside.unlink(missing_ok=True)
            raise
        return beside

    def adopt(self, prepared: Path) -> None:
        """Goes on with a log that was prepared; the old one is removed, or where it was rolled closed and kept.

        Raises OSError, and then the old log stands, and LogUnsure.
        """
        found = read_log(prepared)
        file = os.open(prepared, os.O_WRONLY | os.O_APPEND)
        prepared.rename(self._path(self._number + 1))
        try:
            sync_folder(self.folder)
        except OSError as error:
            raise LogUnsure(f"{self.folder} can't be synced: {error.strerror}") from error
        if self._file >= 0:
            os.close(self._file)
        old, self._number = self._number, self._number + 1
        self._file, self._found = file, found
        self._put_away(old)

    def begin_imported(self, commands: Iterable[bytes], numbers: Iterable[Number]) -> None:
        """Goes on from these commands, of which those that the log hasn't are the rows of an import. Raises as `begin`
        does."""
        self.begin(commands, numbers)

    def commit(self, records: list[Record]) -> None:
        """Adds the records and waits until they are on the disk.

        Raises LogFull where they couldn't be written, and LogUnsure.
        """
        text = group(records)
        try:
            _write(self._file, text)
        except OSError as error:
            self._take_back()
            raise LogFull(f"{self.path} can't be written: {error.strerror}") from error
        try:
            if self._is_synced:
                os.fsync(self._file)
        except OSError as error:
            raise LogUnsure(f"{self.path} can't be synced: {error.strerror}") from error
        self._found.size += len(text)

    def has_room(self) -> bool:
        """Whether the disk has room for some more of it. Raises LogUnsure."""
        try:
            os.posix_fallocate(self._file, self._found.size, _ROOM)
        except OSError:
            return False
        finally:
            self._take_back()
        return True

    def took(self, records: list[Record]) -> None:
        """Counts records that were committed."""
        for record in records:
            if record.command is not None:
                self._found.entries += 1
                self._found.command_bytes += len(record.command) + 1
            if record.number is not None:
                self.outcomes.record(record.number, "" if record.refusal == ACCEPTED else record.refusal)
            self._found.plane = self._found.plane or record.plane
            self._found.position = record.position or self._found.position

    def name_plane(self, plane: bytes) -> None:
        """Adds the comment that names the plane, where it has none yet. Raises as `commit` does."""
        records = [Record(None, plane=plane)]
        self.commit(records)
        self.took(records)

    def commands_since(self, first: int) -> Iterable[bytes]:
        """The commands from a place in bytes on, where a commit ended; all from 0 on."""
        return commands_from(self.path, first, self.size)

    def copy_closed(self, to: Path, of: Path | None = None) -> None:
        """Copies the log, or one that was prepared, as a session that the program loads. Raises OSError."""
        left = self.size if of is None else of.stat().st_size
        with (of or self.path).open("rb") as source, to.open("wb") as target:
            while left:
                piece = source.read(min(left, _PIECE))
                if not piece:
                    raise DamagedLog(f"{self.path} is shorter than what was written")
                target.write(piece)
                left -= len(piece)
            target.write(END + b"\n")

    def end_soon(self) -> None:
        """Says that the server ends, so that from now on nothing is waited for that is away."""

    def close(self) -> None:
        """Lets go of the folder. Nothing is lost: all that was committed is on the disk."""
        if self._file >= 0:
            os.close(self._file)
            self._file = -1
        os.close(self._lock)

    def _position_of_next(self) -> Position | None:
        """The place in a stream with which a log begins that is prepared."""
        return None

    def _take_back(self) -> None:
        """Takes away what was written of a commit that failed."""
        try:
            os.ftruncate(self._file, self._found.size)
        except OSError as error:
            raise LogUnsure(f"{self.path} can't be cut off: {error.strerror}") from error

    def _put_away(self, number: int) -> None:
        """Removes an old log, or where it was rolled closes and keeps it. It isn't needed any more, so that a failure
        loses nothing."""
        path = self._path(number)
        with contextlib.suppress(OSError, DamagedLog):
            if not self._found.is_rolled:
                path.unlink(missing_ok=True)
                return
            os.truncate(path, read_log(path).size)
            with path.open("ab") as file:
                file.write(END + b"\n")
            path.rename(self.folder / f"past-{number:08}")

    def _path(self, number: int) -> Path:
        return self.folder / f"log-{number:08}"

    def _numbers(self) -> list[int]:
        """The numbers of the logs that are there, in order."""
        matches = (_LOG.fullmatch(path.name) for path in self.folder.iterdir())
        return sorted(int(match.group(1)) for match in matches if match)


def _write(file: int, text: bytes) -> None:
    left = memoryview(text)
    while left:
        left = left[os.write(file, left) :]
