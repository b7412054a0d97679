"""A log that is a stream of Redis, of which the folder has a copy.

A writer appends what it commits to the stream, and then to its folder, which is synced before it is passed on. A reader
writes what it has taken from the stream to its folder, and syncs nothing: what the folder loses, the stream has. Either
folder is a log by itself, from which the program starts, and says up to which entry of the stream it goes.

What Redis has lost, the folder of the writer has: it appends it again, entry by entry as it was. So the stream and the
folder of a writer differ only while that can't be done, and where another has written: then the writer ends.
"""

import contextlib
import logging
import secrets
from collections.abc import Iterable, Iterator
from itertools import islice
from pathlib import Path
from threading import Event, Thread

from fleet.serve.log import Log, LogFull, LogUnsure
from fleet.serve.outcomes import Number
from fleet.serve.records import ACCEPTED, DamagedLog, Record, entries_of, records_of
from fleet.streams.options import Address
from fleet.streams.positions import Position, chain_after
from fleet.streams.stream import (
    PIECE, Appended, Entry, NoStream, PenTaken, Said, Stream, StreamAway, StreamFull, patiently,
)  # fmt: skip

PATIENCE = 30.0
"""How many seconds a line waits for a Redis that can't be reached, before the server ends."""
WAIT_MILLISECONDS = 1_000
_LAST_SECONDS = 2.0
"""How long it may take at the end to let go of the pen."""
_HOLDER = "holder"
"""The file with the name under which the folder's server holds the pen."""

_LOGGER = logging.getLogger("fleet.serve")


class OtherStream(NoStream):
    """The stream isn't the one that the folder has a copy of, or has other entries than were appended."""


class StreamLog(Log):
    """The log of a server whose log is a stream. Raises as Log does, and NoStream and PenTaken."""

    def __init__(self, folder: Path, address: Address, *, writes: bool) -> None:
        super().__init__(folder)
        self.stream = Stream(address, writes=writes)
        self.writes = writes
        # What a reader's folder loses, the stream has.
        self._is_synced = writes
        self._holder = ""
        self._ending = Event()
        self._next: Position | None = None
        self._beginning: Entry | None = None

    @property
    def status(self) -> dict[str, object]:
        place = "nowhere" if self.position is None else self.position.id
        return {"stream": f"{self.stream.address.key} {'written' if self.writes else 'followed'} at {place}"}

    # beginning

    @property
    def is_there(self) -> bool:
        """Whether the folder or the stream has a log."""
        return bool(self._numbers()) or self._beginning is not None

    def join(self) -> None:
        """Connects, and takes the pen to write."""
        with self._reaching():
            self.stream.connect()
            if self.writes:
                self._take_pen()
            self._beginning = self.stream.beginning()
        if self._beginning is None and not self.writes:
            raise NoStream(f"the stream {self.stream.address} has nothing yet: a server has to write it first")

    @contextlib.contextmanager
    def _reaching(self) -> Iterator[None]:
        try:
            yield
        except StreamAway as error:
            raise NoStream(f"the stream {self.stream.address} can't be reached: {error}") from None
        except StreamFull as error:
            raise NoStream(f"the stream {self.stream.address} takes nothing: {error}") from None

    def open(self) -> int:
        """Opens the copy, and takes what the stream has since; without a copy, all that it has.

        Where the stream has nothing it is begun from the copy.
        """
        cut = self._open_copy()
        with self._reaching():
            if self._beginning is None:
                if self.position is not None:
                    _LOGGER.warning("the stream has nothing, and is begun anew from the folder")
                self.begin(self.commands_since(0))
            else:
                self._catch_up(self._beginning)
        return cut

    def _open_copy(self) -> int:
        if not self._numbers():
            return 0
        try:
            return super().open()
        except DamagedLog as damage:
            if self.writes:
                raise
            _LOGGER.warning("the copy is begun anew: %s", damage)
            for number in self._numbers():
                self._path(number).unlink()
            return 0

    def _catch_up(self, beginning: Entry) -> None:
        if not self._numbers():
            self.take_beginning(beginning)
        elif self.position is None:
            raise OtherStream(f"{self.folder} has a log of its own, and the stream {self.stream.address} another one")
        elif not self._goes_on_from(self.position):
            self._go_on_elsewhere(beginning)
        self.take_all()

    def _goes_on_from(self, position: Position) -> bool:
        """Whether the stream has the entry of a place; of that the records are taken that weren't yet."""
        entry = self.stream.entry(position)
        if entry is not None and entry.number:
            self._keep(entry, position.taken)
        return entry is not None

    def _go_on_elsewhere(self, beginning: Entry) -> None:
        """Goes on where the stream hasn't the entry that was taken last."""
        assert self.position is not None
        if not self.writes:
            _LOGGER.warning("the stream isn't as it was followed up to %s: the copy is begun anew", self.position.id)
            self.take_beginning(beginning)
        elif (beginning.log, 0) > self.position[:2]:
            # The stream has gone on to another log, and no more of the old one is kept than readers need.
            self.take_beginning(beginning)
        else:
            last = self.stream.last()
            assert last is not None
            self._append_again(f"{last.log}-{last.number}", last.chain)

    # reading

    def take_all(self) -> None:
        """Takes all that the stream has, without a program that carries it out."""
        assert self.position is not None
        while entries := self.stream.after(self.position):
            for entry in entries:
                if not entry.number:
                    self.take_beginning(entry)
                    continue
                self.follow(self.position, entry)
                self._keep(entry, 0)

    def follow(self, at: Position, entry: Entry) -> Position:
        """The place of an entry that is the one after a place. Raises OtherStream where it isn't."""
        place = at.after(entry.lines, 0)
        if (entry.log, entry.number, entry.chain) != (place.log, place.entry, place.chain):
            raise OtherStream(
                f"the entry {entry.log}-{entry.number} of the stream {self.stream.address} doesn't follow {at.id}"
            )
        return place

    def _keep(self, entry: Entry, taken: int) -> None:
        """Keeps the records of an entry in the folder, those left out that it has."""
        records = records_in(entry)[taken:]
        if records:
            super().commit(records)
            self.took(records)

    def take_beginning(self, beginning: Entry) -> None:
        """Goes on from the beginning of another log."""
        super().adopt(self.write_beside(self.stream.head(beginning)))

    # writing

    def commit(self, records: list[Record]) -> None:
        if not self.writes:
            super().commit(records)
            return
        lines = b"".join(record.text() for record in records)
        assert self.position is not None
        place = self.position.after(lines, len(records))
        self._put(place, lines)
        try:
            super().commit([*records, Record(None, position=place)])
        except LogFull as fault:
            raise LogUnsure(f"the stream has lines that the folder hasn't: {fault}") from fault
        self._found.position = place

    def begin_imported(self, commands: Iterable[bytes], numbers: Iterable[Number]) -> None:
        """Appends the rows of an import, each as the command that it is."""
        records = [Record(command) for command in islice(commands, self.entries, None)]
        records += [Record(None, number, ACCEPTED) for number in numbers]
        if records:
            self.commit(records)
            self.took(records)

    def adopt(self, prepared: Path) -> None:
        if self.writes:
            self._begin_stream(prepared)
        super().adopt(prepared)

    def has_room(self) -> bool:
        try:
            if self.writes:
                self.renew_pen()
        except (StreamFull, StreamAway):
            return False
        return super().has_room()

    def renew_pen(self) -> None:
        """Says that the pen is still held. Raises PenTaken, and StreamAway."""
        pen = self.stream.renew_pen(self._holder)
        if pen > self.stream.pen:
            raise PenTaken(f"another server has taken the pen of the stream {self.stream.address}")

    def end_soon(self) -> None:
        self._ending.set()

    def close(self) -> None:
        if self.stream.pen:
            self._let_go()
        self.stream.close()
        super().close()

    def _let_go(self) -> None:
        """Lets go of the pen, but waits no longer for a Redis that doesn't answer than the end may take."""
        is_free = Event()

        def let_go() -> None:
            with contextlib.suppress(StreamAway, StreamFull, NoStream):
                self.stream.release_pen()
                is_free.set()

        letting_go = Thread(target=let_go, daemon=True)
        letting_go.start()
        letting_go.join(_LAST_SECONDS)
        if not is_free.is_set():
            _LOGGER.warning("the pen lapses by itself: the stream %s can't be reached", self.stream.address)

    def _position_of_next(self) -> Position | None:
        if not self.writes:
            return self.position
        last = self.stream_last()
        self._next = Position.first(max(last.log if last else 0, self.position.log if self.position else 0) + 1)
        return self._next

    def stream_last(self) -> Entry | None:
        """The last entry of the stream."""
        found: Entry | None = patiently(self.stream.last, PATIENCE, self._ending, "the stream can't be reached")
        return found

    def _take_pen(self) -> None:
        file = self.folder / _HOLDER
        if not file.exists():
            file.write_text(f"{secrets.token_hex(4)}\n")
        self._holder = file.read_text().strip()
        self.stream.take_pen(self._holder)

    def _begin_stream(self, prepared: Path) -> None:
        """Begins the log in the stream that a file begins with."""
        place = self._next
        assert place is not None
        last = self.position if self.stream_last() is not None else None
        self._put(place, b"", prepared, last)

    def _put(self, place: Position, lines: bytes, head: Path | None = None, last: Position | None = None) -> None:
        """Appends an entry to the stream, and waits until it is there and copied. Raises LogFull where it surely isn't,
        LogUnsure and PenTaken."""
        is_first = True

        def put() -> None:
            nonlocal is_first
            try:
                while not self._is_put(place, self._said(place, lines, head, last)):
                    pass
            except StreamFull as error:
                if is_first:
                    raise LogFull(f"Redis takes nothing: {error}") from None
                raise StreamAway(str(error)) from None
            finally:
                is_first = False
            self._wait_for_replicas()

        patiently(put, PATIENCE, self._ending, "it isn't known whether the stream has the last lines")

    def _said(self, place: Position, lines: bytes, head: Path | None, last: Position | None) -> Appended:
        if head is None:
            return self.stream.append(self.position, place, lines)
        return self.stream.begin(last, place, _pieces(head))

    def _is_put(self, place: Position, appended: Appended) -> bool:
        """Whether an entry is in the stream by what came of appending it; where not, it may be tried again."""
        if appended.said is Said.APPENDED:
            return True
        if appended.said is Said.OTHER_PEN:
            if appended.pen > self.stream.pen:
                raise PenTaken(f"another server has taken the pen of the stream {self.stream.address}")
            self.stream.take_pen(self._holder)
            return False
        if (appended.last, appended.chain) == (place.id, place.chain):
            # It was appended before the connection broke.
            return True
        self._append_again(appended.last, appended.chain)
        return False

    def _append_again(self, last: str, chain: str) -> None:
        """Appends what the folder has after the last entry of the stream, which has lost it. Raises OtherStream."""
        missing = _missing(self.path, self.size, last, chain)
        if missing is None:
            raise OtherStream(
                f"the stream {self.stream.address} ends with {last or 'nothing'}, which {self.folder} hasn't: another "
                "server has written, or more is lost than can be appended again"
            )
        before, entries = missing
        _LOGGER.warning("the stream has lost %d entries, which are appended again", len(entries))
        for place, lines in entries:
            appended = self.stream.append(before, place, lines)
            if appended.said is not Said.APPENDED:
                return
            before = place

    def _wait_for_replicas(self) -> None:
        wanted = self.stream.address.replicas
        if wanted and self.stream.wait(WAIT_MILLISECONDS) < wanted:
            # Redis counts the copies of what this connection wrote: of a new connection that is this.
            self.stream.renew_pen(self._holder)
            if self.stream.wait(WAIT_MILLISECONDS) < wanted:
                raise StreamAway(f"fewer than {wanted} replicas have the last entry")


def records_in(entry: Entry) -> list[Record]:
    """The records of an entry, each with the place up to which it and those before it are taken."""
    return [
        record._replace(position=Position(entry.log, entry.number, taken, entry.chain))
        for taken, record in enumerate(records_of(entry.lines), 1)
    ]


def _missing(path: Path, size: int, last: str, chain: str) -> tuple[Position, list[tuple[Position, bytes]]] | None:
    """The place in a log's file whose id and chain are these, and the entries after it with their lines; None where it
    has no such place."""
    found: Position | None = None
    entries: list[tuple[Position, bytes]] = []
    before: Position | None = None
    for place, lines in entries_of(path, size):
        if found is not None and before is not None:
            if place.chain != chain_after(before.chain, lines):
                # Of this one the folder hasn't all records.
                return None
            entries.append((place, lines))
        elif (place.id, place.chain) == (last, chain):
            found = place
        before = place
    return None if found is None else (found, entries)


def _pieces(file: Path) -> Iterator[bytes]:
    with file.open("rb") as text:
        while piece := text.read(PIECE):
            yield piece
