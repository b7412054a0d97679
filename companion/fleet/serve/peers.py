"""The clients of the server: their waiting lines, what is to be sent to them, and what they follow."""

import asyncio
from collections import deque
from collections.abc import Awaitable, Callable
from dataclasses import dataclass
from typing import Protocol

from fleet.serve.gate import Gate
from fleet.serve.outcomes import Number
from fleet.serve.records import Record
from fleet.serve.wire import Hostile, Kind, Parsed, Refusal, client_named, is_http, is_quick, parsed, told

MOST_WAITING_LINES = 128
"""How many lines of a client wait at most; more are read when these are answered."""
MOST_WAITING_BYTES = 1 << 20
"""How many bytes may wait to be sent to a client. Above this its lines aren't read; where so much waits that is no
reply its connection ends."""
SEND_SECONDS = 30.0
"""How long a client may take nothing of what is sent to it."""
PIECE = 65_536
"""The most bytes that are sent at once."""


@dataclass(slots=True, eq=False)
class Item:
    """A line that waits to be carried out, and where its reply goes.

    One that isn't `quick` may take long, and is sent to the program alone. `tries` counts how often a signal has ended
    the program with it alone. `record` is what the log keeps of it where that is known before: it is a line of a stream,
    which was accepted elsewhere.
    """

    source: "Source"
    kind: Kind
    text: bytes
    is_quick: bool
    number: Number | None = None
    tries: int = 0
    record: Record | None = None


class Source(Protocol):
    """Where lines come from: a client, or the clock. `share` is how many lines it has carried out in its turn."""

    waiting: deque[Item]
    share: int

    def reply(self, block: bytes) -> None:
        """Takes the reply to that of its lines which is the next to be answered."""


class Follows:
    """The registered queries of whose changes a client is told; `all` is all of them. `ticks` says whether it is told
    of each tick."""

    def __init__(self) -> None:
        self.names: frozenset[str] = frozenset()
        self.all = False
        self.ticks = False

    def has(self, query: str) -> bool:
        return self.all or query in self.names

    @property
    def is_nothing(self) -> bool:
        return not self.all and not self.names and not self.ticks


class Outbox:
    """What is to be sent to a client, in order. `size` has the bytes of it, `told_size` of what is no reply."""

    def __init__(self) -> None:
        self._blocks: deque[tuple[bytes, bool]] = deque()
        self._changed = asyncio.Event()
        self._room = asyncio.Event()
        self._room.set()
        self._closed = False
        self.size = 0
        self.told_size = 0

    def put(self, block: bytes, *, is_reply: bool = True) -> None:
        """Takes what is to be sent next; nothing once it is closed."""
        if self._closed or not block:
            return
        self._blocks.append((block, is_reply))
        self.size += len(block)
        self.told_size += 0 if is_reply else len(block)
        if self.size > MOST_WAITING_BYTES:
            self._room.clear()
        self._changed.set()

    def close(self) -> None:
        """Takes nothing more. What waits is still sent."""
        self._closed = True
        self._room.set()
        self._changed.set()

    def clear(self) -> None:
        """Forgets what waits, and takes nothing more."""
        self._blocks.clear()
        self.close()

    async def room(self) -> None:
        """Waits until no more waits than may."""
        await self._room.wait()

    async def next(self) -> bytes | None:
        """What is to be sent next, small blocks together; None where nothing more comes."""
        while not self._blocks:
            if self._closed:
                return None
            self._changed.clear()
            await self._changed.wait()
        parts = [self._taken()]
        size = len(parts[0])
        while self._blocks and size + len(self._blocks[0][0]) <= PIECE:
            parts.append(self._taken())
            size += len(parts[-1])
        return b"".join(parts)

    def _taken(self) -> bytes:
        block, is_reply = self._blocks.popleft()
        self.told_size -= 0 if is_reply else len(block)
        return block

    def sent(self, size: int) -> None:
        """Says that bytes of what `next` gave are sent."""
        self.size -= size
        if self.size <= MOST_WAITING_BYTES:
            self._room.set()


class Peer:
    """A client: one connection, over lines or WebSocket."""

    def __init__(self, name: str, gate: Gate, give: Callable[["Peer"], None]) -> None:
        """`name` is its address; `gate` says whether it may come in; `give` is called when it has a line that waits."""
        self.name = name
        self.share = 1
        self.waiting: deque[Item] = deque()
        self.follows = Follows()
        self.is_allowed = gate.is_open
        self._gate = gate
        self._client = ""
        self._give = give
        self._outbox = Outbox()
        self._unanswered = 0
        self._room = asyncio.Event()
        self._room.set()
        self._sending: asyncio.Task[None] | None = None
        self.lost_for = ""
        self._is_first = True

    def start_sending(self, send: Callable[[bytes], Awaitable[None]]) -> asyncio.Task[None]:
        """Sends from now on what is to be sent, by a call that sends whole lines, until all is sent after `end`."""
        self._sending = asyncio.create_task(self._send_all(send))
        return self._sending

    async def take(self, line: bytes) -> bool:
        """Takes a line of the client, when there is room for it, and says whether more may come. Raises Hostile."""
        if self._is_first and is_http(line):
            raise Hostile("a request of HTTP")
        self._is_first = False
        found = parsed(line)
        if not self.is_allowed:
            return self._come_in(found)
        if found.kind is Kind.SILENT:
            return True
        await self._room.wait()
        await self._outbox.room()
        self._queue(found)
        return found.kind is not Kind.QUIT

    def _come_in(self, found: Parsed) -> bool:
        self.is_allowed = self._gate.lets_in(found.text)
        self._outbox.put(b"ok\n" if self.is_allowed else Refusal.NOT_ALLOWED.reply())
        return self.is_allowed

    def _queue(self, found: Parsed) -> None:
        if found.kind is Kind.WORD and (client := client_named(found.text)):
            self._client = client
        number = Number.of(self._client, found.number, found.text) if found.number else None
        self._unanswered += 1
        if self._unanswered >= MOST_WAITING_LINES:
            self._room.clear()
        self.waiting.append(Item(self, found.kind, found.text, is_quick(found), number))
        self._give(self)

    def reply(self, block: bytes) -> None:
        """Sends the reply to a line."""
        self._unanswered -= 1
        self._room.set()
        self._outbox.put(block)

    def tell(self, block: bytes) -> None:
        """Sends what is no reply. A client for which too much of that waits already loses its connection."""
        if self._outbox.told_size > MOST_WAITING_BYTES:
            self.lose("it takes what is sent to it too slowly")
        else:
            self._outbox.put(block, is_reply=False)

    async def room(self) -> None:
        """Waits until no more waits to be sent than may."""
        await self._outbox.room()

    def give(self, block: bytes) -> None:
        """Sends what is no reply, of which no more comes than there was room for."""
        self._outbox.put(block)

    def lose(self, why: str) -> None:
        """Ends the connection at once."""
        if not self.lost_for:
            self.lost_for = why
            self._room.set()
            self._outbox.clear()
            if self._sending is not None:
                self._sending.cancel()

    def end(self, why: str = "") -> None:
        """Ends the connection when all is sent, with a last line that says why."""
        if why:
            self._outbox.put(told("closed", why), is_reply=False)
        self._outbox.close()

    async def answered(self) -> None:
        """Waits until all lines that were taken are answered, or the connection is lost."""
        while self._unanswered and not self.lost_for:
            self._room.clear()
            await self._room.wait()

    async def _send_all(self, send: Callable[[bytes], Awaitable[None]]) -> None:
        try:
            while (block := await self._outbox.next()) is not None:
                for piece in _pieces(block):
                    async with asyncio.timeout(SEND_SECONDS):
                        await send(piece)
                    self._outbox.sent(len(piece))
        except TimeoutError:
            self.lose("it takes nothing of what is sent to it")
        except OSError as error:
            self.lose(f"it can't be reached: {error}")


def _pieces(block: bytes) -> list[bytes]:
    """The block in pieces of whole lines, none longer than a piece but where one line is."""
    if len(block) <= PIECE:
        return [block]
    pieces, at = [], 0
    while at < len(block):
        end = block.rfind(b"\n", at, at + PIECE) + 1 or block.find(b"\n", at) + 1 or len(block)
        pieces.append(block[at:end])
        at = end
    return pieces
