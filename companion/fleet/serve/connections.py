"""The connections of clients: a line protocol over TCP, and the same lines over WebSocket."""

import asyncio
import contextlib
import logging
import socket
from collections.abc import AsyncIterator, Awaitable, Callable
from typing import TYPE_CHECKING

from fleet.serve.gate import ALLOW_SECONDS, Gate
from fleet.serve.hub import Hub
from fleet.serve.peers import PIECE, Peer
from fleet.serve.turns import Turns
from fleet.serve.wire import MOST_LINE_BYTES, VERSION, Hostile, told

if TYPE_CHECKING:
    from websockets.server import WebSocketServerProtocol

LAST_SECONDS = 5.0
"""How long clients may take what is still to be sent to them when the server ends."""

_SYSTEM_BYTES = 1 << 18
"""The bytes that the system may hold of what is sent to a client."""

_LOGGER = logging.getLogger("fleet.serve")

Lines = AsyncIterator[bytes]
Send = Callable[[bytes], Awaitable[None]]


class Connections:
    """Takes connections, and the lines that come over them."""

    def __init__(self, hub: Hub, turns: Turns, gate: Gate, most: int, greeting: Callable[[], str]) -> None:
        """`most` is how many clients may be there at once; `greeting` tells those that need no token of the server."""
        self._hub = hub
        self._turns = turns
        self._gate = gate
        self._most = most
        self._greeting = greeting
        self._tasks: set[asyncio.Task[None]] = set()
        self._is_closing = False

    async def take_lines(self, reader: asyncio.StreamReader, writer: asyncio.StreamWriter) -> None:
        """Serves a connection of the line protocol."""

        async def send(block: bytes) -> None:
            writer.write(block)
            await writer.drain()

        # So `drain` waits until the system has taken all of it.
        writer.transport.set_write_buffer_limits(high=0)
        _set_options(writer.get_extra_info("socket"))
        try:
            await self._serve(_name(writer.get_extra_info("peername")), _lines_of(reader), send)
        finally:
            # What the system hasn't taken by now is for a client that is lost.
            if writer.transport.get_write_buffer_size():
                writer.transport.abort()
            else:
                writer.close()

    async def take_websocket(self, connection: "WebSocketServerProtocol") -> None:
        """Serves a WebSocket: each message has whole lines."""
        from websockets.exceptions import ConnectionClosed

        async def send(block: bytes) -> None:
            try:
                await connection.send(block.removesuffix(b"\n").decode("utf-8", "replace"))
            except ConnectionClosed as error:
                raise ConnectionError(str(error)) from None

        _set_options(connection.transport.get_extra_info("socket"))
        await self._serve(_name(connection.remote_address), _lines_in(connection), send)

    def take_no_more(self) -> None:
        """Takes no connection from now on."""
        self._is_closing = True

    async def close(self) -> None:
        """Ends all connections when what waits for them is sent, or after a while."""
        self.take_no_more()
        for peer in tuple(self._hub.peers):
            peer.end("the server ends")
        if self._tasks:
            await asyncio.wait(self._tasks, timeout=LAST_SECONDS)
        for task in self._tasks:
            task.cancel()

    async def _serve(self, name: str, lines: Lines, send: Send) -> None:
        if len(self._hub.peers) >= self._most or self._is_closing:
            with contextlib.suppress(Exception):
                await send(told("closed", "the server takes no more clients"))
            return
        peer = Peer(name, self._gate, self._turns.give)
        task = asyncio.current_task()
        assert task is not None
        self._tasks.add(task)
        self._hub.peers.add(peer)
        try:
            peer.tell(told("fleet", VERSION, self._greeting() if peer.is_allowed else "token"))
            await self._talk(peer, lines, send)
        finally:
            self._hub.leave(peer)
            self._tasks.discard(task)
            peer.lose("it is gone")

    async def _talk(self, peer: Peer, lines: Lines, send: Send) -> None:
        """Reads and sends until the client is gone or lost, or all is sent after its last line."""
        sending = peer.start_sending(send)
        reading = asyncio.create_task(_read(peer, lines))
        try:
            await asyncio.wait({reading, sending}, return_when=asyncio.FIRST_COMPLETED)
            if reading.done() and not sending.done():
                peer.end(reading.result())
                await asyncio.wait({sending})
        finally:
            reading.cancel()
            sending.cancel()
            with contextlib.suppress(asyncio.CancelledError):
                await asyncio.gather(reading, sending, return_exceptions=True)
        if peer.lost_for:
            _LOGGER.info("%s lost its connection: %s", peer.name, peer.lost_for)


async def _read(peer: Peer, lines: Lines) -> str:
    """Takes the client's lines to their end, waits until they are answered, and gives why the connection must end."""
    try:
        if not peer.is_allowed:
            try:
                async with asyncio.timeout(ALLOW_SECONDS):
                    if not await _take_first(peer, lines):
                        return "the token is wrong"
            except TimeoutError:
                return "no token was given"
        async for line in lines:
            if not await peer.take(line):
                break
    except Hostile as error:
        _LOGGER.info("%s sent %s", peer.name, error)
        await peer.answered()
        return f"the client sent {error}"
    except OSError:
        return ""
    await peer.answered()
    return ""


async def _take_first(peer: Peer, lines: Lines) -> bool:
    async for line in lines:
        return await peer.take(line)
    return False


async def _lines_of(reader: asyncio.StreamReader) -> Lines:
    """The lines that end with a line feed. What stands after the last one may be cut off, and is no line."""
    rest = b""
    while piece := await reader.read(PIECE):
        *lines, rest = (rest + piece).split(b"\n")
        for line in lines:
            yield line
        if len(rest) > MOST_LINE_BYTES + 1:
            raise Hostile(f"a line of more than {MOST_LINE_BYTES} bytes")


async def _lines_in(connection: "WebSocketServerProtocol") -> Lines:
    """The lines of the messages of a WebSocket."""
    from websockets.exceptions import ConnectionClosed

    try:
        async for message in connection:
            piece = message.encode() if isinstance(message, str) else message
            for line in piece.removesuffix(b"\n").split(b"\n"):
                yield line
    except ConnectionClosed:
        return


def _set_options(connection: socket.socket) -> None:
    """Lets the system hold little that a client doesn't take, and find out that one is gone which says nothing."""
    connection.setsockopt(socket.SOL_SOCKET, socket.SO_SNDBUF, _SYSTEM_BYTES)
    connection.setsockopt(socket.SOL_SOCKET, socket.SO_KEEPALIVE, 1)


def _name(address: object) -> str:
    return ":".join(map(str, address[:2])) if isinstance(address, tuple) else str(address)
