"""Servers of WebSocket that end soon, whatever is connected to them."""

import asyncio
import contextlib
from collections.abc import AsyncIterator, Awaitable, Callable
from http import HTTPStatus
from typing import TYPE_CHECKING, Any

if TYPE_CHECKING:
    from websockets.datastructures import Headers
    from websockets.server import WebSocketServer, WebSocketServerProtocol

HANDSHAKE_SECONDS = 10.0
"""How long a connection may take to become a WebSocket."""
_LAST_SECONDS = 2.0
"""How long connections may take to close when the server ends."""


@contextlib.asynccontextmanager
async def websockets_on(
    talk: "Callable[[WebSocketServerProtocol], Awaitable[None]]", host: str, port: int, **options: Any
) -> "AsyncIterator[WebSocketServer]":
    """Takes WebSockets while the block runs, each of which `talk` serves; the options are those of `websockets`.

    Browsers open connections in advance that they may never use: one that is no WebSocket in time loses its connection,
    and the end waits for none.
    """
    from websockets.exceptions import AbortHandshake
    from websockets.server import WebSocketServerProtocol, serve

    class Hasty(WebSocketServerProtocol):
        async def read_http_request(self) -> "tuple[str, Headers]":
            try:
                async with asyncio.timeout(HANDSHAKE_SECONDS):
                    return await super().read_http_request()
            except TimeoutError:
                raise AbortHandshake(HTTPStatus.REQUEST_TIMEOUT, [], b"it takes too long\n") from None

    server = await serve(talk, host, port, create_protocol=Hasty, compression=None, close_timeout=1, **options)
    try:
        yield server
    finally:
        await _close(server)


async def _close(server: "WebSocketServer") -> None:
    """Closes the connections, and cuts off those that can't be closed in time."""
    for each in tuple(server.websockets):
        if not each.open:
            each.transport.abort()
    server.close()
    with contextlib.suppress(TimeoutError):
        async with asyncio.timeout(_LAST_SECONDS):
            await server.wait_closed()
    for each in tuple(server.websockets):
        each.transport.abort()
