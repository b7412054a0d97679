"""Connections that never become a WebSocket."""

import asyncio

import pytest
from websockets.client import connect

from fleet import sockets
from fleet.waiting import first_of, in_thread
from servers import WAIT


def test_a_connection_that_is_no_websocket_in_time_is_lost(monkeypatch: pytest.MonkeyPatch) -> None:
    monkeypatch.setattr(sockets, "HANDSHAKE_SECONDS", 0.01)

    async def run() -> bytes:
        async with asyncio.timeout(WAIT), sockets.websockets_on(lambda _: asyncio.sleep(0), "127.0.0.1", 0) as server:
            reader, writer = await asyncio.open_connection(*next(iter(server.sockets)).getsockname())
            writer.write(b"GET / HTTP/1.1\r\n")
            try:
                return await reader.read()
            finally:
                writer.close()

    assert asyncio.run(run()).startswith(b"HTTP/1.1 408 ")


def test_a_page_that_never_closes_is_cut_off() -> None:
    async def run() -> None:
        stays = asyncio.Event()
        async with asyncio.timeout(WAIT):
            async with sockets.websockets_on(lambda _: stays.wait(), "127.0.0.1", 0) as server:
                host, port = next(iter(server.sockets)).getsockname()
                connection = await connect(f"ws://{host}:{port}")
                connection.transport.pause_reading()
            connection.transport.abort()

    asyncio.run(run())


def test_what_is_waited_for_ends() -> None:
    events = []

    async def long() -> None:
        try:
            await asyncio.sleep(WAIT)
        finally:
            events.append("ended")

    async def fails() -> None:
        await in_thread(lambda: events.append("in a thread"))
        raise ZeroDivisionError

    async def run() -> None:
        await first_of(long(), asyncio.sleep(0))
        with pytest.raises(ZeroDivisionError):
            await first_of(long(), fails())
        with pytest.raises(KeyError):
            await in_thread(lambda: {}["nothing"])

    asyncio.run(run())
    assert events == ["ended", "in a thread", "ended"]
