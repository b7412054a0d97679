"""`fleet look live`: the page of a running server, on this machine alone.

The log of a server has all that it has accepted. Its commands come from the server or from its folder, and are run here by
a program of its own; a page is told of what changes over a WebSocket.
"""

import argparse
import asyncio
import contextlib
import json
import logging
import signal
from functools import partial
from http import HTTPStatus
from pathlib import Path
from typing import TYPE_CHECKING

from fleet.client import Ended
from fleet.look.changing import Changing
from fleet.look.options import MOST_TICKS, add_ways
from fleet.look.page import SCRIPTS, Parts, page
from fleet.look.play import AHEAD, TRAIL
from fleet.look.sources import AGAIN_SECONDS, LIVE, SERVER, FolderSource, ServerSource, Source
from fleet.options import port, whole
from fleet.program import add_program_argument
from fleet.serve.gate import token_of
from fleet.sockets import websockets_on
from fleet.waiting import first_of, in_thread

if TYPE_CHECKING:
    from websockets.datastructures import Headers
    from websockets.server import WebSocketServerProtocol

    Response = tuple[HTTPStatus, list[tuple[str, str]], bytes]

DESCRIPTION = """
Serves the page in which a session plays for a server that runs: it shows the present, and goes on as the server does. LOG
is the address of the server's WebSocket, as ws://127.0.0.1:7172, or the folder of its log on this machine, which is read
then and the server asked for nothing. A program of its own runs the commands. The page is for this machine alone; SIGINT
and SIGTERM end it.
"""
DEFAULT_PORT = 8170
KEEP = 600
HOST = "127.0.0.1"
_PATH = "/live"
_MOST_WAITING = 256
"""The most messages that wait for a page that takes them slowly; one for which more would has to begin anew."""
_SOME = 10_000
"""How many commands are taken at once at the start."""

_LOGGER = logging.getLogger("fleet.look")


def add_arguments(parser: argparse.ArgumentParser) -> None:
    """Adds the options of the word."""
    parser.description = DESCRIPTION
    parser.add_argument(
        "log", metavar="LOG",
        help="ws://HOST:PORT, as `fleet serve --ws-port` tells it, or the folder of the log, as its --log names it",
    )  # fmt: skip
    parser.add_argument("--token", metavar="FILE", type=Path, help="the file with the token that the server asks for")
    parser.add_argument(
        "--port", metavar="NUMBER", type=port, default=DEFAULT_PORT,
        help=f"the port of the page ({DEFAULT_PORT}); 0 takes a free one",
    )  # fmt: skip
    parser.add_argument(
        "--keep", metavar="TICKS", type=whole(1, MOST_TICKS), default=KEEP,
        help=f"how many past ticks the page has ({KEEP})",
    )  # fmt: skip
    add_ways(parser, ahead=TRAIL, back=TRAIL)
    add_program_argument(parser)


def main(arguments: argparse.Namespace) -> int:
    """Serves the page until a signal ends it, and gives the exit status."""
    import websockets  # noqa: F401  (that it is missing is told before anything is begun)

    logging.basicConfig(format="fleet look live: %(message)s")
    logging.getLogger("websockets").setLevel(logging.CRITICAL)
    asyncio.run(_Live(arguments).run())
    return 0


class _Live:
    """Follows the log, and tells the pages that are open of its changes."""

    def __init__(self, arguments: argparse.Namespace) -> None:
        self._arguments = arguments
        self._source = self._source_of(arguments)
        self._changing = self._fresh()
        self._state = LIVE
        # held while commands are taken, and while a page gets all that is there
        self._lock = asyncio.Lock()
        self._pages: set[asyncio.Queue[str]] = set()
        self._page = b""
        self._hosts: set[str] = set()

    def _source_of(self, arguments: argparse.Namespace) -> Source:
        if not arguments.log.startswith(SERVER):
            return FolderSource(Path(arguments.log))
        token = "" if arguments.token is None else token_of(arguments.token).decode()
        return ServerSource(arguments.log, token, self._say)

    def _fresh(self) -> Changing:
        arguments = self._arguments
        return Changing(arguments.program, arguments.keep, AHEAD, arguments.back, arguments.ahead)

    async def run(self) -> None:
        """Serves until a signal asks it to end. Raises FleetError and OSError where it can't go on."""
        stop = asyncio.Event()
        for each in (signal.SIGTERM, signal.SIGINT):
            asyncio.get_running_loop().add_signal_handler(each, stop.set)
        try:
            await first_of(stop.wait(), self._serve())
        finally:
            # A thread that waits for the program comes to an end by this; nothing starts another one any more.
            self._changing.interrupt()

    async def _serve(self) -> None:
        try:
            await self._show()
        finally:
            self._source.close()

    async def _show(self) -> None:
        await self._take_all(await self._source.begin())
        async with websockets_on(
            self._talk, HOST, self._arguments.port, process_request=self._request, max_size=1024
        ) as server:
            port = next(iter(server.sockets)).getsockname()[1]
            self._hosts = {f"{HOST}:{port}", f"localhost:{port}"}
            self._page = _page(self._source.name, self._hosts)
            print(f"live on http://{HOST}:{port}/", flush=True)
            await self._follow()

    async def _request(self, path: str, headers: "Headers") -> "Response | None":
        """Answers what is no WebSocket of the page itself."""
        if headers.get("Host") not in self._hosts:
            return HTTPStatus.FORBIDDEN, [], b"the page is for this machine alone\n"
        if path == "/":
            head = [("Content-Type", "text/html; charset=utf-8"), ("Cache-Control", "no-store")]
            return HTTPStatus.OK, head, self._page
        if path != _PATH:
            return HTTPStatus.NOT_FOUND, [], b"there is nothing here\n"
        if headers.get("Origin", "").removeprefix("http://") not in self._hosts:
            return HTTPStatus.FORBIDDEN, [], b"another page may not look at this\n"
        return None

    async def _talk(self, connection: "WebSocketServerProtocol") -> None:
        """Sends a page all that is there, and then what changes, until it goes. One that takes it too slowly loses its
        connection."""
        waiting: asyncio.Queue[str] = asyncio.Queue(_MOST_WAITING)
        async with self._lock:
            waiting.put_nowait(await in_thread(self._whole))
            waiting.put_nowait(_text("state", self._state))
            self._pages.add(waiting)
        try:
            await first_of(connection.wait_closed(), self._send(connection, waiting))
        finally:
            self._pages.discard(waiting)

    async def _send(self, connection: "WebSocketServerProtocol", waiting: asyncio.Queue[str]) -> None:
        from websockets.exceptions import ConnectionClosed

        with contextlib.suppress(ConnectionClosed):
            while waiting in self._pages:
                await connection.send(await waiting.get())

    async def _follow(self) -> None:
        """Takes what is added, again and again, and begins anew where there is another log or the program has ended."""
        while True:
            commands = await self._source.more()
            if commands is None or not await self._take(commands):
                await self._start_over()

    async def _take(self, commands: list[bytes]) -> bool:
        """Takes commands that were added, and tells the pages of them; not where the program ends."""
        async with self._lock:
            try:
                self._tell(_text("update", await in_thread(partial(self._changing.take, commands))))
            except Ended as error:
                _LOGGER.warning("%s; another goes on from the log", error)
                return False
            return True

    async def _start_over(self) -> None:
        """Begins anew with the log that is there, as often as it takes."""
        while True:
            commands = await self._source.begin()
            async with self._lock:
                self._changing.close()
                self._changing = self._fresh()
                try:
                    await self._take_all(commands)
                except Ended as error:
                    _LOGGER.warning("%s; another begins anew", error)
                else:
                    self._say(LIVE)
                    self._tell(await in_thread(self._whole))
                    return
            await asyncio.sleep(AGAIN_SECONDS)

    def _say(self, state: str) -> None:
        """Tells the pages whether the server is there."""
        if state != self._state:
            self._state = state
            self._tell(_text("state", state))

    def _tell(self, text: str) -> None:
        for waiting in tuple(self._pages):
            if waiting.full():
                self._pages.discard(waiting)
            else:
                waiting.put_nowait(text)

    def _whole(self) -> str:
        return _text("whole", self._changing.whole())

    async def _take_all(self, commands: list[bytes]) -> None:
        """Takes all commands that are there, some at a time. Raises FleetError."""
        for at in range(0, len(commands), _SOME):
            await in_thread(partial(self._changing.take, commands[at : at + _SOME]))


def _page(name: str, hosts: set[str]) -> bytes:
    sources = " ".join(sorted(f"ws://{host}" for host in hosts))
    parts = Parts((*SCRIPTS, "live.js"), sources={"connect-src": sources})
    return page(name, LIVE, {}, parts).encode()


def _text(kind: str, told: object) -> str:
    return json.dumps({kind: told}, separators=(",", ":"))
