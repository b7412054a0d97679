"""Where a page that goes on has its commands from: the folder of a log, or a server over its WebSocket."""

import asyncio
import contextlib
import re
from collections import deque
from collections.abc import Callable, Iterator
from pathlib import Path
from typing import TYPE_CHECKING, Protocol

from fleet.errors import FleetError
from fleet.look.follow import Follower
from fleet.waiting import in_thread

if TYPE_CHECKING:
    from websockets.client import WebSocketClientProtocol

LOOK_SECONDS = 0.2
"""How often a folder is looked at."""
LIVE, GONE = "live", "the server is gone, and tried again"
"""What a page says of its server."""
AGAIN_SECONDS = 1.0
"""How long it is waited before a server that is gone is tried again."""
SERVER = "ws://"
"""What the address of a server begins with."""
_ADDRESS = re.compile(rf"{SERVER}((?:\[[0-9A-Fa-f:.]+\]|[^/\s:\[\]]+)(?::[0-9]{{1,5}})?)/?")
_GREETING = re.compile(r"\* fleet 1 .*")
_LOG = re.compile(r"\* log (log-[0-9]{8}) ([0-9]+) ([0-9]+)")
_COMMAND = "* command "


class NoServer(FleetError):
    """The server can't be reached, or is none that tells of its log."""


class Source(Protocol):
    """Commands that are there, and those that are added."""

    name: str

    async def begin(self) -> list[bytes]:
        """All commands that are there; those that are added then follow them. Raises FleetError."""

    async def more(self) -> list[bytes] | None:
        """The next commands, when some are there; None where all begins anew, by `begin`. Raises FleetError."""

    def close(self) -> None:
        """Lets go of what it has."""


class FolderSource:
    """The log in a folder. It is read, and its server is asked for nothing."""

    def __init__(self, folder: Path) -> None:
        """Raises NoLog."""
        self.name = folder.name
        self._follower = Follower(folder)

    async def begin(self) -> list[bytes]:
        self._follower.start_over()
        return await in_thread(self._follower.more)

    async def more(self) -> list[bytes] | None:
        while True:
            await asyncio.sleep(LOOK_SECONDS)
            found = await in_thread(self._look)
            if found != []:
                return found

    def close(self) -> None:
        pass

    def _look(self) -> list[bytes] | None:
        return None if self._follower.has_other else self._follower.more()


class ServerSource:
    """A server, which tells of its log over its WebSocket. Where it goes away it is tried again and again, once it has
    been there; `say` is told of that."""

    def __init__(self, address: str, token: str, say: Callable[[str], None]) -> None:
        """Raises NoServer."""
        match = _ADDRESS.fullmatch(address)
        if match is None:
            raise NoServer(f"{address} is no address of the form ws://HOST:PORT")
        self.name = match.group(1)
        self._address, self._token, self._say = address, token, say
        self._connection: "WebSocketClientProtocol | None" = None
        self._lines: deque[str] = deque()
        self._log = ""
        self._count = 0

    async def begin(self) -> list[bytes]:
        was_there = bool(self._log)
        self._log, self._count = "", 0
        while True:
            try:
                total = await self._connect()
                commands: list[bytes] = []
                while self._count < total:
                    commands += await self._next()
                return commands
            except _Anew:
                pass
            except NoServer:
                if not was_there:
                    raise
                await self._wait_for_it()
            self._log, self._count = "", 0

    async def more(self) -> list[bytes] | None:
        while True:
            try:
                if self._connection is None:
                    log, count = self._log, self._count
                    await self._connect()
                    if (self._log, self._count) != (log, count):
                        return None
                    self._say(LIVE)
                return await self._next()
            except _Anew:
                return None
            except NoServer:
                await self._wait_for_it()

    def close(self) -> None:
        if self._connection is not None:
            self._connection.transport.abort()
            self._connection = None

    async def _wait_for_it(self) -> None:
        self.close()
        self._say(GONE)
        await asyncio.sleep(AGAIN_SECONDS)

    async def _connect(self) -> int:
        """Asks a server for the commands that aren't there yet, and gives how many its log has. Raises NoServer."""
        from websockets.client import connect
        from websockets.exceptions import WebSocketException

        self.close()
        self._lines.clear()
        try:
            self._connection = await connect(self._address, compression=None, max_size=None, close_timeout=1)
        except (OSError, TimeoutError, ValueError, WebSocketException) as error:
            raise NoServer(f"{self._address} can't be reached: {error}") from None
        greeting = await self._line()
        if not _GREETING.fullmatch(greeting):
            raise NoServer(f"{self._address} is no server of fleet, or one of another version: {greeting[:100]}")
        if greeting == "* fleet 1 token":
            await self._ask(f":token {self._token}" if self._token else ":token", "it needs the token of --token")
        await self._ask(f":log {self._log} {self._count}" if self._log else ":log", "it doesn't tell of its log")
        return self._begin(await self._line())

    async def _ask(self, line: str, fault: str) -> None:
        assert self._connection is not None
        with contextlib.suppress(Exception):
            await self._connection.send(line)
        if (reply := await self._line()) != "ok":
            raise NoServer(f"{self._address}: {fault}: {reply[:100]}")

    def _begin(self, line: str) -> int:
        match = _LOG.fullmatch(line)
        if match is None:
            raise NoServer(f"{self._address} doesn't tell of its log: {line[:100]}")
        self._log, self._count = match.group(1), int(match.group(2))
        return int(match.group(3))

    async def _line(self) -> str:
        """The next line. Raises NoServer."""
        while not self._lines:
            await self._receive()
        return self._lines.popleft()

    async def _next(self) -> list[bytes]:
        """The next commands, some. Raises NoServer, and _Anew where another log begins."""
        while True:
            while not self._lines:
                await self._receive()
            commands = list(self._taken())
            if commands:
                return commands
            if self._lines:
                raise _Anew

    def _taken(self) -> Iterator[bytes]:
        """Takes the commands of the lines that are there, up to where another log begins."""
        while self._lines and not _LOG.fullmatch(self._lines[0]):
            line = self._lines.popleft()
            if line.startswith(_COMMAND):
                self._count += 1
                yield line.removeprefix(_COMMAND).encode()

    async def _receive(self) -> None:
        from websockets.exceptions import ConnectionClosed

        assert self._connection is not None
        try:
            message = await self._connection.recv()
        except ConnectionClosed as error:
            raise NoServer(f"{self._address} has closed the connection: {error}") from None
        text = message if isinstance(message, str) else message.decode("utf-8", "replace")
        self._lines += text.split("\n")


class _Anew(Exception):
    """Another log begins."""
