"""The server as a whole: its start, what it tells at it, and its end."""

import argparse
import asyncio
import contextlib
import logging
import signal
import socket
import sys
from collections.abc import AsyncIterator, Awaitable, Iterable
from pathlib import Path
from typing import TYPE_CHECKING

from fleet import __version__
from fleet.brokers.options import broker_of
from fleet.errors import FleetError
from fleet.program import find_program
from fleet.roll import loaded_clock
from fleet.serve.clock import Clock
from fleet.serve.connections import Connections
from fleet.serve.decisions import Decisions
from fleet.serve.engine import Engine, Settings
from fleet.serve.gate import Gate, check_host, gate_of
from fleet.serve.hub import Hub
from fleet.serve.log import Log
from fleet.serve.process import ProgramEnded
from fleet.serve.runner import Runner
from fleet.serve.thread import Thread
from fleet.serve.turns import Turns
from fleet.serve.wire import MOST_LINE_BYTES, told
from fleet.serve.words import Words, log_status
from fleet.session_text import entries
from fleet.sockets import websockets_on
from fleet.streams.options import address_of
from fleet.waiting import ended
from fleet.ways.planes import comment, plane_of_file

if TYPE_CHECKING:
    from fleet.brokers.bridge import Bridge
    from fleet.streams.serving import Streaming

_MESSAGE_BYTES = 1 << 16
"""The most bytes of a message over WebSocket."""
_PING_SECONDS = 20.0
_LAST_SECONDS = 5.0
"""How long the server may take to end beside a line that is being carried out: what isn't done by then has no reply."""

_LOGGER = logging.getLogger("fleet.serve")


class CannotServe(FleetError):
    """The options can't be had together, or with what is there."""

    exit_status = 2


def main(arguments: argparse.Namespace) -> int:
    """Serves until it is told to end, and gives the exit status."""
    logging.basicConfig(stream=sys.stderr, level=logging.INFO, format="fleet serve: %(message)s")
    logging.getLogger("websockets").setLevel(logging.CRITICAL)
    logging.getLogger("asyncio").setLevel(logging.ERROR)
    # That a package is missing is told before anything is begun.
    if arguments.ws_port is not None:
        import websockets  # noqa: F401
    if broker_of(arguments) is not None:
        import fleet.brokers.bridge  # noqa: F401
    if address_of(arguments) is not None:
        import redis  # noqa: F401
    gate, program = gate_of(arguments.token), find_program(arguments.program)
    check_host(arguments.host, gate)
    log, thread = _log_of(arguments), Thread()
    try:
        _open(log, arguments, program)
        asyncio.run(Server(arguments, program, gate, log, thread).run())
    finally:
        thread.close()
        log.close()
    return 0


def _log_of(arguments: argparse.Namespace) -> Log:
    """The log of the folder, or of a stream. Raises FleetError and OSError."""
    address = address_of(arguments)
    if address is None:
        return Log(arguments.log)
    from fleet.streams.serving import joined

    return joined(arguments.log, address, writes=not arguments.follow)


def _streaming_of(log: Log, runner: Runner, thread: Thread, turns: Turns) -> "Streaming | None":
    """What is to be done for a stream; without one nothing is imported."""
    if type(log) is Log:
        return None
    from fleet.streams.serving import streaming_of

    return streaming_of(log, runner, thread, turns)


def _bridge_of(arguments: argparse.Namespace, log: Log, hub: Hub, turns: Turns) -> "Bridge | None":
    """What serves a broker; without one nothing is imported. Raises FleetError and OSError."""
    address = broker_of(arguments)
    if address is None:
        return None
    from fleet.brokers.bridge import Bridge

    return Bridge(arguments, address, log, hub, turns)


def _open(log: Log, arguments: argparse.Namespace, program: Path) -> None:
    """Opens the log of the folder, or begins one."""
    if log.is_there:
        if arguments.session is not None:
            raise CannotServe(f"{log.folder} has a log already, so that none can begin from {arguments.session}")
        cut = log.open()
        if cut:
            _LOGGER.warning("%d bytes that no reply rests on were cut off the end of %s", cut, log.path)
    elif arguments.session is None:
        log.begin([])
    else:
        loaded_clock(arguments.session, program)
        plane = plane_of_file(arguments.session)
        with arguments.session.open("rb") as text:
            log.begin((entry.text for entry in entries(text)), plane=comment(plane).encode() if plane else b"")


class Server:
    """One server."""

    def __init__(
        self, arguments: argparse.Namespace, program: Path, gate: Gate, log: Log, thread: Thread
    ) -> None:
        self._arguments = arguments
        self._log = log
        self._hub = Hub()
        self._turns = Turns()
        folder = arguments.files or log.folder / "files"
        self._runner = Runner(program, folder, log, thread)
        settings = Settings(arguments.patience, arguments.roll_at, arguments.sync == "each")
        decisions = Decisions(log, folder, Words(log, self._hub, self._status))
        self._streaming = _streaming_of(log, self._runner, thread, self._turns)
        follower = self._streaming.follower if self._streaming else None
        decisions.only_reads = follower is not None
        self._engine = Engine(log, self._runner, thread, self._hub, self._turns, decisions, settings, follower)
        self._connections = Connections(self._hub, self._turns, gate, arguments.clients, self._greeting)
        self._bridge = _bridge_of(arguments, log, self._hub, self._turns)
        self._stop = asyncio.Event()

    async def run(self) -> None:
        """Serves until a signal asks it to end. Raises FleetError and OSError where it can't go on."""
        loop = asyncio.get_running_loop()
        for number in (signal.SIGTERM, signal.SIGINT):
            loop.add_signal_handler(number, self._stop.set)
        try:
            starting = asyncio.create_task(self._engine.start())
            await _first_of(self._stop.wait(), starting)
            if starting.done():
                await self._serve()
            else:
                await ended(starting)
        except ProgramEnded as error:
            raise CannotServe(str(error)) from None
        finally:
            self._runner.close()

    async def _serve(self) -> None:
        committing = asyncio.create_task(self._engine.committer.run())
        carrying = asyncio.create_task(self._engine.run())
        ticking = asyncio.create_task(self._tick())
        besides = [asyncio.create_task(each.run()) for each in (self._streaming, self._bridge) if each is not None]
        try:
            async with self._listening():
                try:
                    await _first_of(self._stop.wait(), committing, carrying, *besides)
                finally:
                    self._log.end_soon()
                _LOGGER.info("ending")
                self._connections.take_no_more()
                self._engine.stop()
                with contextlib.suppress(TimeoutError):
                    async with asyncio.timeout(self._arguments.patience + _LAST_SECONDS):
                        await _first_of(carrying, committing)
                await self._connections.close()
        finally:
            await ended(ticking, carrying, committing, *besides)
            await self._connections.close()
            await self._engine.close()

    @contextlib.asynccontextmanager
    async def _listening(self) -> AsyncIterator[None]:
        """Takes connections, and tells on standard output where and how it serves."""
        arguments = self._arguments
        async with contextlib.AsyncExitStack() as stack:
            lines = await asyncio.start_server(
                self._connections.take_lines, arguments.host, arguments.port, limit=MOST_LINE_BYTES
            )
            stack.callback(lines.close)
            told_lines = [f"fleet serve {__version__}", f"lines on {_address(lines.sockets)}"]
            if arguments.ws_port is not None:
                sockets = await stack.enter_async_context(
                    websockets_on(
                        self._connections.take_websocket, arguments.host, arguments.ws_port,
                        origins=[None, *arguments.origin], max_size=_MESSAGE_BYTES,
                        ping_interval=_PING_SECONDS, ping_timeout=_PING_SECONDS, write_limit=0,
                    )
                )  # fmt: skip
                told_lines.append(f"WebSocket on {_address(sockets.sockets)}")
            print("\n".join(told_lines + self._told()), flush=True)
            yield

    def _told(self) -> list[str]:
        arguments = self._arguments
        sync = "each line synced by itself" if arguments.sync == "each" else "lines synced in groups"
        tick = f"a tick each {arguments.tick:g} seconds" if arguments.tick else "ticks by clients alone"
        told_besides = [each.told() for each in (self._streaming, self._bridge) if each is not None]
        return [
            f"log {self._log.path}: {self._log.entries} entries, at tick {self._engine.known.clock}, {sync}",
            f"patience {arguments.patience:g} seconds, {tick}",
            *told_besides,
        ]

    def _greeting(self) -> str:
        return f"clock {self._engine.known.clock} patience {self._arguments.patience:g}"

    def _status(self) -> dict[str, object]:
        """What `:status` tells."""
        told_of_server = {"clock": self._engine.known.clock, "clients": len(self._hub.peers)}
        return told_of_server | log_status(self._log) | (self._bridge.status() if self._bridge else {})

    async def _tick(self) -> None:
        """Lets the clock go on, as long as its ticks are accepted."""
        if self._arguments.tick:
            clock = Clock(self._arguments.tick, self._turns.give)
            await clock.run()
            _LOGGER.error("the clock stands: %s", clock.fault)
            self._hub.tell_all([told("stands", clock.fault)])


async def _first_of(first: Awaitable[object], *others: asyncio.Task[None]) -> None:
    """Waits until one has ended, and raises what a task was ended by."""
    waited = asyncio.ensure_future(first)
    done, _ = await asyncio.wait({waited, *others}, return_when=asyncio.FIRST_COMPLETED)
    if waited not in done:
        waited.cancel()
    for each in done:
        each.result()


def _address(sockets: Iterable[socket.socket]) -> str:
    host, port = next(iter(sockets)).getsockname()[:2]
    return f"{host}:{port}"
