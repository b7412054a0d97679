"""The server's side of a broker: messages become lines of a client, and what that client is told is published."""

import argparse
import asyncio
import contextlib
import json
import logging
import time
from collections import deque
from collections.abc import Iterable
from functools import partial
from typing import Any

from fleet.brokers.client import BrokerClient, Message
from fleet.brokers.options import DEFAULT_TOPIC, BrokerAddress, kept_plane, names_path
from fleet.brokers.payloads import report_of
from fleet.brokers.topics import check_filters, matched
from fleet.csvs import shown
from fleet.errors import FleetError
from fleet.replies import Change, ListedClass, ListedClock, Reply, ReplyReader
from fleet.schema import Schema
from fleet.serve.gate import Gate
from fleet.serve.hub import Hub
from fleet.serve.log import Log
from fleet.serve.peers import Peer
from fleet.serve.turns import Turns
from fleet.session_text import write_whole
from fleet.waiting import ended, in_thread
from fleet.ways.faults import Unfit, Where
from fleet.ways.fields import Columns
from fleet.ways.identifiers import Names
from fleet.ways.live import Line, LiveObjects
from fleet.ways.measures import SECOND
from fleet.ways.projection import Projection
from fleet.ways.reports import Pace
from fleet.ways.tallies import Tally

_AT_ONCE = 100
"""How many messages are read before the server's clients have their turn."""
_LOOK_SECONDS = 0.5
_SHARE = 16
"""How many reports are carried out for one line of each client: they are of many vehicles."""

_LOGGER = logging.getLogger("fleet.serve")


class Unserved(FleetError):
    """The server doesn't serve the broker any more."""


class Bridge:
    """Takes positions from a broker, and publishes changes to it.

    It is a client of the server as any other, so its lines wait as theirs do, and what they change is in the log before
    it is published.
    """

    def __init__(
        self, arguments: argparse.Namespace, address: BrokerAddress, log: Log, hub: Hub, turns: Turns
    ) -> None:
        """Raises FleetError and OSError where the options can't be had."""
        self._address = address
        self._log = log
        self._hub = hub
        self._prefix: str = arguments.publish
        self._filters: list[str] = arguments.topic or [DEFAULT_TOPIC]
        check_filters(self._filters, self._prefix)
        self._columns = Columns.of(arguments)
        self._names = Names(names_path(arguments, log.folder), self._is_taken)
        self._schema = Schema()
        self._tally = Tally(_LOGGER.warning, time.monotonic)
        self._projection = Projection(kept_plane(arguments, log))
        pace = Pace(round(arguments.tick * SECOND) or SECOND, arguments.hold)
        self._objects = LiveObjects(
            self._schema, arguments.class_name, self._names, self._projection, pace, arguments.silent, self._tally
        )
        self._peer = Peer("mqtt", Gate(), turns.give)
        self._peer.share = _SHARE
        self._sent: deque[Line | None] = deque()
        self._reader = ReplyReader()
        self._rest = b""
        self._clock = 0
        self._identifiers: dict[str, str] = {}
        self._early: list[bytes] | None = []
        self._has_rolled = False
        self._changed = asyncio.Event()
        self._client: BrokerClient | None = None

    def told(self) -> str:
        """What is told of the broker at the start."""
        return (
            f"MQTT {self._address}: positions of {' '.join(self._filters)} on {self._projection.plane}, changes to "
            f"{self._prefix}/changes"
        )

    def status(self) -> dict[str, object]:
        """What `:status` tells of it."""
        counts = dict(sorted(self._tally.counts.items()))
        if self._client is not None and self._client.lost:
            counts["lost"] = self._client.lost
        there = "here" if self._client is not None and self._client.is_connected else "away"
        return {"mqtt": f"broker {there}" + "".join(f", {what} {count}" for what, count in counts.items())}

    async def run(self) -> None:
        """Serves the broker until it is cancelled. Raises Unserved."""
        self._client = client = BrokerClient(
            self._address, self._filters, f"{self._prefix}/server", self._changed.set
        )
        self._hub.listeners.append(self._take_accepted)
        self._hub.peers.add(self._peer)
        sending = self._peer.start_sending(self._hear)
        carrying = asyncio.create_task(self._carry(client))
        try:
            await asyncio.wait({carrying, sending}, return_when=asyncio.FIRST_COMPLETED)
            carrying.result() if carrying.done() else sending.result()
            raise Unserved(f"the broker's own client was lost: {self._peer.lost_for}")
        finally:
            self._hub.leave(self._peer)
            self._hub.listeners.remove(self._take_accepted)
            self._peer.lose("the server ends")
            await ended(carrying, sending)
            await in_thread(client.close)

    async def _carry(self, client: BrokerClient) -> None:
        await self._read_log()
        for line in (b":follow *", b":ticks on", b"list"):
            await self._send(line, None)
        client.start()
        while True:
            with contextlib.suppress(TimeoutError):
                async with asyncio.timeout(_LOOK_SECONDS):
                    await self._changed.wait()
            self._changed.clear()
            for message in client.take(_AT_ONCE):
                self._take(message)
            self._objects.look_for_silent(time.monotonic())
            self._tally.look()
            if self._has_rolled:
                self._has_rolled = False
                await self._send(b"list", None)
            await self._send_lines()
            await asyncio.sleep(0)

    async def _read_log(self) -> None:
        """Reads what is there from the log; what is accepted meanwhile follows."""
        schema, has_read = self._schema, False
        while not has_read:
            # A log that is rolled meanwhile is another file.
            with contextlib.suppress(FileNotFoundError):
                await in_thread(partial(_record, schema, self._log.commands_since(0)))
                has_read = True
        early, self._early = self._early or [], None
        for line in early:
            schema.record(line)
        self._objects.await_all(time.monotonic())

    def _take_accepted(self, line: bytes) -> None:
        if self._early is None:
            self._objects.accepted(line)
        else:
            self._early.append(line)

    def _is_taken(self, name: str) -> bool:
        return name in self._schema.objects or name in self._schema.regions

    # from the broker

    def _take(self, message: Message) -> None:
        """Takes a message, or tells why it can't be taken."""
        where = Where(shown(message.topic))
        identifiers = (matched(each, message.topic) for each in self._filters)
        identifier = next((each for each in identifiers if each is not None), "")
        try:
            report = report_of(message.payload, where, identifier, self._columns, self._objects.its_class())
        except Unfit as unfit:
            self._tally.fault("faulty", f"{where.of(unfit.field)}: fault: {unfit}")
            return
        self._tally.add("taken")
        self._objects.take(report, message.came, time.monotonic())

    async def _send_lines(self) -> None:
        while (line := self._objects.next(time.time_ns() // 1000)) is not None:
            await self._write_names()
            await self._send(line.text.encode(), line)

    async def _write_names(self) -> None:
        """Writes the names of ids before the first line in which they stand."""
        text = self._names.unwritten()
        if not text or self._names.path is None:
            return
        try:
            await in_thread(partial(write_whole, self._names.path, [text]))
        except OSError as error:
            self._names.set_unwritten()
            self._tally.fault("unwritten", f"{self._names.path} can't be written: {error.strerror}")

    async def _send(self, text: bytes, line: Line | None) -> None:
        """Sends a line of the server's protocol; without a Line it is one of the bridge's own."""
        self._sent.append(line)
        await self._peer.take(text)

    # to the broker

    async def _hear(self, block: bytes) -> None:
        """Takes what the server sends to its client."""
        for text in block.decode("ascii", "replace").splitlines():
            if text.startswith("* "):
                self._take_told(text.removeprefix("* "))
            elif reply := self._reader.feed(text):
                self._take_reply(reply)
        self._changed.set()

    def _take_reply(self, reply: Reply) -> None:
        line = self._sent.popleft()
        for record in reply.records:
            match record:
                case ListedClock(tick=clock):
                    self._clock = clock
                case ListedClass(name=name, names=count):
                    self._objects.count_names(name, count)
                case Change():
                    self._publish_change(record, self._clock)
        if line is None:
            return
        if self._objects.replied(line, str(reply.refusal or "")):
            told = {"kind": "silent", "object": line.text.split()[-1], "id": line.identifier, "tick": self._clock}
            self._publish(f"{self._prefix}/silent", told)

    def _take_told(self, text: str) -> None:
        """Takes a line that is the server's own."""
        first, _, rest = text.partition(" ")
        self._has_rolled |= first == "rolled"
        if not first.isdecimal():
            return
        tick = self._clock = int(first)
        match rest.split():
            case ["tick"]:
                pass
            case ["watch" | "keep" as kind, query, span]:
                entry, expiry = map(int, span.split(".."))
                told = {"kind": kind, "query": query, "entry": entry, "expiry": expiry, "tick": tick}
                self._publish(f"{self._prefix}/changes/{query}", told)
            case ["drop" | "expired" as kind, query]:
                self._publish(f"{self._prefix}/changes/{query}", {"kind": kind, "query": query, "tick": tick})
            case _:
                reader = ReplyReader()
                reader.feed(rest)
                reply = reader.feed("ok")
                assert reply is not None
                for record in reply.records:
                    if isinstance(record, Change):
                        self._publish_change(record, tick)

    def _publish_change(self, change: Change, tick: int) -> None:
        told = change.json() | {"ids": [self._identifier(name) for name in change.objects], "tick": tick}
        self._publish(f"{self._prefix}/changes/{change.query}", told)

    def _identifier(self, name: str) -> str:
        """The id of an object: its name, where it has no other."""
        if len(self._identifiers) != self._names.added:
            self._identifiers = self._names.identifiers()
        return self._identifiers.get(name, name)

    def _publish(self, topic: str, told: dict[str, Any]) -> None:
        assert self._client is not None
        payload = json.dumps(told, ensure_ascii=False, separators=(",", ":"))
        if self._client.publish(topic, payload.encode("utf-8", "replace")):
            self._tally.add("published")
        else:
            self._tally.fault("unpublished", f"{topic}: too much waits for the broker: {payload}")


def _record(schema: Schema, commands: Iterable[bytes]) -> None:
    for command in commands:
        schema.record(command)
