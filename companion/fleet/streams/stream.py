"""A stream of Redis that is the log of several servers. Needs python3-redis.

    KEY          the stream: entry N of log L has the id L-N
                     lines   the text of the records that were written at once
                     head    in place of that in entry 0: the key of the text with which the log begins
                     chain   the chain of the entry
    KEY:pen      the number of the pen. Each server that comes to write takes the next one, and lines are taken of the
                 last one alone
    KEY:holder   who has the pen. It lapses where it isn't renewed, and no other takes the pen before
    KEY:heads    the keys of the texts with which logs begin, by log and pen
"""

import contextlib
import time
from collections.abc import Iterable, Iterator, Mapping
from dataclasses import dataclass
from enum import Enum
from threading import Event
from typing import Any

import redis
from redis.exceptions import ConnectionError as Disconnected
from redis.exceptions import ReadOnlyError, RedisError, ResponseError
from redis.exceptions import TimeoutError as TooLate

from fleet.errors import FleetError
from fleet.serve.log import LogUnsure
from fleet.streams.options import Address
from fleet.streams.positions import Position

HOLD_MILLISECONDS = 15_000
"""How long the pen is held by a server that says nothing."""
MOST_ENTRIES = 200
"""How many entries are read at once."""
PIECE = 1 << 20
"""The bytes of a piece of the text with which a log begins."""
_SECONDS = 5.0
"""How long Redis may take for one answer."""

_AWAY = (Disconnected, TooLate, ReadOnlyError)
_FULL = ("OOM ", "MISCONF ", "NOREPLICAS ")
"""How the errors begin with which Redis says that it takes nothing now."""

_TAKE = """
local holder = redis.call('GET', KEYS[2])
if holder and holder ~= ARGV[1] then return {0, holder} end
local pen = math.max(tonumber(redis.call('GET', KEYS[1]) or '0'), tonumber(ARGV[2])) + 1
redis.call('SET', KEYS[1], string.format('%.0f', pen))
redis.call('SET', KEYS[2], ARGV[1], 'PX', ARGV[3])
return {pen, ARGV[1]}
"""
_RENEW = """
local pen = redis.call('GET', KEYS[1]) or '0'
if pen ~= ARGV[1] then return tonumber(pen) end
redis.call('SET', KEYS[2], ARGV[2], 'PX', ARGV[3])
return tonumber(pen)
"""
_RELEASE = """
if redis.call('GET', KEYS[1]) == ARGV[1] then redis.call('DEL', KEYS[2]) end
return 1
"""
_APPEND = """
local pen = redis.call('GET', KEYS[2]) or '0'
if pen ~= ARGV[1] then return {'pen', pen, ''} end
local last = redis.call('XREVRANGE', KEYS[1], '+', '-', 'COUNT', 1)[1]
local id, chain = '', ''
if last then
  id = last[1]
  for i = 1, #last[2], 2 do if last[2][i] == 'chain' then chain = last[2][i + 1] end end
end
if id ~= ARGV[2] or chain ~= ARGV[3] then return {'last', id, chain} end
redis.call('XADD', KEYS[1], ARGV[4], 'chain', ARGV[5], ARGV[6], ARGV[7])
if ARGV[8] ~= '' then redis.call('XTRIM', KEYS[1], 'MINID', ARGV[8]) end
return {'ok', '', ''}
"""


class StreamAway(Exception):
    """Redis can't be reached, or isn't the primary. What it was asked for may have been done or not."""


class StreamFull(Exception):
    """Redis takes nothing now, and has done nothing of what it was asked for."""


class PenTaken(FleetError):
    """Another server writes to the stream."""


class NoStream(FleetError):
    """The stream can't be reached, or hasn't what it should have."""


@dataclass(frozen=True, slots=True)
class Entry:
    """An entry: its place when all of it is taken, the lines of its records, or the key of those with which a log
    begins."""

    log: int
    number: int
    chain: str
    lines: bytes
    head: str = ""


class Said(Enum):
    """What Redis says to an entry that is to be appended."""

    APPENDED = "ok"
    OTHER_PEN = "pen"
    OTHER_LAST = "last"


@dataclass(frozen=True, slots=True)
class Appended:
    """What came of it; where it wasn't appended the number of the pen, or the last entry's id and chain."""

    said: Said
    pen: int = 0
    last: str = ""
    chain: str = ""


class Stream:
    """The stream, over one connection. One thread at a time may use it.

    Each call raises StreamAway, and where it writes StreamFull.
    """

    def __init__(self, address: Address, *, writes: bool) -> None:
        self.address = address
        self._writes = writes
        self._redis: Any = None
        self.pen = 0
        key = address.key
        self._keys = {name: f"{key}:{name}" for name in ("pen", "holder", "heads")}

    def connect(self) -> None:
        """Connects to the first of the servers that can be had, to write to the primary."""
        faults = []
        for host, port in self.address.servers:
            try:
                self._redis = self._connected(host, port)
                return
            except RedisError as error:
                faults.append(f"{host}:{port}: {error}")
        self._redis = None
        raise StreamAway("; ".join(faults))

    def _connected(self, host: str, port: int) -> Any:
        client = redis.Redis(
            host, port, password=self.address.password, socket_timeout=_SECONDS, socket_connect_timeout=_SECONDS,
            single_connection_client=True,
        )  # fmt: skip
        role = client.execute_command("ROLE")[0]
        if self._writes and role != b"master":
            client.close()
            raise Disconnected("it isn't the primary")
        return client

    def close(self) -> None:
        if self._redis is not None:
            with contextlib.suppress(RedisError, OSError):
                self._redis.close()
            self._redis = None

    def durability(self) -> str:
        """What Redis says of its disk and its copies."""
        info = self._ask(lambda client: client.info("replication"))
        copies = f"{info.get('connected_slaves', 0)} replicas, of which {self.address.replicas} are waited for"
        try:
            told = self._ask(lambda client: client.config_get("append*"))
        except NoStream:
            return f"it doesn't tell of its disk, {copies}"
        if told.get("appendonly") != "yes":
            return f"appendonly no: what Redis has is in memory alone, {copies}"
        return f"appendonly yes, appendfsync {told.get('appendfsync')}, {copies}"

    # reading

    def last(self) -> Entry | None:
        """The last entry; None where there is none."""
        found = self._ask(lambda client: client.xrevrange(self.address.key, count=1))
        return _entry(*found[0]) if found else None

    def entry(self, position: Position) -> Entry | None:
        """The entry of a place; None where there is none, or one with another chain."""
        found = self._ask(lambda client: client.xrange(self.address.key, position.id, position.id))
        entry = _entry(*found[0]) if found else None
        return entry if entry is not None and entry.chain == position.chain else None

    def beginning(self) -> Entry | None:
        """The beginning of the last log; None where there is none."""
        last = self.last()
        if last is None:
            return None
        first = f"{last.log}-0"
        found = self._ask(lambda client: client.xrange(self.address.key, first, first))
        if not found:
            raise NoStream(f"the stream {self.address} has no beginning of its log {last.log}")
        return _entry(*found[0])

    def after(self, position: Position, milliseconds: int | None = None) -> list[Entry]:
        """Some of the entries after a place; where there are none, those that come within so many milliseconds."""
        key = self.address.key
        found = self._ask(lambda client: client.xread({key: position.id}, count=MOST_ENTRIES, block=milliseconds))
        return [_entry(*each) for _, entries in found for each in entries]

    def head(self, entry: Entry) -> Iterator[bytes]:
        """The text with which a log begins, in pieces. Raises NoStream where it isn't there any more."""
        count = self._ask(lambda client: client.llen(entry.head))
        if not count:
            raise NoStream(f"the stream {self.address} hasn't what its log {entry.log} begins with")
        for number in range(count):
            piece = self._ask(lambda client, number=number: client.lindex(entry.head, number))
            if piece is None:
                raise NoStream(f"the stream {self.address} hasn't what its log {entry.log} begins with")
            yield piece

    # writing

    def take_pen(self, holder: str) -> None:
        """Takes the pen. Raises PenTaken where another holds it."""
        pen, other = self._script(_TAKE, ("pen", "holder"), holder, self.pen, HOLD_MILLISECONDS)
        if not pen:
            raise PenTaken(
                f"another server, {other.decode('ascii', 'replace')}, writes to the stream {self.address}; the pen is "
                f"free {HOLD_MILLISECONDS // 1000} seconds after it is gone"
            )
        self.pen = int(pen)

    def renew_pen(self, holder: str) -> int:
        """Says that the pen is still held, and gives its number: another one where it was taken."""
        return int(self._script(_RENEW, ("pen", "holder"), self.pen, holder, HOLD_MILLISECONDS))

    def release_pen(self) -> None:
        """Lets another server take the pen at once."""
        self._script(_RELEASE, ("pen", "holder"), self.pen)

    def append(self, last: Position | None, new: Position, lines: bytes) -> Appended:
        """Appends an entry, where the pen is held and the last entry is that of a place."""
        return self._append(last, new, "lines", lines, "")

    def begin(self, last: Position | None, new: Position, pieces: Iterable[bytes]) -> Appended:
        """Appends the beginning of a log, likewise. Of logs before the last one nothing is kept."""
        head, field = f"{self.address.key}:head:{new.log}:{self.pen}", f"{new.log}:{self.pen}"
        self._ask(lambda client: (client.hset(self._keys["heads"], field, head), client.delete(head)))
        for piece in pieces:
            self._ask(lambda client, piece=piece: client.rpush(head, piece))
        oldest = f"{new.log - 1}-0"
        appended = self._append(last, new, "head", head.encode(), oldest)
        if appended.said is Said.APPENDED:
            self._forget_heads(new.log, field)
        return appended

    def _append(self, last: Position | None, new: Position, field: str, value: bytes, oldest: str) -> Appended:
        before = ("", "") if last is None else (last.id, last.chain)
        said, first, second = self._script(
            _APPEND, ("pen",), self.pen, *before, new.id, new.chain, field, value, oldest, key=self.address.key
        )
        match Said(said.decode()):
            case Said.OTHER_PEN:
                return Appended(Said.OTHER_PEN, pen=int(first))
            case Said.OTHER_LAST:
                return Appended(Said.OTHER_LAST, last=first.decode(), chain=second.decode())
        return Appended(Said.APPENDED)

    def wait(self, milliseconds: int) -> int:
        """Waits until as many replicas as are wanted have all that was written, and gives how many have it."""
        wanted = self.address.replicas
        return int(self._ask(lambda client: client.wait(wanted, milliseconds))) if wanted else 0

    def _forget_heads(self, log: int, field: str) -> None:
        """Removes the texts with which logs before the last one began, and those of logs that never began."""
        heads = self._ask(lambda client: client.hgetall(self._keys["heads"]))
        for name, head in heads.items():
            its_log = int(name.partition(b":")[0])
            if its_log < log - 1 or (its_log == log and name != field.encode()):
                self._ask(lambda client, name=name, head=head: (
                    client.unlink(head), client.hdel(self._keys["heads"], name)
                ))  # fmt: skip

    def _script(self, text: str, names: Iterable[str], *words: Any, key: str | None = None) -> Any:
        keys = ([] if key is None else [key]) + [self._keys[name] for name in names]
        return self._ask(lambda client: client.eval(text, len(keys), *keys, *words))

    def _ask(self, call: Any) -> Any:
        if self._redis is None:
            self.connect()
        try:
            return call(self._redis)
        except _AWAY as error:
            self.close()
            raise StreamAway(str(error)) from None
        except ResponseError as error:
            if str(error).startswith(_FULL):
                raise StreamFull(str(error)) from None
            raise NoStream(f"the stream {self.address} can't be used: {error}") from None
        except RedisError as error:
            self.close()
            raise StreamAway(str(error)) from None


def _entry(name: bytes, fields: Mapping[bytes, bytes]) -> Entry:
    log, number = map(int, name.split(b"-"))
    chain, head = fields.get(b"chain", b"").decode("ascii", "replace"), fields.get(b"head", b"").decode()
    return Entry(log, number, chain, fields.get(b"lines", b""), head)


def patiently(call: Any, seconds: float, ending: Event, what: str) -> Any:
    """Makes a call again while Redis can't be reached, for so many seconds, or until the server ends. Raises
    LogUnsure."""
    end, pause = time.monotonic() + seconds, 0.05
    while True:
        try:
            return call()
        except StreamAway as error:
            if ending.wait(pause) or time.monotonic() > end:
                raise LogUnsure(f"{what}: {error}") from error
        pause = min(2 * pause, 1.0)
