"""Parts of the server by themselves: what is committed before what is passed on, whose turn it is, and rare ends."""

import argparse
import asyncio
import re
import socket
import threading
from collections import deque
from collections.abc import AsyncIterator, Callable, Coroutine
from contextlib import asynccontextmanager
from copy import copy
from pathlib import Path
from typing import cast

import pytest
from servers import LONG_LINE, PATIENCE, WAIT, big_class

from fleet.roll import Rolled
from fleet.serve import connections, engine, renewal, rolling
from fleet.serve.clock import Clock
from fleet.serve.commits import Committer, Done
from fleet.serve.gate import BadGate, Gate, check_host, gate_of
from fleet.serve.log import Log, LogFull, LogUnsure
from fleet.serve.options import add_arguments
from fleet.serve.peers import MOST_WAITING_LINES, Item, Outbox, Peer, _pieces
from fleet.serve.process import Answer, Program
from fleet.serve.records import Record
from fleet.serve.runner import Runner
from fleet.serve.server import Server
from fleet.serve.thread import Thread
from fleet.serve.turns import Turns
from fleet.serve.wire import Hostile, Kind, parsed

OK = Answer(b"ok\n", b"ok")


class Source:
    """A source of lines that keeps what it is replied."""

    share = 1

    def __init__(self, *lines: bytes, is_quick: bool = True) -> None:
        self.waiting = deque(Item(self, Kind.KEPT, line, is_quick) for line in lines)
        self.replies: list[bytes] = []

    def reply(self, block: bytes) -> None:
        self.replies.append(block)


class SlowLog:
    """A log whose commits take until they are let go on."""

    def __init__(self) -> None:
        self.committed: list[list[bytes | None]] = []
        self.begun: list[list[bytes | None]] = []
        self.go_on = threading.Semaphore(0)
        self.fault: Exception | None = None

    def commit(self, records: list[Record]) -> None:
        self.begun.append([record.command for record in records])
        assert self.go_on.acquire(timeout=WAIT)
        if self.fault is not None:
            raise self.fault
        self.committed.append(self.begun[-1])

    def took(self, records: list[Record]) -> None:
        pass


class Jumping(asyncio.SelectorEventLoop):
    """A loop whose time stands while anything can go on, and then jumps to what is due next, by a microsecond at least."""

    _now = 0.0

    def time(self) -> float:
        return self._now

    def _run_once(self) -> None:
        if not self._ready and self._scheduled:  # type: ignore[attr-defined]
            self._now = max(self._now + 1e-6, self._scheduled[0].when())  # type: ignore[attr-defined]
        super()._run_once()  # type: ignore[misc]


def run(
    test: Coroutine[object, object, None], loop: Callable[[], asyncio.AbstractEventLoop] = asyncio.new_event_loop
) -> None:
    async def within() -> None:
        async with asyncio.timeout(WAIT):
            await test

    with asyncio.Runner(loop_factory=loop) as runner:
        runner.run(within())


async def until(holds: Callable[[], bool]) -> None:
    while not holds():
        await asyncio.sleep(0.001)


@asynccontextmanager
async def committing(log: SlowLog, *, each: bool) -> AsyncIterator[tuple[Committer, list[bytes], list[bytes]]]:
    """A committer, what it has passed on, and what it has refused."""
    passed: list[bytes] = []
    refused: list[bytes] = []
    thread = Thread()
    committer = Committer(
        cast(Log, log), thread, lambda done: passed.append(done.item.text), lambda item: refused.append(item.text),
        each=each,
    )  # fmt: skip
    task = asyncio.create_task(committer.run())
    try:
        yield committer, passed, refused
    finally:
        task.cancel()
        log.go_on.release(100)
        thread.close()


def done(line: bytes, *, kept: bool) -> Done:
    item = Item(Source(), Kind.KEPT if kept else Kind.OTHER, line, True)
    return Done(item, OK, record=Record(line) if kept else None)


def test_nothing_is_passed_on_before_its_group_is_committed() -> None:
    async def test() -> None:
        log = SlowLog()
        async with committing(log, each=False) as (committer, passed, _):
            committer.put(done(b"read", kept=False))
            await until(lambda: passed == [b"read"])
            committer.put(done(b"first", kept=True))
            await until(lambda: log.begun == [[b"first"]])
            for line in (b"second", b"third"):
                committer.put(done(line, kept=True))
            committer.put(done(b"read again", kept=False))
            await asyncio.sleep(0.05)
            assert passed == [b"read"] and log.committed == []
            log.go_on.release()
            await until(lambda: passed == [b"read", b"first"])
            await until(lambda: log.begun == [[b"first"], [b"second", b"third"]])
            await asyncio.sleep(0.05)
            assert passed == [b"read", b"first"]
            log.go_on.release()
            await committer.drained()
            assert passed == [b"read", b"first", b"second", b"third", b"read again"]

    run(test())


def test_each_line_is_committed_by_itself_where_that_is_asked_for() -> None:
    async def test() -> None:
        log = SlowLog()
        async with committing(log, each=True) as (committer, passed, _):
            for line, kept in ((b"a", True), (b"read", False), (b"b", True), (b"c", True)):
                committer.put(done(line, kept=kept))
            for count, expected in ((1, [b"a"]), (2, [b"a", b"read", b"b"]), (3, [b"a", b"read", b"b", b"c"])):
                await until(lambda: len(log.begun) == count)
                assert passed == [line for line in expected[:-1] if line != b"read"][: count - 1] or count > 1
                log.go_on.release()
                await until(lambda: passed == expected)
            assert log.committed == [[b"a"], [b"b"], [b"c"]]

    run(test())


def test_what_rests_on_lines_that_are_not_kept_is_refused() -> None:
    async def test() -> None:
        log = SlowLog()
        log.fault = LogFull("full")
        async with committing(log, each=False) as (committer, passed, refused):
            log.go_on.release()
            committer.put(done(b"a", kept=True))
            committer.put(done(b"read", kept=False))
            await committer.drained()
            committer.put(done(b"later", kept=True))
            committer.put(Done(Item(Source(), Kind.WORD, b":status", True), block=b"ok\n"))
            await committer.drained()
            assert (passed, refused) == ([b":status"], [b"a", b"read", b"later"])
            assert str(committer.fault) == "full" and log.begun == [[b"a"]]
            log.fault = None
            committer.mend()
            log.go_on.release()
            committer.put(done(b"again", kept=True))
            await committer.drained()
            assert passed == [b":status", b"again"]

    run(test())


def test_sources_have_their_lines_in_turn() -> None:
    async def test() -> None:
        turns = Turns()
        many, one = Source(*(b"m%d" % i for i in range(5))), Source(b"o")
        turns.give(many)  # type: ignore[arg-type]
        turns.give(one)  # type: ignore[arg-type]
        turns.give(many)  # type: ignore[arg-type]
        assert [item.text for item in await turns.take(3)] == [b"m0", b"o", b"m1"]
        items = await turns.take(2)
        turns.put_back(items)
        turns.give(one)  # type: ignore[arg-type]
        one.waiting.append(Item(one, Kind.OTHER, b"long", False))  # type: ignore[arg-type]
        assert [item.text for item in await turns.take(9)] == [b"m2"]
        assert [item.text for item in await turns.take(9)] == [b"long"]
        assert [item.text for item in await turns.take(9)] == [b"m3", b"m4"]
        turns.wake()
        assert await turns.take(9) == []
        many.waiting.extend(Item(many, Kind.KEPT, line, True) for line in (b"x", b"y"))  # type: ignore[arg-type]
        turns.give(many)  # type: ignore[arg-type]
        assert [item.text for item in turns.take_all()] == [b"x", b"y"] and not many.waiting

    run(test())


def test_a_source_has_its_share_in_its_turn() -> None:
    async def test() -> None:
        turns = Turns()
        many, slow = Source(*(b"m%d" % i for i in range(7))), Source(b"s", b"t", is_quick=False)
        many.share = 3
        turns.give(many)  # type: ignore[arg-type]
        turns.give(slow)  # type: ignore[arg-type]
        taken = [[item.text for item in await turns.take(9)] for _ in range(5)]
        assert taken == [[b"m0", b"m1", b"m2"], [b"s"], [b"m3", b"m4", b"m5"], [b"t"], [b"m6"]]

    run(test())


def test_a_client_has_so_many_lines_that_wait() -> None:
    async def test() -> None:
        peer = Peer("test", Gate(), lambda _: None)
        for _ in range(MOST_WAITING_LINES):
            assert await peer.take(b"list")
        taking = asyncio.create_task(peer.take(b"list"))
        await asyncio.sleep(0.02)
        assert not taking.done() and len(peer.waiting) == MOST_WAITING_LINES
        peer.reply(b"ok\n")
        assert await taking
        with pytest.raises(Hostile):
            await peer.take(b"\xff")

    run(test())


def test_what_waits_to_be_sent_is_counted() -> None:
    async def test() -> None:
        box = Outbox()
        box.put(b"a" * 600_000)
        box.put(b"* t\n", is_reply=False)
        box.put(b"b" * 600_000)
        assert (box.size, box.told_size) == (1_200_004, 4)
        waiting = asyncio.create_task(box.room())
        for expected in (600_000, 4, 600_000):
            assert not waiting.done()
            block = await box.next()
            assert block is not None and len(block) == expected
            await asyncio.sleep(0)
            box.sent(len(block))
            await asyncio.sleep(0)
            if expected != 4:
                assert await box.room() is None
                waiting = asyncio.create_task(asyncio.sleep(WAIT))
        waiting.cancel()
        assert box.told_size == 0
        box.close()
        box.put(b"late")
        assert await box.next() is None

    run(test())


def test_blocks_are_sent_in_pieces_of_whole_lines() -> None:
    line = b"now a : 0..1\n"
    block = line * 20_000
    pieces = _pieces(block)
    assert b"".join(pieces) == block and all(piece.endswith(b"\n") and len(piece) <= 65_536 for piece in pieces)
    long = b"x" * 200_000 + b"\n"
    assert _pieces(line + long + line) == [line, long, line]


def test_the_clock_makes_up_for_ticks() -> None:
    async def test() -> None:
        turns = Turns()
        clock = Clock(1 / 64, turns.give)
        task = asyncio.create_task(clock.run())
        (item,) = await turns.take(9)
        await asyncio.sleep(0.1)
        assert clock.line() == b"tick 7"
        clock.reply(b"refused 104 OutOfPatience\n")
        (item,) = await turns.take(9)
        assert item.source is clock and clock.line() == b"tick 8"
        clock.reply(b"enter w a\nok\n")
        assert clock.line() == b""
        await until(lambda: clock.line() not in (b"", b"tick 1"))
        clock.reply(b"refused 13 ClockEnd\n")
        assert clock.fault == ""
        await until(lambda: clock.line() == b"tick 1")
        clock.reply(b"refused 13 ClockEnd\n")
        await task
        assert clock.fault == "refused 13 ClockEnd"

    run(test(), Jumping)


@pytest.mark.parametrize(
    ("line", "kind", "text", "number"),
    [
        (b"update a\r", Kind.KEPT, b"update a", 0),
        (b"  quit ", Kind.QUIT, b"  quit ", 0),
        (b"quit x", Kind.OTHER, b"quit x", 0),
        (b'save"x"', Kind.FILE, b'save"x"', 0),
        (b'import car "x"', Kind.IMPORT, b'import car "x"', 0),
        (b"\t# x", Kind.SILENT, b"\t# x", 0),
        (b"", Kind.SILENT, b"", 0),
        (b"@12\tdrop w", Kind.KEPT, b"drop w", 12),
        (b"@1000000000000001 list", Kind.WORD, b"@1000000000000001 list", 0),
        (b"@1", Kind.WORD, b"@1", 0),
        (b"* x", Kind.OTHER, b"* x", 0),
        (b":follow *", Kind.WORD, b":follow *", 0),
    ],
)
def test_what_lines_are(line: bytes, kind: Kind, text: bytes, number: int) -> None:
    found = parsed(line)
    assert (found.kind, found.text, found.number) == (kind, text, number)


def test_where_a_token_is_needed(tmp_path: Path) -> None:
    for host in ("127.0.0.1", "127.1.2.3", "::1", "localhost"):
        check_host(host, Gate())
    for host in ("0.0.0.0", "::", "192.0.2.1"):
        check_host(host, Gate(b"a-word-of-24-characters"))
        with pytest.raises(BadGate, match="that needs --token"):
            check_host(host, Gate())
    for text in ("", "short", "a-word-of-24-charactérs", "two words that are long"):
        (tmp_path / "token").write_text(text)
        with pytest.raises(BadGate, match="has no token"):
            gate_of(tmp_path / "token")
    (tmp_path / "token").write_text("  a-word-of-24-characters \n")
    gate = gate_of(tmp_path / "token")
    assert gate.lets_in(b":token a-word-of-24-characters") and not gate.is_open
    assert not gate.lets_in(b":token a-word-of-24-character") and not gate.lets_in(b"a-word-of-24-characters")


def test_a_full_journal_makes_a_roll_due(tmp_path: Path) -> None:
    log = Log(tmp_path)
    log.begin([b"tick 1"] * 100)
    roller = rolling.Roller(log, cast(Runner, None), Thread(), 1_000_000, lambda: None)
    begun: list[Path] = []

    async def work_out(path: Path, _: int) -> None:
        begun.append(path)

    async def test() -> None:
        roller._work_out = work_out  # type: ignore[method-assign, assignment]
        roller.look()
        assert not roller.is_running
        roller.hurry()
        roller.look()
        assert roller.is_running and not roller.must_wait
        await roller.wait()
        assert await roller.take_over(100) is None
        roller.hurry()
        roller.look()
        assert not roller.is_running and begun == [log.path]
        log.begin([b"tick 1"] * 126)
        roller.hurry()
        roller.look()
        assert roller.is_running
        await roller.wait()

    run(test())
    log.close()


def test_what_follows_a_rolled_log_leaves_out_what_is_gone(tmp_path: Path) -> None:
    log = Log(tmp_path)
    log.begin([b"class van 3"])
    size = log.size
    watch = b"watch old 3 RETRIEVE o FROM van o WHERE TRUE"
    for command in (b"tick 1", b"drop old", watch, b"drop  old", b"drop other"):
        log.commit([Record(command)])
    rolled = tmp_path / "rolled"
    rolled.write_bytes(b"class van 9\n")
    told = Rolled(0, 1, 1, {}, ["old"], [])
    assert list(rolling._rolled_and_since(log, size, told, rolled)) == [
        b"class van 9",
        b"tick 1",
        watch,
        b"drop  old",
        b"drop other",
    ]
    rolled.write_bytes(b"")
    with pytest.raises(OSError, match="there are 0 rolled commands, not 1"):
        list(rolling._rolled_and_since(log, size, told, rolled))
    log.close()


class InProcess:
    """A server in the process of the test, and a connection to it."""

    def __init__(self, server: Server, task: "asyncio.Task[None]", told: str) -> None:
        self.server = server
        self.task = task
        self.port = int(re.findall(r"lines on 127.0.0.1:([0-9]+)", told)[0])

    async def connect(self) -> None:
        self.reader, self.writer = await asyncio.open_connection("127.0.0.1", self.port)
        assert (await self.reader.readline()).startswith(b"* fleet")

    async def listed(self) -> bytes:
        """What `list` tells."""
        self.writer.write(b"list\n")
        return await self.reader.readuntil(b"ok\n")

    async def asks(self, *lines: str) -> list[str]:
        """Sends lines and gives the last line of the reply to each."""
        self.writer.write("".join(f"{line}\n" for line in lines).encode())
        ends: list[str] = []
        while len(ends) < len(lines):
            line = (await self.reader.readline()).decode()
            assert line, "the connection has ended"
            if line == "ok\n" or line.startswith("refused"):
                ends.append(line.rstrip())
        return ends


@pytest.fixture
def in_process(
    program: Path, tmp_path: Path, capsys: pytest.CaptureFixture[str]
) -> Callable[..., object]:
    """Runs a server in this process."""

    @asynccontextmanager
    async def begin(*options: str) -> AsyncIterator[InProcess]:
        parser = argparse.ArgumentParser()
        add_arguments(parser)
        arguments = parser.parse_args(["--port", "0", "--log", str(tmp_path / "log"), *options])
        assert arguments.patience == 10
        arguments.patience = PATIENCE
        log, thread = Log(arguments.log), Thread()
        log.begin([])
        server = Server(arguments, program, Gate(), log, thread)
        task = asyncio.create_task(server.run())
        try:
            told = ""
            while "patience" not in told:
                await asyncio.sleep(0.01)
                told += capsys.readouterr().out
                assert not task.done()
            running = InProcess(server, task, told)
            await running.connect()
            yield running
            running.writer.close()
        finally:
            server._stop.set()
            await asyncio.wait([task])
            thread.close()
            log.close()

    return begin


def test_patience_ends_a_line_and_nothing_else(
    in_process: Callable[..., object], monkeypatch: pytest.MonkeyPatch
) -> None:
    answers, watched = Program.answers, LONG_LINE.replace("ask", "watch w")

    def hurried(self: Program, lines: list[bytes], patience: float | None) -> AsyncIterator[Answer]:
        """Has no patience with the lines that take minutes, and much with all others."""
        is_long = lines in ([LONG_LINE.encode()], [watched.encode()])
        return answers(self, lines, 0.1 if is_long else WAIT)

    monkeypatch.setattr(Program, "answers", hurried)

    async def test() -> None:
        async with in_process() as running:  # type: ignore[attr-defined]
            other = copy(running)
            await other.connect()
            assert set(await running.asks(*big_class(), "tick 3")) == {"ok"}
            long = asyncio.create_task(running.asks("tick 1", LONG_LINE, "list"))
            assert await other.asks("update o1 at (1,1)", "tick 2", "list") == ["ok"] * 3
            assert await long == ["ok", "refused 104 OutOfPatience", "ok"]
            assert (await running.listed()).startswith(b"clock 6\n")
            assert await running.asks(":client me", f"@1 {watched}", "@2 tick 1") == ["ok", "refused 104 OutOfPatience", "ok"]
            assert await running.listed() == b"clock 7\nclass big 100/100\nok\n"
            other.writer.close()

    run(test())


def test_a_program_that_has_read_enough_is_started_anew(
    in_process: Callable[..., object], monkeypatch: pytest.MonkeyPatch
) -> None:
    monkeypatch.setattr(engine, "INPUT_LIMIT", (1 << 20) + 20_000)

    async def test() -> None:
        async with in_process() as running:  # type: ignore[attr-defined]
            first = running.server._engine._program
            assert set(await running.asks(*["tick 1"] * 1_000)) == {"ok"}
            assert running.server._engine._program is first
            assert set(await running.asks(*["tick 1                 "] * 1_000)) == {"ok"}
            assert running.server._engine._program is not first
            assert running.server._engine.known.clock == 2_000

    run(test())


def test_a_log_that_has_grown_long_begins_anew(
    in_process: Callable[..., object], monkeypatch: pytest.MonkeyPatch, tmp_path: Path
) -> None:
    monkeypatch.setattr(renewal, "MOST_GROWTH", 20_000)

    async def test() -> None:
        async with in_process() as running:  # type: ignore[attr-defined]
            await running.asks(":client me", "class van 3 point", "insert van a")
            for number in range(1, 4):
                lines = ["update    a      at  (  1 ,  2 )"] * 400
                assert set(await running.asks(*lines, f"@{number} tick 1")) == {"ok"}
            (path,) = (tmp_path / "log").glob("log-*")
            assert int(path.name.removeprefix("log-")) > 1
            assert "update a at (1,2)" in path.read_text()
            assert await running.asks("@2 tick 1", "@3 tick 2") == ["ok", "refused 107 NumberTaken"]
            assert running.server._engine.known.clock == 3

    run(test())


def test_a_client_that_reads_slowly_gets_all_after_its_last_line(
    in_process: Callable[..., object], monkeypatch: pytest.MonkeyPatch
) -> None:
    monkeypatch.setattr(connections, "LAST_SECONDS", 0.1)

    async def test() -> None:
        async with in_process() as running:  # type: ignore[attr-defined]
            await running.asks("class van 400 point", *(f"insert van v{i}" for i in range(400)))
            await running.asks("watch w 90000 RETRIEVE o FROM van o WHERE o.x >= 0")
            slow = socket.socket()
            slow.setsockopt(socket.SOL_SOCKET, socket.SO_RCVBUF, 4_096)
            slow.setblocking(False)
            loop = asyncio.get_running_loop()
            await loop.sock_connect(slow, ("127.0.0.1", running.port))
            await loop.sock_sendall(slow, b"show w\n" * 100)
            slow.shutdown(socket.SHUT_WR)
            got = bytearray()
            for count in range(1_000_000):
                if count < 20:
                    await asyncio.sleep(0.05)
                piece = await loop.sock_recv(slow, 65_536)
                got += piece
                if not piece:
                    break
            slow.close()
            assert got.count(b"\nok\n") == 100 and got.count(b"now v") == 40_000

    run(test())


def test_a_log_that_cannot_be_synced_ends_the_server(
    in_process: Callable[..., object], monkeypatch: pytest.MonkeyPatch
) -> None:
    async def test() -> None:
        async with in_process() as running:  # type: ignore[attr-defined]
            assert await running.asks("tick 1") == ["ok"]

            def commit(_: Log, records: list[Record]) -> None:
                raise LogUnsure("the disk is gone")

            monkeypatch.setattr(Log, "commit", commit)
            running.writer.write(b"tick 2\n")
            rest = await running.reader.read()
            assert b"ok" not in rest
            with pytest.raises(LogUnsure, match="the disk is gone"):
                await running.task

    run(test())


def test_a_roll_that_an_import_overtakes_is_done_again(
    in_process: Callable[..., object], monkeypatch: pytest.MonkeyPatch, tmp_path: Path
) -> None:
    async def test() -> None:
        async with in_process("--roll-at", "100") as running:  # type: ignore[attr-defined]
            roller = running.server._engine._roller
            files = tmp_path / "log" / "files"
            (files / "f.csv").write_text("name,x\na,1\n")
            await running.asks("class van 3 point")
            assert set(await running.asks(*["tick 1"] * 120, 'import van "f.csv"')) == {"ok"}
            while not list((tmp_path / "log").glob("past-*")):
                assert set(await running.asks("tick 1", 'import van "f.csv"')) == {"ok"}
                if roller.is_running:
                    await asyncio.sleep(0.05)
            assert running.server._log.entries < 100

    run(test())
