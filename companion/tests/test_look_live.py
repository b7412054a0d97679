"""`fleet look live`: a page that goes on as the log of a server does."""

import asyncio
import contextlib
import http.client
import json
import os
import signal
import socket
import subprocess
import sys
from collections.abc import Iterator
from pathlib import Path

import pytest
from websockets.client import connect
from websockets.exceptions import InvalidStatusCode

from browsers import WAIT, Browser, browsing
from conftest import TOP
from fleet.look import follow
from fleet.look.changing import Changing
from fleet.look.follow import Follower
from fleet.look.history import History
from fleet.look.sources import GONE, LIVE
from fleet.serve.closed import NoLog
from fleet.serve.log import Log
from fleet.serve.records import Record, mark
from servers import Serving, accepted, hanging, serving, until
from sessions import EXAMPLE, POINT_CLASSES, commands_of, made_session, place_texts

FIRST = b"class van 3 point"
LINES = [line for line in EXAMPLE.read_text().splitlines() if line and not line.startswith("#") and line != "quit"]


@pytest.fixture
def log(tmp_path: Path) -> Iterator[Log]:
    """A log that has one command."""
    log = Log(tmp_path / "log")
    log.begin([FIRST])
    yield log
    log.close()


def added(log: Log, *commands: bytes) -> None:
    records = [Record(command) for command in commands]
    log.commit(records)
    log.took(records)


@contextlib.contextmanager
def living(program: Path, log: str | Path, *options: str) -> Iterator[tuple[subprocess.Popen[str], str]]:
    """A page of a log, by its folder or its server: the process that serves it, and its address."""
    with started(program, log, *options) as process:
        assert process.stdout is not None
        told = process.stdout.readline()
        assert told.startswith("live on http://127.0.0.1:")
        yield process, told.split()[-1]


def words_of(program: Path, log: str | Path, *options: str) -> list[str]:
    fleet = str(TOP / "companion" / "bin" / "fleet")
    return [sys.executable, fleet, "look", "live", str(log), "--port", "0", "--program", str(program), *options]


@contextlib.contextmanager
def started(program: Path, log: str | Path, *options: str) -> Iterator[subprocess.Popen[str]]:
    process = subprocess.Popen(words_of(program, log, *options), stdout=subprocess.PIPE, text=True)
    try:
        yield process
    finally:
        process.terminate()
        try:
            process.wait(WAIT)
        finally:
            process.kill()
            process.wait()
            assert process.stdout is not None
            process.stdout.close()


def test_groups_are_followed_when_they_are_whole(log: Log, monkeypatch: pytest.MonkeyPatch) -> None:
    follower = Follower(log.folder)
    assert follower.more() == [FIRST] and follower.more() == []
    added(log, b"insert van a", b"tick 3")
    assert follower.more() == [b"insert van a", b"tick 3"]
    with log.path.open("ab") as file:
        file.write(b"tick 4\n")
        file.flush()
        assert follower.more() == []
        file.write(mark(0x1234, 7)[:-4])
        file.flush()
        assert follower.more() == []
    with log.path.open("r+b") as file:
        file.truncate(log.size)
    monkeypatch.setattr(follow, "_PIECE", 16)
    added(log, *(b"tick %d" % ticks for ticks in range(1, 60)))
    assert follower.more() == [b"tick %d" % ticks for ticks in range(1, 60)]


def test_another_log_is_followed_from_its_beginning(log: Log) -> None:
    follower = Follower(log.folder)
    follower.more()
    assert not follower.has_other
    log.begin([FIRST, b"tick 7"])
    assert follower.has_other and follower.more() == []
    follower.start_over()
    assert follower.more() == [FIRST, b"tick 7"] and not follower.has_other


def test_what_is_no_log_is_told(log: Log, tmp_path: Path) -> None:
    for folder in (tmp_path / "none", tmp_path):
        with pytest.raises(NoLog):
            Follower(folder)
    follower = Follower(log.folder)
    with log.path.open("ab") as file:
        file.write(b"tick 3\n" + mark(0x1234, 7))
    with pytest.raises(NoLog, match="has other bytes than its marks tell"):
        follower.more()


@pytest.fixture(scope="module")
def browser(tmp_path_factory: pytest.TempPathFactory) -> Iterator[Browser]:
    with browsing(tmp_path_factory.mktemp("browser")) as browser:
        yield browser


def recorded(data: dict[str, object]) -> dict[str, object]:
    """What a page has, with rows in one order."""
    made = json.loads(json.dumps(data))
    for query in made["queries"]:
        query["rows"] = sorted(query["rows"], key=lambda row: row["targets"])
    return {key: made[key] for key in ("clock", "from", "to", "regions", "classes", "queries")}


def test_changes_lead_to_the_whole(browser: Browser, program: Path, tmp_path: Path, log: Log) -> None:
    commands = commands_of(made_session(program, tmp_path, 8, 200))
    with living(program, log.folder) as (_, address):
        browser.open(address)
        browser.wait("return globalThis.look !== undefined")
    changing = Changing(str(program), 100_000, 600, 60, 60)
    try:
        browser.run("globalThis.made = new look.recording.constructor(arguments[0])", changing.whole())
        for at in range(0, len(commands), 17):
            browser.run("made.take(arguments[0])", changing.take(commands[at : at + 17]))
        assert recorded(browser.run("return made")) == recorded(changing.whole())
    finally:
        changing.close()


def test_what_is_old_is_forgotten(program: Path) -> None:
    changing = Changing(str(program), 10, 20, 5, 5)
    try:
        changing.take([FIRST, b"insert van a", b"keep all 1000 RETRIEVE o FROM van o WHERE o.x < 5"])
        for ticks in range(60):
            changing.take([b"tick 1", b"update a at (%d,0)" % (ticks % 7)])
        whole = changing.whole()
    finally:
        changing.close()
    assert (whole["from"], whole["clock"], whole["to"]) == (50, 60, 80)
    assert len(whole["classes"][0]["objects"][0]["motions"]) < 40
    (row,) = whole["queries"][0]["rows"]
    assert row["targets"] == ("a",) and len(row["versions"]) < 40


def tick_of(browser: Browser, tick: int) -> None:
    """Waits until the page has come to a tick."""
    browser.wait(f"return globalThis.look?.tick === {tick}")


def place_and_rows(browser: Browser, server: Serving) -> None:
    """Compares what the page shows with what the server tells."""
    with server.client() as client:
        clock = int(client.ask("list")[0].split()[1])
        tick_of(browser, clock)
        places = browser.run("return look.recording.places(look.tick)")
        for class_name in POINT_CLASSES:
            assert client.ask(f'export {class_name} "{class_name}.csv"') == ["ok"]
            text = (server.log / "files" / f"{class_name}.csv").read_text()
            told = {line.split(",")[0]: tuple(line.split(",")[1:5]) for line in text.splitlines()[1:]}
            found = {
                place["name"]: place_texts((place["x"], place["y"]), (place["dx"], place["dy"]))
                for place in places
                if place["className"] == class_name
            }
            assert found == {name: (x, y, dx, dy) for name, (x, dx, y, dy) in told.items()}
        now = [row.split()[1] for row in client.ask("show town") if row.startswith("now")]
        assert browser.run("return look.recording.holding(look.recording.queries[0], look.tick).flat()") == now


@pytest.mark.parametrize("by", ["folder", "server"])
def test_the_page_goes_on_with_the_server(browser: Browser, program: Path, tmp_path: Path, by: str) -> None:
    split = LINES.index("tick 20")
    with serving(program, tmp_path / "log", "--ws-port", "0") as server:
        with server.client() as client:
            accepted(client, *LINES[:split])
        with living(program, server.log if by == "folder" else server.websocket) as (process, address):
            browser.open(address)
            tick_of(browser, 0)
            place_and_rows(browser, server)
            with server.client() as client:
                accepted(client, *LINES[split:])
            place_and_rows(browser, server)
            assert browser.text("about") == "live"
            browser.run("look.go(100)")
            with server.client() as client:
                accepted(client, "tick 5")
            browser.wait("return look.recording.clock === 305")
            assert browser.run("return look.tick") == 100
            process.send_signal(signal.SIGTERM)
            assert process.wait(WAIT) == 0
        browser.wait("return document.getElementById('about').textContent.startsWith('the connection is lost')")


def test_the_page_waits_for_a_server_that_is_gone(browser: Browser, program: Path, tmp_path: Path) -> None:
    token = tmp_path / "token"
    token.write_text("a-word-of-24-characters")
    options = ("--token", str(token))
    with serving(program, tmp_path / "log", "--ws-port", "0", *options) as server:
        port = server.websocket.rpartition(":")[2]
        with server.client() as client:
            accepted(client, f":token {token.read_text()}", *LINES)
        with living(program, server.websocket, *options) as (process, address):
            browser.open(address)
            tick_of(browser, 300)
            server.kill()
            browser.wait(f"return document.getElementById('about').textContent === '{GONE}'")
            with serving(program, server.log, "--ws-port", port, *options) as again, again.client() as client:
                browser.wait(f"return document.getElementById('about').textContent === '{LIVE}'")
                accepted(client, f":token {token.read_text()}", "tick 7")
                tick_of(browser, 307)
                accepted(client, 'export van "e.csv"', 'import van "e.csv"', "tick 3")
                tick_of(browser, 310)
                for pid in children_of(process.pid):
                    os.kill(pid, signal.SIGKILL)
                accepted(client, "tick 4")
                tick_of(browser, 314)
                assert browser.text("about") == LIVE


def children_of(pid: int) -> list[int]:
    """The processes that a process has started itself."""
    found = []
    for status in Path("/proc").glob("[0-9]*/status"):
        with contextlib.suppress(OSError):
            if f"\nPPid:\t{pid}\n" in status.read_text():
                found.append(int(status.parent.name))
    return found


def test_a_server_that_does_not_tell_is_told_of(program: Path, tmp_path: Path) -> None:
    (tmp_path / "token").write_text("a-word-of-24-characters")
    (tmp_path / "other").write_text("another-word-of-24-chars")
    options = ("--token", str(tmp_path / "token"))
    with serving(program, tmp_path / "log", "--ws-port", "0", *options) as server:
        for log, more, cause in (
            (server.websocket, (), "needs the token of --token: refused 101 NotAllowed"),
            (server.websocket, ("--token", str(tmp_path / "other")), "needs the token of --token: refused 101 NotAllowed"),
            (f"ws://{':'.join(map(str, server.address))}", (), "can't be reached: "),
            ("ws://127.0.0.1:0", (), "can't be reached: "),
            ("ws://127.0.0.1:7/x", (), "is no address of the form ws://HOST:PORT"),
        ):
            words = words_of(program, log, *more)
            ended = subprocess.run(words, capture_output=True, text=True, timeout=WAIT, check=False)
            assert (ended.returncode, ended.stdout) == (1, "") and cause in ended.stderr, ended


@pytest.mark.parametrize("number", [signal.SIGTERM, signal.SIGINT])
def test_a_connection_that_is_never_used_holds_no_end_up(program: Path, log: Log, number: signal.Signals) -> None:
    with living(program, log.folder) as (process, address):
        host, _, port = address.split("/")[2].partition(":")
        with socket.create_connection((host, int(port)), timeout=WAIT), socket.create_connection((host, int(port))) as half:
            half.sendall(b"GET / HTTP/1.1\r\n")
            assert answered(address, "/other")[0] == 404
            process.send_signal(number)
            assert process.wait(WAIT) == 0


@pytest.mark.parametrize("replies", [0, 1])
def test_a_program_that_hangs_holds_no_end_up(tmp_path: Path, log: Log, replies: int) -> None:
    program, pid = hanging(tmp_path, replies)
    with started(program, log.folder) as process:
        if replies:
            assert process.stdout is not None and process.stdout.readline().startswith("live on ")
            added(log, b"insert van a")
        until(pid.exists, "the line with which it hangs")
        process.send_signal(signal.SIGTERM)
        assert process.wait(WAIT) == 0
    until(lambda: not Path("/proc", pid.read_text()).exists(), "the end of the program")


def test_the_page_begins_anew_with_another_log(browser: Browser, program: Path, log: Log) -> None:
    added(log, b"insert van a at (1,2)", b"tick 3")
    with living(program, log.folder) as (_, address):
        browser.open(address)
        tick_of(browser, 3)
        log.begin([FIRST, b"tick 9", b"insert van b at (3,4)"])
        tick_of(browser, 9)
        assert [place["name"] for place in browser.run("return look.recording.places(9)")] == ["b"]
        added(log, b"tick 1")
        tick_of(browser, 10)


def answered(address: str, path: str, host: str | None = None) -> tuple[int, bytes]:
    connection = http.client.HTTPConnection(address.split("/")[2], timeout=60)
    connection.request("GET", path, headers={"Host": host} if host else {})
    reply = connection.getresponse()
    found = reply.status, reply.read()
    connection.close()
    return found


async def handshake(address: str, origin: str | None) -> int:
    """The status of a WebSocket of a page of this origin."""
    try:
        async with connect(address.replace("http", "ws") + "live", origin=origin):  # type: ignore[arg-type]
            return 101
    except InvalidStatusCode as error:
        return error.status_code


def test_it_is_for_its_own_page_on_this_machine_alone(program: Path, log: Log) -> None:
    with living(program, log.folder) as (_, address):
        status, page = answered(address, "/")
        assert status == 200 and page.startswith(b"<!doctype html>")
        assert answered(address, "/", "evil.example")[0] == answered(address, "/live", "evil.example")[0] == 403
        assert answered(address, "/other")[0] == 404
        assert asyncio.run(handshake(address, address.rstrip("/"))) == 101
        assert asyncio.run(handshake(address, "http://evil.example")) == 403
        assert asyncio.run(handshake(address, None)) == 403


def test_a_session_that_is_not_loaded_ends_it(program: Path, log: Log) -> None:
    added(log, b"update nobody at (0,0)")
    words = words_of(program, log.folder)
    ended = subprocess.run(words, capture_output=True, text=True, timeout=WAIT, check=False)
    assert (ended.returncode, ended.stdout) == (1, "")
    assert ended.stderr == "fleet: the program refuses a command of the session by 7 UnknownName: update nobody at (0,0)\n"


def test_the_history_is_that_of_the_session(program: Path, tmp_path: Path) -> None:
    commands = commands_of(made_session(program, tmp_path, 9, 60))
    changing = Changing(str(program), 100_000, 600, 60, 60)
    try:
        changing.take(commands)
        assert changing.whole()["clock"] == History.of(commands).clock
    finally:
        changing.close()
