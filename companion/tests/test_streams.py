"""A stream of Redis as the log: readers that never differ, one writer at a time, and a Redis that goes away."""

import asyncio
import os
import random
import shutil
import signal
import subprocess
import sys
from collections.abc import Iterator
from pathlib import Path
from threading import Event

import pytest
import redis
from brokers import Background, redis_server
from servers import WAIT, LineClient, Serving, accepted, commands_of, serving, until

from fleet.look.sources import ServerSource
from fleet.serve.log import LogUnsure
from fleet.serve.outcomes import Number
from fleet.serve.records import Record, records_of
from fleet.streams.options import Address
from fleet.streams.positions import Position, chain_after
from fleet.streams.serving import joined
from fleet.streams.stream import Entry, PenTaken, Said, Stream, StreamAway, patiently

SCHEMA = [
    "class van 12 point (fuel dyn,plate text)",
    "region yard (0,0) (50,0) (50,50) (0,50)",
    *(f"insert van v{i} at ({i},{i}) move (1,0.5) fuel = 40 rate -0.5" for i in range(6)),
    "watch home 100000 RETRIEVE o FROM van o WHERE INSIDE(o,yard)",
    "keep low 100000 RETRIEVE o FROM van o WHERE o.fuel <= 30",
    "watch near 100000 RETRIEVE o,n FROM van o,van n WHERE DIST(o,n) <= 3",
]
QUESTIONS = ["list", "show home", "show low", "show near", "ask 90 RETRIEVE o FROM van o WHERE EVENTUALLY o.fuel <= 9"]


@pytest.fixture
def stream() -> Iterator[Background]:
    with redis_server() as server:
        yield server


@pytest.fixture
def words(stream: Background) -> tuple[str, ...]:
    """The options of a server whose log is the stream."""
    return ("--redis", stream.address)


def line(chance: random.Random) -> str:
    """A line that changes something, or is refused."""
    name, place = f"v{chance.randrange(8)}", f"at ({chance.randint(-60, 60)},{chance.randint(-60, 60)})"
    return chance.choice([
        f"update {name} {place}", f"update {name} move ({chance.randint(-3, 3)},1)", f"update {name} fuel = 35 rate -1",
        f"remove {name}", f"insert van {name} {place} fuel = 31", "tick 1", f"tick {chance.randint(1, 4)}", "tick x",
    ])  # fmt: skip


def status(client: LineClient, name: str) -> str:
    """What a server tells of itself under a name."""
    client.ask(":status")
    found = [told for told in client.told if told.startswith(f"* status {name} ")]
    client.told = [told for told in client.told if not told.startswith("* status ")]
    return found[-1].removeprefix(f"* status {name} ")


def place(client: LineClient) -> str:
    """The entry up to which a server has taken the stream."""
    return status(client, "stream").split()[-1]


def answers(client: LineClient, server: Serving, name: str) -> list[object]:
    """What a server answers to questions, and the files that it writes."""
    found: list[object] = [client.ask(question) for question in QUESTIONS]
    assert client.asks(f'save "{name}"', f'export van "{name}.csv"') == [["ok"], ["ok"]]
    return [*found, *((server.log / "files" / file).read_bytes() for file in (name, f"{name}.csv"))]


def caught_up(client: LineClient, writer: LineClient) -> None:
    """Waits until a reader has all that the writer has answered."""
    wanted = place(writer)
    until(lambda: place(client) == wanted, f"the entry {wanted}")


def test_two_readers_answer_as_the_writer_and_one_is_killed(
    program: Path, tmp_path: Path, words: tuple[str, ...]
) -> None:
    chance = random.Random(48)
    with serving(program, tmp_path / "w", *words) as server, server.client() as writer, server.client() as listener:
        accepted(writer, *SCHEMA)
        with serving(program, tmp_path / "a", *words, "--follow") as first, first.client() as one:
            second = Serving(program, tmp_path / "b", *words, "--follow")
            try:
                accepted(one, ":follow *", ":ticks on")
                accepted(listener, ":follow *", ":ticks on")
                for _ in range(300):
                    writer.ask(line(chance))
                with second.client() as two:
                    before = place(two)
                second.kill()
                for _ in range(200):
                    writer.ask(line(chance))
                second.end()
                second = Serving(program, tmp_path / "b", *words, "--follow")
                assert second.told[2].startswith(f"log {tmp_path}/b/log-00000001: ")
                assert "anew" not in second.said()
                with second.client() as two:
                    accepted(two, ":follow *", ":ticks on")
                    caught_up(two, writer)
                    for _ in range(100):
                        writer.ask(line(chance))
                    caught_up(one, writer)
                    caught_up(two, writer)
                    assert _numbers(place(two)) > _numbers(before)
                    listener.ask("list")
                    assert one.told == listener.told and len(one.told) > 300
                    assert one.told[-len(two.told) :] == two.told and len(two.told) > 50
                    assert answers(one, first, "x") == answers(two, second, "x") == answers(writer, server, "x")
                assert commands_of(tmp_path / "a") == commands_of(tmp_path / "b") == commands_of(tmp_path / "w")
            finally:
                second.end()


def _numbers(place: str) -> list[int]:
    return [int(part) for part in place.split("-")]


def test_a_reader_changes_nothing(program: Path, tmp_path: Path, words: tuple[str, ...]) -> None:
    with serving(program, tmp_path / "w", *words) as server, server.client() as writer:
        accepted(writer, *SCHEMA, ":client me", "@1 tick 1")
        with serving(program, tmp_path / "r", *words, "--follow") as follower, follower.client() as reader:
            assert follower.told[4].endswith("it is followed, and what changes something is refused")
            for refused in ("tick 1", "insert van x", 'import van "x.csv"', "@2 tick 1", "drop home"):
                reader.ask(":client me")
                assert reader.ask(refused) == ["refused 110 Reader"], refused
            # What came of a number is known to each server.
            assert reader.ask("@1 tick 1") == ["ok"] and reader.told[-1] == "* again 1"
            assert reader.ask("list")[0] == "clock 1"


def test_imports_and_rolls_come_to_readers(program: Path, tmp_path: Path, words: tuple[str, ...]) -> None:
    chance = random.Random(7)
    with serving(program, tmp_path / "w", *words, "--roll-at", "150") as server, server.client() as writer:
        accepted(writer, *SCHEMA)
        with serving(program, tmp_path / "r", *words, "--follow") as follower, follower.client() as reader:
            accepted(reader, ":follow home")
            caught_up(reader, writer)
            (tmp_path / "w" / "files" / "rows.csv").write_text("name,x,y\nv1,1,1\nv9,2,2\nv1,90,3\n")
            accepted(writer, "update v1 at (900,0)", ":client me")
            imported = writer.ask('@1 import van "rows.csv"')
            assert imported[-1] == "ok" and len(imported) > 4
            caught_up(reader, writer)
            home = [f"* 0 {line}" for line in imported if " home " in line]
            assert reader.told[-len(home) :] == home
            assert answers(reader, follower, "x") == answers(writer, server, "x")
            for _ in range(3):
                beginning = _numbers(place(writer))[0]
                for _ in range(300):
                    if int(status(writer, "entries").split()[0]) >= 150 or _numbers(place(writer))[0] > beginning:
                        break
                    writer.ask(line(chance))
                # What comes while a roll is worked out follows it, and is counted against the next one.
                until(lambda: _numbers(place(writer))[0] > beginning, "a roll")  # noqa: B023  (called at once)
                caught_up(reader, writer)
            assert any(told.startswith("* rolled the reader goes on") for told in reader.told)
            assert answers(reader, follower, "y") == answers(writer, server, "y")
            assert writer.ask('@1 import van "rows.csv"') == ["ok"] and writer.told[-1] == "* again 1"
        with serving(program, tmp_path / "new", *words, "--follow") as follower, follower.client() as reader:
            assert answers(reader, follower, "z") == answers(writer, server, "z")


PLANE = "local 11.5755,48.1374"


def test_the_plane_and_the_log_come_to_each_server(program: Path, tmp_path: Path, words: tuple[str, ...]) -> None:
    with serving(program, tmp_path / "w", *words, "--roll-at", "60") as server, server.client() as writer:
        accepted(writer, *SCHEMA[:3])
        with serving(program, tmp_path / "r", *words, "--follow") as follower, follower.client() as reader:
            reader.write(f"# fleet plane {PLANE}")
            assert reader.next_told() == "* plane none"
            caught_up(reader, writer)
            accepted(reader, ":log")
            assert [reader.next_told() for _ in range(4)] == [
                "* log log-00000001 0 3", *(f"* command {each}" for each in SCHEMA[:3])
            ]  # fmt: skip
            writer.write(f"# fleet plane {PLANE}", "# fleet plane EPSG:32632", ":client me", "@1 tick 1")
            assert [writer.reply() for _ in range(2)] == [["ok"]] * 2
            assert writer.told[:2] == [f"* plane {PLANE}"] * 2
            assert [reader.next_told() for _ in range(2)] == [f"* plane {PLANE}", "* command tick 1"]
            reader.write("# fleet plane EPSG:32632")
            assert reader.next_told() == f"* plane {PLANE}"
            caught_up(reader, writer)
            assert status(reader, "plane") == status(writer, "plane") == PLANE
            # A reader that comes now has it from the entries, and one that comes after a roll from the beginning.
            with serving(program, tmp_path / "a", *words, "--follow") as late, late.client() as other:
                assert status(other, "plane") == PLANE and other.ask("list")[0] == "clock 1"
            reader.told.clear()
            beginning = _numbers(place(writer))[0]
            while _numbers(place(writer))[0] == beginning:
                accepted(writer, "update v0 at (1,1)")
            caught_up(reader, writer)
            assert status(reader, "plane") == PLANE
            while not (begun := reader.next_told()).startswith("* log "):
                pass
            assert begun.startswith("* log log-00000002 0 ") and reader.next_told() == f"* plane {PLANE}"
            wanted = [f"* command {each}" for each in commands_of(tmp_path / "r")]
            told: list[str] = []
            while len(told) < len(wanted):
                told += [each for each in (reader.next_told(),) if each.startswith("* command ")]
            assert told == wanted and commands_of(tmp_path / "r") == commands_of(tmp_path / "w")
        assert server.stop() == 0
    for name, options in (("b", ("--follow",)), ("b", ()), ("c", ())):
        with serving(program, tmp_path / name, *words, *options) as server, server.client() as client:
            assert status(client, "plane") == PLANE, (name, options)
            assert server.stop() == 0


def test_the_plane_of_positions_comes_to_readers(program: Path, tmp_path: Path, words: tuple[str, ...]) -> None:
    # A broker that isn't there is tried again and again.
    broker = ("--mqtt", "127.0.0.1:1", "--local", PLANE.split()[1])
    with serving(program, tmp_path / "w", *words, *broker) as server, server.client() as writer:
        assert status(writer, "plane") == PLANE and status(writer, "mqtt") == "broker away"
        with serving(program, tmp_path / "r", *words, "--follow") as follower, follower.client() as reader:
            assert status(reader, "plane") == PLANE
            assert follower.stop() == 0
        assert server.stop() == 0


def test_a_page_follows_a_reader(program: Path, tmp_path: Path, words: tuple[str, ...]) -> None:
    with serving(program, tmp_path / "w", *words) as server, server.client() as writer:
        accepted(writer, *SCHEMA[:3])
        with serving(program, tmp_path / "r", *words, "--follow", "--ws-port", "0") as follower:

            async def follow() -> None:
                source = ServerSource(follower.websocket, "", print)
                async with asyncio.timeout(WAIT):
                    assert [each.decode() for each in await source.begin()] == SCHEMA[:3]
                    await asyncio.to_thread(accepted, writer, "tick 1")
                    assert await source.more() == [b"tick 1"]
                source.close()

            asyncio.run(follow())


def test_an_end_waits_for_no_redis_that_is_away(
    program: Path, tmp_path: Path, stream: Background, words: tuple[str, ...]
) -> None:
    with serving(program, tmp_path / "w", *words) as server, server.client() as writer:
        accepted(writer, *SCHEMA[:3])
        with serving(program, tmp_path / "r", *words, "--follow") as follower, follower.client() as reader:
            caught_up(reader, writer)
            os.kill(stream.pid, signal.SIGSTOP)
            assert (follower.stop(), server.stop()) == (0, 0)
            assert "the pen lapses by itself" in server.said()
    stream.kill()
    assert stream.start()
    log = joined(tmp_path / "w", Address((("127.0.0.1", stream.port),), "fleet"), writes=True)
    log.open()
    stream.kill()
    log.end_soon()
    with pytest.raises(LogUnsure, match="it isn't known whether the stream has the last lines"):
        log.commit([Record(b"tick 1")])
    log.close()

    def away() -> None:
        raise StreamAway("it is away")

    ending = Event()
    ending.set()
    with pytest.raises(LogUnsure, match="the lines: it is away"):
        patiently(away, 1e9, ending, "the lines")


def test_one_server_writes(program: Path, tmp_path: Path, stream: Background, words: tuple[str, ...]) -> None:
    with serving(program, tmp_path / "a", *words) as first, first.client() as one:
        accepted(one, "class van 3 point")
        with serving(program, tmp_path / "b", *words) as second:
            assert second.told[0] == "" and second.process.wait(WAIT) == 1
            assert "writes to the stream fleet" in second.said()
        # The server with the same folder is the same writer.
        first.kill()
        with serving(program, tmp_path / "a", *words) as again, again.client() as one:
            accepted(one, "insert van a")
            # As after a pause in which the pen has lapsed.
            again.process.send_signal(signal.SIGSTOP)
            _redis(stream).delete("fleet:holder")
            with serving(program, tmp_path / "b", *words) as second, second.client() as two:
                again.process.send_signal(signal.SIGCONT)
                assert two.ask("list")[1] == "class van 1/3"
                accepted(two, "insert van b")
                one.write("insert van c")
                assert again.process.wait(WAIT) == 1
                assert one.rest() == ["* closed the server ends"] and "another server has taken the pen" in again.said()
                accepted(two, "insert van d")
                assert second.stop() == 0
            with serving(program, tmp_path / "a", *words) as again, again.client() as one:
                assert [reply.split()[-1] for reply in one.ask("list")[1:2]] == ["3/3"]
    assert commands_of(tmp_path / "a") == ["class van 3 point", *(f"insert van {name}" for name in "abd")]


def test_entries_are_taken_of_the_pen_and_after_the_last_one_alone(stream: Background) -> None:
    one, two = (Stream(Address((("127.0.0.1", stream.port),), "s"), writes=True) for _ in range(2))
    one.take_pen("a")
    with pytest.raises(PenTaken, match="another server, a, writes to the stream s"):
        two.take_pen("b")
    first = Position.first(1)
    assert one.append(first, first, b"x\n").said is Said.OTHER_LAST
    assert one.begin(None, first, [b"he", b"ad"]).said is Said.APPENDED
    after = first.after(b"tick 1\n", 1)
    assert one.append(first, after, b"tick 1\n").said is Said.APPENDED
    again = one.append(first, after, b"tick 1\n")
    assert (again.said, again.last, again.chain) == (Said.OTHER_LAST, "1-1", after.chain)
    assert one.append(after._replace(chain="0" * 16), after.after(b"", 0), b"").said is Said.OTHER_LAST
    one.release_pen()
    two.take_pen("b")
    assert two.pen == one.pen + 1
    late = one.append(after, after.after(b"tick 2\n", 1), b"tick 2\n")
    assert (late.said, late.pen) == (Said.OTHER_PEN, two.pen)
    assert two.append(after, after.after(b"tick 3\n", 1), b"tick 3\n").said is Said.APPENDED
    beginning = two.beginning()
    assert beginning is not None and b"".join(two.head(beginning)) == b"head"
    assert [entry.lines for entry in two.after(first)] == [b"tick 1\n", b"tick 3\n"]
    assert two.last() == Entry(1, 2, chain_after(after.chain, b"tick 3\n"), b"tick 3\n")
    assert one.renew_pen("a") == two.pen
    one.close()
    two.close()


def test_a_redis_that_was_killed_is_waited_for(
    program: Path, tmp_path: Path, stream: Background, words: tuple[str, ...]
) -> None:
    with serving(program, tmp_path / "w", *words) as server, server.client() as writer:
        accepted(writer, *SCHEMA)
        with serving(program, tmp_path / "r", *words, "--follow") as follower, follower.client() as reader:
            for _ in range(2):
                stream.kill()
                writer.write("tick 1", "update v1 at (7,7)")
                assert reader.ask("list")[-1] == "ok"
                assert stream.start()
                assert [writer.reply()[-1] for _ in range(2)] == ["ok", "ok"]
                caught_up(reader, writer)
            assert answers(reader, follower, "x") == answers(writer, server, "x")
            assert reader.ask("list")[0] == "clock 2"


@pytest.mark.parametrize("lost", ["some", "all"])
def test_what_redis_has_lost_is_appended_again(
    program: Path, tmp_path: Path, stream: Background, words: tuple[str, ...], lost: str
) -> None:
    with serving(program, tmp_path / "w", *words) as server, server.client() as writer:
        accepted(writer, *SCHEMA)
        with serving(program, tmp_path / "r", *words, "--follow") as follower, follower.client() as reader:
            kept = stream.folder / "kept"
            shutil.copytree(stream.folder / "appendonlydir", kept)
            accepted(writer, "tick 1", "update v1 at (7,7)", "tick 2", "remove v2")
            caught_up(reader, writer)
            stream.kill()
            shutil.rmtree(stream.folder / "appendonlydir")
            if lost == "some":
                kept.rename(stream.folder / "appendonlydir")
            assert stream.start()
            if lost == "all":
                # Then the stream is begun anew by a start of the writer.
                assert server.stop() == 0
                with serving(program, tmp_path / "w", *words) as again, again.client() as writer:
                    _goes_on(writer, again, reader, follower)
            else:
                _goes_on(writer, server, reader, follower)


def _goes_on(writer: LineClient, server: Serving, reader: LineClient, follower: Serving) -> None:
    accepted(writer, "tick 3", "insert van v2")
    caught_up(reader, writer)
    assert answers(reader, follower, "x") == answers(writer, server, "x")
    assert reader.ask("list")[0] == "clock 6"


def test_a_full_redis_refuses_and_nothing_is_kept(
    program: Path, tmp_path: Path, stream: Background, words: tuple[str, ...]
) -> None:
    with serving(program, tmp_path / "w", *words) as server, server.client() as writer:
        accepted(writer, *SCHEMA, ":client me", "@1 tick 1")
        entries = _redis(stream).xlen("fleet")
        _redis(stream).config_set("maxmemory", "1")
        assert writer.ask("@2 tick 1") == ["refused 108 LogFull"]
        assert writer.ask("list")[0] == "clock 1"
        _redis(stream).config_set("maxmemory", "0")
        until(lambda: writer.ask("@2 tick 1") == ["ok"], "room")
        assert writer.ask("list")[0] == "clock 2"
        assert _redis(stream).xlen("fleet") == entries + 1


def test_replicas_are_waited_for(program: Path, tmp_path: Path, stream: Background, words: tuple[str, ...]) -> None:
    with redis_server("--replicaof", "127.0.0.1", str(stream.port)) as replica:
        both = ("--redis", f"{replica.address},{stream.address}", "--replicas", "1")
        with serving(program, tmp_path / "w", *both) as server, server.client() as writer:
            accepted(writer, *SCHEMA)
            assert server.told[4].endswith("appendonly yes, appendfsync always, 1 replicas, of which 1 are waited for")
            # A reader may read from the replica.
            with serving(program, tmp_path / "r", "--redis", replica.address, "--follow") as follower:
                with follower.client() as reader:
                    accepted(writer, "tick 1")
                    caught_up(reader, writer)
                    assert answers(reader, follower, "x") == answers(writer, server, "x")
                    # The primary is gone and the replica takes its place.
                    stream.kill()
                    _redis(replica).execute_command("REPLICAOF", "NO", "ONE")
                    writer.write("tick 1")
                    with redis_server("--replicaof", "127.0.0.1", str(replica.port)):
                        assert writer.reply()[-1] == "ok"
                        caught_up(reader, writer)
                        assert answers(reader, follower, "y") == answers(writer, server, "y")


def test_a_folder_and_a_stream_that_have_different_logs(
    program: Path, tmp_path: Path, stream: Background, words: tuple[str, ...]
) -> None:
    with serving(program, tmp_path / "old") as server, server.client() as client:
        accepted(client, *SCHEMA, "tick 3")
    # A folder with a log begins a stream that has nothing.
    with serving(program, tmp_path / "old", *words) as server, server.client() as client:
        assert client.ask("list")[0] == "clock 3"
        assert server.stop() == 0
    with serving(program, tmp_path / "other") as server, server.client() as client:
        accepted(client, "class ship 3 point")
    for options in ((), ("--follow",)):
        with serving(program, tmp_path / "other", *words, *options) as server:
            assert server.process.wait(WAIT) == 1
            assert "has a log of its own, and the stream fleet" in server.said()
    with serving(program, tmp_path / "new", *words, "--stream", "empty", "--follow") as server:
        assert server.process.wait(WAIT) == 1 and "has nothing yet" in server.said()
    session = tmp_path / "session"
    session.write_text("domino-session 1\nclass car 2\nend\n")
    with serving(program, tmp_path / "new", *words, "--session", str(session)) as server:
        assert server.process.wait(WAIT) == 2 and "has a log already" in server.said()
    with serving(program, tmp_path / "new", *words, "--session", str(session), "--stream", "second") as server:
        with server.client() as client:
            assert client.ask("list")[1] == "class car 0/2"


def test_a_copy_that_is_damaged_is_begun_anew_by_a_reader(
    program: Path, tmp_path: Path, words: tuple[str, ...]
) -> None:
    with serving(program, tmp_path / "w", *words) as server, server.client() as writer:
        accepted(writer, *SCHEMA)
        with serving(program, tmp_path / "r", *words, "--follow"):
            pass
        accepted(writer, "tick 1", "tick 2")
        copy = tmp_path / "r" / "log-00000001"
        text = copy.read_bytes()
        copy.write_bytes(text[:60] + b"x" + text[61:])
        with serving(program, tmp_path / "r", *words, "--follow") as follower, follower.client() as reader:
            assert "the copy is begun anew" in follower.said()
            assert answers(reader, follower, "x") == answers(writer, server, "x")


def test_a_reader_cannot_go_on_from_a_line_that_its_program_refuses(
    program: Path, tmp_path: Path, stream: Background, words: tuple[str, ...]
) -> None:
    with serving(program, tmp_path / "w", *words) as server, server.client() as writer:
        accepted(writer, "class van 3 point")
        with serving(program, tmp_path / "r", *words, "--follow") as follower, follower.client() as reader:
            caught_up(reader, writer)
            last = Stream(Address((("127.0.0.1", stream.port),), "fleet"), writes=False).last()
            assert last is not None
            chain = chain_after(last.chain, b"insert car x\n")
            _redis(stream).xadd("fleet", {"lines": "insert car x\n", "chain": chain}, f"{last.log}-{last.number + 1}")
            assert follower.process.wait(WAIT) == 1
            assert "doesn't accept a line of the stream: refused 7 UnknownName" in follower.said()


def test_records_are_read_back_from_their_lines() -> None:
    number = Number.of("me", 7, b"tick 1")
    records = [
        Record(b"tick 1"), Record(b"tick 2", number), Record(None, number, "14 Presence"), Record(None, number, "ok"),
        Record(b"tick 3\r"), Record(None, plane=f"# fleet plane {PLANE}".encode()),
    ]  # fmt: skip
    assert list(records_of(b"".join(record.text() for record in records))) == records


BAD_OPTIONS = {
    "--follow": "--follow is of a stream, and --redis doesn't say where it is",
    "--replicas 1": "--replicas is of a stream",
    "--redis 127.0.0.1 --follow --tick 1": "a reader has the clock and the log of the stream",
    "--redis nowhere:x": "nowhere:x isn't of the form HOST:PORT",
}


@pytest.mark.parametrize("options", BAD_OPTIONS)
def test_options_that_cannot_be_had(program: Path, tmp_path: Path, options: str) -> None:
    with serving(program, tmp_path / "log", *options.split()) as server:
        assert server.process.wait(WAIT) == 2
        assert BAD_OPTIONS[options] in server.said()


def test_a_redis_that_is_not_there_is_told(program: Path, tmp_path: Path, stream: Background) -> None:
    stream.kill()
    for options in ((), ("--follow",)):
        with serving(program, tmp_path / "log", "--redis", stream.address, *options) as server:
            assert server.process.wait(WAIT) == 1
            assert f"the stream fleet on {stream.address} can't be reached" in server.said()


@pytest.mark.parametrize(("option", "package"), [("--redis 127.0.0.1", "python3-redis")])
def test_a_missing_package_is_named(program: Path, tmp_path: Path, option: str, package: str) -> None:
    fleet = Path(__file__).resolve().parents[1] / "bin" / "fleet"
    words = ["/usr/bin/python3", "-S", fleet, "serve", "--log", tmp_path / "log", *option.split()]
    said = subprocess.run(words, capture_output=True, text=True, timeout=WAIT, check=False)
    assert (said.returncode, said.stderr) == (1, f"fleet: this part needs the Debian package {package}\n")
    assert sys.executable


def _redis(server: Background) -> "redis.Redis[bytes]":
    return redis.Redis("127.0.0.1", server.port, socket_timeout=WAIT)
