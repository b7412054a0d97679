"""Long tests of the server: many kills, slow clients and hostile bytes, a full disk, a full journal."""

import contextlib
import os
import random
import signal
import subprocess
import time
from collections.abc import Iterator
from pathlib import Path

import pytest
from loads import Loads
from servers import (
    Gone, ImportModel, LineClient, Model, Serving, accepted, check_models, commands_of, flood, prepare_flood, programs_of,
    serving, until,
)  # fmt: skip

from fleet.session_text import entries

pytestmark = pytest.mark.long

KILLS = 200
SLOW_CLIENTS = 200
HOSTILE_STRINGS = 10_000


@pytest.fixture
def log(tmp_path: Path) -> Path:
    return tmp_path / "log"


KILLED = {"group": ["--sync", "group"], "each": ["--sync", "each"], "rolled": ["--roll-at", "500"]}
MOST_SECONDS = {"group": 0.7, "each": 0.7, "rolled": 4}
"""How long a server or a program lives at most: a roll takes longer than a line."""


@pytest.mark.parametrize("kind", KILLED)
def test_kills_at_random_moments_under_load(program: Path, log: Path, kind: str) -> None:
    chance = random.Random(kind)
    imports = ImportModel("imported")
    models = [Model(f"v{i}") for i in range(8)] + ([] if kind == "rolled" else [imports])
    servers: list[Serving] = []
    try:
        servers.append(Serving(program, log, *KILLED[kind]))
        with servers[0].client() as client:
            accepted(client, "class van 10 point")
        imports.write_file(log / "files")
        with Loads(models, servers) as loads:
            for _ in range(KILLS // len(KILLED) + 1):
                time.sleep(chance.uniform(0, MOST_SECONDS[kind]))
                _kill(chance.choice(["server", "program", "both"]), servers, program, KILLED[kind], models)
                loads.check()
            if kind == "rolled":
                until(lambda: list(log.glob("past-*")), "a roll")
            loads.end(servers[-1], 200)
        check_models(models, servers[-1], is_rolled=kind == "rolled")
        assert bool(list(log.glob("past-*"))) == (kind == "rolled")
        assert loads.replied > 10 * KILLS
    finally:
        for server in servers:
            server.end()


def _kill(what: str, servers: list[Serving], program: Path, options: list[str], models: list[Model]) -> None:
    log = servers[-1].log
    if what in ("program", "both"):
        for pid in programs_of(log):
            with contextlib.suppress(ProcessLookupError):
                os.kill(pid, signal.SIGKILL)
    if what in ("server", "both"):
        servers[-1].kill()
        replied = sum(len(model.numbers("tick")) for model in models)
        servers.append(Serving(program, log, *options))
        servers[-2].end()
        with servers[-1].client() as client:
            assert int(client.ask("list")[0].split()[1]) >= replied


def test_slow_clients(program: Path, log: Path) -> None:
    with serving(program, log, "--clients", str(SLOW_CLIENTS + 10)) as server, contextlib.ExitStack() as stack:
        writer, reader = stack.enter_context(server.client()), stack.enter_context(server.client())
        prepare_flood(writer)
        accepted(reader, ":follow *")
        slow = [stack.enter_context(LineClient(server.address, system_bytes=4_096)) for _ in range(SLOW_CLIENTS)]
        for client in slow:
            accepted(client, ":follow *")
        flood(writer, reader, lambda: server.said().count("lost its connection: it takes") >= SLOW_CLIENTS, 500)
        until(lambda: _clients(writer) == 2, "the end of the slow clients")


def _clients(client: LineClient) -> int:
    client.told.clear()
    client.ask(":status")
    (told,) = [line for line in client.told if line.startswith("* status clients")]
    return int(told.split()[-1])


def hostile(chance: random.Random) -> bytes:
    """Bytes that are unlike what a client should send."""
    kind = chance.randrange(6)
    if kind == 0:
        return chance.randbytes(chance.randint(1, 300))
    if kind == 1:
        return b"x" * chance.choice([4_096, 4_097, 8_192, 8_193, 50_000]) + chance.choice([b"", b"\n"])
    if kind == 2:
        words = [b"save", b"import van", b"export van", b"@1 save", b":client", b":follow", b"@", b":", b"quit"]
        return chance.choice(words) + b' "' + chance.randbytes(8).replace(b"\n", b"/") + b'"\n'
    if kind == 3:
        line = bytearray(b"@7 update v1 at (1,2) move [(1,0),3] (0,0)\n")
        for _ in range(chance.randint(1, 4)):
            line[chance.randrange(len(line))] = chance.randrange(256)
        return bytes(line)
    if kind == 4:
        return chance.choice([b"GET / HTTP/1.1\r\n\r\n", b"\x16\x03\x01\x00\n", b"\r\n\r\n", b"\xef\xbb\xbflist\n"])
    parts = [b"#", b"@", b":", b"* ", b'"', b"(", b"1", b" ", b"\t", b"\r", b"\n"]
    return b"".join(chance.choices(parts, k=40))


def test_hostile_strings(program: Path, log: Path) -> None:
    chance = random.Random(7)
    with serving(program, log) as server, server.client() as good:
        accepted(good, "class van 10 point", "insert van v1")
        for count in range(HOSTILE_STRINGS):
            with contextlib.suppress(Gone, OSError), server.client() as bad:
                bad.write_bytes(hostile(chance))
                if chance.random() < 0.5:
                    bad.socket.shutdown(1)
                    bad.rest()
            if count % 100 == 0:
                assert good.ask("list")[1].startswith("class van ")
        assert good.ask("list")[1].startswith("class van ")
        assert "Traceback" not in server.said()
        server.kill()
    with serving(program, log) as server, server.client() as good:
        assert good.ask("list")[1].startswith("class van ")
    assert {path.name for path in log.iterdir()} <= {"lock", "files", *(path.name for path in log.glob("log-*"))}


@pytest.fixture
def small_disk(tmp_path: Path) -> Iterator[Path]:
    """A disk of 1 MB."""
    folder = tmp_path / "disk"
    folder.mkdir()
    subprocess.run(["mount", "-t", "tmpfs", "-o", "size=1m", "tmpfs", str(folder)], check=True)
    try:
        yield folder
    finally:
        subprocess.run(["umount", "-l", str(folder)], check=True)


def _resize(disk: Path, size: str) -> None:
    subprocess.run(["mount", "-o", f"remount,size={size}", str(disk)], check=True)


def _fill(client: LineClient) -> int:
    """Sends ticks until the disk is full, and gives the number of the first that is refused."""
    number = 1
    while (reply := client.ask(f"@{number} tick 1")) == ["ok"]:
        number += 1
    assert reply == ["refused 108 LogFull"]
    return number


def test_a_full_disk(program: Path, tmp_path: Path, small_disk: Path) -> None:
    log, options = small_disk / "log", ("--files", str(tmp_path / "files"))
    with serving(program, log, *options) as server, server.client() as client:
        accepted(client, "class van 10 point", ":client me")
        number = _fill(client)
        assert number > 1_000 and commands_of(log).count("tick 1") == number - 1
        for _ in range(3):
            assert client.ask(f"@{number} tick 1") == ["refused 108 LogFull"]
            assert client.ask("list")[0] == f"clock {number - 1}"
            time.sleep(1.1)
        server.kill()
    with serving(program, log, *options) as server, server.client() as client:
        assert client.ask("list")[0] == f"clock {number - 1}"
        accepted(client, ":client me")
        assert client.ask(f"@{number} tick 1") == ["refused 108 LogFull"]
        _resize(small_disk, "2m")
        until(lambda: client.ask(f"@{number} tick 1") == ["ok"], "room")
        accepted(client, *(f"@{number + i} tick 1" for i in range(200)))
        server.kill()
    with serving(program, log, *options) as server, server.client() as client:
        assert client.ask("list")[0] == f"clock {number + 199}"


def test_a_program_that_a_full_disk_keeps_from_starting_is_waited_for(
    program: Path, tmp_path: Path, small_disk: Path
) -> None:
    log = small_disk / "log"
    with serving(program, log) as server, server.client() as client:
        accepted(client, "class van 10 point", ":client me")
        ballast = os.open(small_disk / "ballast", os.O_WRONLY | os.O_CREAT)
        with contextlib.suppress(OSError):
            while os.write(ballast, b"x" * 4_096):
                pass
        os.close(ballast)
        for pid in programs_of(log):
            os.kill(pid, signal.SIGKILL)
        client.write("list")
        time.sleep(3)
        _resize(small_disk, "2m")
        assert client.reply() == ["clock 0", "class van 0/10", "ok"]
        accepted(client, "tick 1")
        assert "the program can't be started, and is tried again" in server.said()


def test_a_full_journal_rolls_by_itself(program: Path, log: Path) -> None:
    with serving(program, log) as server, server.client() as client:
        accepted(client, "class van 1000 point (fuel dyn)", *(f"insert van v{i} move (1,0)" for i in range(1_000)))
        accepted(client, "watch w 100000000 RETRIEVE o FROM van o WHERE o.x >= 1000000")
        client.socket.settimeout(1_800)  # lines wait for a roll where they come quicker than it is worked out
        sent = 0
        while not list(log.glob("past-*")):
            lines = [f"update v{(sent + i) % 1000} fuel = {i}" for i in range(2_000)] + ["tick 1"]
            client.write(*lines)
            for _ in lines:
                assert client.reply() == ["ok"]
            sent += 2_000
            assert sent < 2_400_000
        assert sent > 1_700_000
        accepted(client, "tick 1")
        assert [line for line in client.told if line.startswith("* rolled")]
        assert client.ask('export van "e"') == ["ok"]
        before = (log / "files" / "e").read_bytes()
        server.kill()
    with serving(program, log) as server, server.client() as client:
        assert client.ask('export van "e"') == ["ok"]
        assert (log / "files" / "e").read_bytes() == before
    (past,) = log.glob("past-*")
    with past.open("rb") as text:
        assert sum(1 for _ in entries(text)) > 1_700_000
