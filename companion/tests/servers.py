"""A server that a test runs, and clients of it over its line protocol."""

import contextlib
import os
import re
import signal
import socket
import subprocess
import sys
import tempfile
import time
from collections.abc import Callable, Iterator
from pathlib import Path

from fleet.serve.process import with_its_parent

COMPANION = Path(__file__).resolve().parents[1]
WITH_TESTS = with_its_parent()
"""The words before those of a server with which it ends as soon as the tests do, however they end."""
WAIT = 60.0
"""The most seconds that a test waits for anything."""
PATIENCE = 60
"""The seconds that a line may take, unless a test gives others: the machine may be very busy."""


class Gone(Exception):
    """The server has closed the connection."""


class LineClient:
    """A connection over the line protocol. `told` has the server's own lines, those that begin with `* `."""

    def __init__(self, address: tuple[str, int], *, greeted: bool = True, system_bytes: int = 0) -> None:
        self.socket = socket.socket()
        if system_bytes:
            # How much the system takes for a client that doesn't read is told before it connects.
            self.socket.setsockopt(socket.SOL_SOCKET, socket.SO_RCVBUF, system_bytes)
        self.socket.settimeout(WAIT)
        self.socket.connect(address)
        self.socket.setsockopt(socket.IPPROTO_TCP, socket.TCP_NODELAY, 1)
        self._rest = b""
        self._lines: list[str] = []
        self.told: list[str] = []
        if greeted:
            self.greeting = self.line()
            assert self.greeting.startswith("* fleet 1 "), self.greeting

    def __enter__(self) -> "LineClient":
        return self

    def __exit__(self, *_: object) -> None:
        self.close()

    def close(self) -> None:
        self.socket.close()

    def write(self, *lines: str) -> None:
        """Sends lines without a look at the replies."""
        self.write_bytes("".join(f"{line}\n" for line in lines).encode())

    def write_bytes(self, piece: bytes) -> None:
        try:
            self.socket.sendall(piece)
        except OSError as error:
            raise Gone from error

    def line(self) -> str:
        """The next line. Raises Gone where none comes."""
        while not self._lines:
            try:
                piece = self.socket.recv(65_536)
            except TimeoutError:
                raise AssertionError("the server says nothing") from None
            except OSError as error:
                raise Gone from error
            if not piece:
                raise Gone
            *lines, self._rest = (self._rest + piece).split(b"\n")
            self._lines = [line.decode() for line in lines]
        return self._lines.pop(0)

    def reply(self) -> list[str]:
        """The lines of the next reply, the server's own lines left out."""
        lines: list[str] = []
        while not lines or not (lines[-1] == "ok" or lines[-1].startswith("refused ")):
            line = self.line()
            if line.startswith("* "):
                assert not lines, f"{line} stands in a reply"
                self.told.append(line)
            else:
                lines.append(line)
        return lines

    def ask(self, line: str) -> list[str]:
        """Sends a line and gives its reply."""
        self.write(line)
        return self.reply()

    def asks(self, *lines: str) -> list[list[str]]:
        """Sends lines and gives their replies."""
        self.write(*lines)
        return [self.reply() for _ in lines]

    def next_told(self) -> str:
        """The next of the server's own lines, those that have come before included."""
        if self.told:
            return self.told.pop(0)
        line = self.line()
        assert line.startswith("* "), line
        return line

    def rest(self) -> list[str]:
        """All lines up to the end of the connection."""
        lines = []
        with contextlib.suppress(Gone):
            while True:
                lines.append(self.line())
        return lines


class Serving:
    """A server that runs. `stderr` is the file of what it says there."""

    def __init__(self, program: Path, log: Path, *options: str, environment: dict[str, str] | None = None) -> None:
        self.log = log
        if "--patience" not in options:
            options = (*options, "--patience", str(PATIENCE))
        self.stderr = Path(tempfile.mkdtemp(dir=os.environ["HOME"])) / "err"
        with self.stderr.open("ab") as error:
            self.process = subprocess.Popen(
                [*WITH_TESTS, sys.executable, str(COMPANION / "bin" / "fleet"), "serve", "--port", "0",
                 "--log", str(log), "--program", str(program), *options],
                stdin=subprocess.DEVNULL, stdout=subprocess.PIPE, stderr=error, text=True,
                env=os.environ | (environment or {}),
            )  # fmt: skip
        assert self.process.stdout is not None
        count = 4 + sum(option in options for option in ("--ws-port", "--redis", "--mqtt"))
        self.told = [self.process.stdout.readline().rstrip("\n") for _ in range(count)]

    @property
    def address(self) -> tuple[str, int]:
        return self._address("lines on ")

    @property
    def websocket(self) -> str:
        host, port = self._address("WebSocket on ")
        return f"ws://{host}:{port}"

    def _address(self, start: str) -> tuple[str, int]:
        line = next((line for line in self.told if line.startswith(start)), "")
        assert line, f"{self.told}: {self.said()}"
        host, _, port = line.removeprefix(start).rpartition(":")
        return host, int(port)

    def client(self) -> LineClient:
        return LineClient(self.address)

    def said(self) -> str:
        """What it said on standard error."""
        return self.stderr.read_text()

    def program_pid(self) -> int:
        """The process of the program."""
        children = Path(f"/proc/{self.process.pid}/task/{self.process.pid}/children").read_text().split()
        names = {int(child): Path(f"/proc/{child}/cmdline").read_bytes() for child in children}
        return next(child for child, words in names.items() if b"--session" in words)

    def kill(self) -> None:
        """Ends the server as a crash does."""
        self.process.kill()
        self.process.wait()

    def stop(self) -> int:
        """Ends the server as its user does, and gives its status."""
        if self.process.poll() is None:
            self.process.send_signal(signal.SIGTERM)
        return self.process.wait(WAIT)

    def end(self) -> None:
        """Leaves nothing behind."""
        if self.process.poll() is None:
            self.process.kill()
        self.process.wait()
        assert self.process.stdout is not None
        self.process.stdout.close()


@contextlib.contextmanager
def serving(program: Path, log: Path, *options: str, **more: dict[str, str]) -> Iterator[Serving]:
    """A server on a log, which is ended with the block."""
    server = Serving(program, log, *options, **more)
    try:
        yield server
    finally:
        server.end()


LONG_LINE = (
    "ask 10000 RETRIEVE o FROM big o WHERE [v <- o.x] EVENTUALLY [w <- o.y] EVENTUALLY (o.a > v OR o.b > w)"
)
"""A line that takes minutes over the objects of `big_class`."""


def big_class() -> list[str]:
    """The commands of a class of 100 objects."""
    objects = [
        f"insert big o{i} at ({i},{i % 7}) move [(1,0.5),{i + 1}] [(-1,-0.5),{i + 2}] (0.3,1) a = {i} rate 0.1"
        for i in range(100)
    ]
    return ["class big 100 point (a dyn,b dyn)", *objects]


def hanging(folder: Path, replies: int) -> tuple[Path, Path]:
    """A program that accepts some lines and hangs with the next one, and the file that has its number then."""
    program, pid = folder / "hanging", folder / "pid"
    lines = ["#!/bin/sh", *["read -r line; echo ok"] * replies, "read -r line", f"printf %s $$ >'{pid}.new'"]
    program.write_text("\n".join([*lines, f"mv '{pid}.new' '{pid}'", "exec sleep 3600", ""]))
    program.chmod(0o755)
    return program, pid


def until(holds: object, what: str = "it") -> None:
    """Waits until a condition holds."""
    end = time.monotonic() + WAIT
    while not holds():  # type: ignore[operator]
        assert time.monotonic() < end, f"{what} doesn't come"
        time.sleep(0.01)


def programs_of(log: Path) -> list[int]:
    """The processes that run in the folder of a log's files."""
    found = []
    for process in Path("/proc").glob("[0-9]*"):
        with contextlib.suppress(OSError):
            if re.search(rb"--session\0\.fleet-session", (process / "cmdline").read_bytes()):
                if (process / "cwd").resolve() == (log / "files").resolve():
                    found.append(int(process.name))
    return found


def accepted(client: LineClient, *lines: str) -> None:
    """Sends lines that are all accepted."""
    for line, reply in zip(lines, client.asks(*lines)):
        assert reply[-1] == "ok", (line, reply)


def commands_of(log: Path) -> list[str]:
    """The commands of the log as it stands, those that are whole."""
    path = max(log.glob("log-*"))
    return [line for line in path.read_text().split("\n")[1:-1] if not line.startswith("#")]


def prepare_flood(writer: LineClient) -> None:
    """Has a class and queries such that followers are told much of each update."""
    accepted(writer, "class van 40 point", *(f"insert van v{i}" for i in range(40)))
    accepted(writer, *(f"watch w{i} 90000 RETRIEVE o FROM van o WHERE o.x >= 0" for i in range(20)))


def flood(writer: LineClient, follower: LineClient, is_enough: Callable[[], bool], most: int) -> None:
    """Sends rounds of updates, fewer than `most`, until that is enough, and checks that a follower is told all of them."""
    received, rounds = 0, 0
    while not is_enough():
        for place in (-1, 1):
            replies = writer.asks(*(f"update v{i} at ({place},0)" for i in range(40)))
            assert [len(reply) for reply in replies] == [41] * 40
        rounds += 1
        follower.ask("list")
        received += len(follower.told)
        follower.told.clear()
        assert rounds < most
    assert received == rounds * 2 * 40 * 40


class Model:
    """A client that sends numbered lines, and sends again what has no reply, over any number of connections.

    Its lines are such that the state at the end says how often each was carried out: one tick more with each second
    line, and an object that is where its last update put it. Each fifth line is refused.
    """

    def __init__(self, name: str) -> None:
        self.name = name
        self.replied = 0
        self._left_out: set[int] = set()
        self._client: LineClient | None = None

    def line(self, number: int) -> str:
        if number == 1 or number % 5 == 0:
            return f"insert van {self.name}"
        return "tick 1" if number % 2 else f"update {self.name} at ({number},0)"

    def place(self) -> int:
        """Where its object is."""
        return max(self.numbers("update"), default=0)

    def numbers(self, start: str) -> list[int]:
        """The numbers of the lines that were carried out and begin so."""
        numbers = range(1, self.replied + 1)
        return [n for n in numbers if n not in self._left_out and self.line(n).startswith(start)]

    def connect(self, server: Serving) -> None:
        """Connects anew. Raises Gone and OSError."""
        self.close()
        self._client = server.client()
        self._client.ask(f":client {self.name}")

    def close(self) -> None:
        if self._client is not None:
            self._client.close()

    def write(self, count: int) -> None:
        """Sends the next lines that have no reply, and reads nothing. Raises Gone."""
        assert self._client is not None
        first = self.replied + 1
        self._client.write(*(f"@{number} {self.line(number)}" for number in range(first, first + count)))

    def send(self, count: int) -> None:
        """Sends the next lines that have no reply, and reads the replies; fewer where the connection ends."""
        assert self._client is not None
        with contextlib.suppress(Gone):
            self.write(count)
            for _ in range(count):
                self._take(self._client.reply())

    def _take(self, reply: list[str]) -> None:
        self.replied += 1
        if reply == ["refused 105 ProgramEnded"]:
            # Signals have ended the program with this line again and again. It wasn't carried out.
            self._left_out.add(self.replied)
            return
        is_refused = self.replied > 1 and self.replied % 5 == 0
        assert reply == (["refused 14 Presence"] if is_refused else ["ok"]), (self.name, self.replied, reply)


class ImportModel(Model):
    """A client that imports a file of one row again and again."""

    def line(self, number: int) -> str:
        return f'import van "{self.name}.csv"' if number > 1 and number % 5 else f"insert van {self.name}"

    def place(self) -> int:
        return 7

    def write_file(self, folder: Path) -> None:
        """Writes the file, which moves the object to its place."""
        (folder / f"{self.name}.csv").write_text(f"name,x\n{self.name},{self.place()}\n")


def check_models(models: list[Model], server: Serving, *, is_rolled: bool = False) -> None:
    """Checks that each line that was replied to was carried out once, and no other."""
    ticks = sum(len(model.numbers("tick")) for model in models)
    with server.client() as client:
        assert client.ask("list")[0] == f"clock {ticks}"
        assert client.ask('export van "e"') == ["ok"]
    rows = (server.log / "files" / "e").read_text().splitlines()[1:]
    assert sorted(rows) == sorted(f"{model.name},{model.place()},0,0,0" for model in models)
    if not is_rolled:
        changes = sum(len(model.numbers("update")) + len(model.numbers("import")) for model in models)
        assert len(commands_of(server.log)) == 1 + len(models) + ticks + changes
