"""The program as a process of the server: lines in, replies out, each within the server's patience."""

import asyncio
import contextlib
import functools
import subprocess
from collections.abc import AsyncIterator, Iterable
from dataclasses import dataclass
from pathlib import Path

from fleet.errors import FleetError
from fleet.replies import Reply, ReplyReader

_PIECE = 65_536
_LAST_SECONDS = 5.0
"""How long the program may take to end after the end of its input."""


class OutOfPatience(Exception):
    """Lines took longer than the server's patience."""

    def __str__(self) -> str:
        return "the program has taken longer than the patience of the server"


class ProgramEnded(Exception):
    """The program ended before it answered; `status` is its exit status, or minus the signal that ended it."""

    def __init__(self, status: int) -> None:
        super().__init__(f"the program ended with status {status}")
        self.status = status


class SessionRefused(FleetError):
    """The program refuses the session; `number` is that of the line."""

    def __init__(self, number: int) -> None:
        super().__init__(f"the program refuses line {number} of the log")
        self.number = number


@dataclass(frozen=True, slots=True)
class Answer:
    """A reply as the program wrote it: its lines with their line feeds, and the last of them."""

    block: bytes
    last: bytes

    @property
    def is_ok(self) -> bool:
        return self.last == b"ok"

    @property
    def refusal(self) -> str:
        """The number and the name of the refusal; empty where the line was accepted."""
        return "" if self.is_ok else self.last.removeprefix(b"refused ").decode()

    def read(self) -> Reply:
        """It as records. Raises BadReply."""
        reader = ReplyReader()
        for line in self.block.decode("ascii").splitlines():
            reply = reader.feed(line)
        assert reply is not None
        return reply


class Program:
    """A process of the program. One task at a time may ask it."""

    def __init__(self, process: asyncio.subprocess.Process) -> None:
        assert process.stdin is not None and process.stdout is not None
        self._process = process
        self._input, self._output = process.stdin, process.stdout
        self._lines: list[bytes] = []
        self._rest = bytearray()
        self.bytes_sent = 0

    @classmethod
    async def start(cls, program: Path, folder: Path, session: str) -> tuple["Program", Reply]:
        """Starts the program on a session of the folder, and gives it with the reply to its first line, `list`.

        Raises SessionRefused, ProgramEnded and OSError.
        """
        process = await asyncio.create_subprocess_exec(
            *with_its_parent(), str(program), "--session", session,
            stdin=asyncio.subprocess.PIPE, stdout=asyncio.subprocess.PIPE, cwd=folder,
            # An interrupt at the terminal is for the server alone.
            process_group=0,
        )  # fmt: skip
        started = cls(process)
        try:
            listed = await started.answer(b"list", None)
        except ProgramEnded as error:
            number = b" ".join(started._lines).removeprefix(b"bad session ")
            if error.status == 2 and number.isdigit():
                raise SessionRefused(int(number)) from None
            raise
        except BaseException:
            await started.kill()
            raise
        return started, listed.read()

    async def answers(self, lines: list[bytes], patience: float | None) -> AsyncIterator[Answer]:
        """Sends the lines and gives the reply to each as it comes.

        Raises OutOfPatience where one takes more seconds than `patience`, and ProgramEnded; the program must then be
        started anew.
        """
        piece = b"".join(line + b"\n" for line in lines)
        self.bytes_sent += len(piece)
        # What the pipe doesn't take at once the loop writes while the replies are read.
        self._input.write(piece)
        left, clock = len(lines), asyncio.get_running_loop().time
        while left > 0:
            due = None if patience is None else clock() + patience
            for answer in await self._next_answers(due):
                left -= 1
                yield answer

    async def answer(self, line: bytes, patience: float | None) -> Answer:
        """Sends one line and gives its reply. Raises as `answers` does."""
        return [answer async for answer in self.answers([line], patience)][0]

    async def _next_answers(self, due: float | None) -> list[Answer]:
        """The next answer, and those that come with the end of it."""
        found: list[Answer] = []
        while not found:
            try:
                async with asyncio.timeout_at(due):
                    piece = await self._output.read(_PIECE)
            except TimeoutError:
                raise OutOfPatience from None
            if not piece:
                raise ProgramEnded(await self._process.wait())
            self._rest += piece
            if b"\n" in piece:
                found += self._ended()
        return found

    def _ended(self) -> Iterable[Answer]:
        """The answers that have ended with what was read."""
        *lines, rest = self._rest.split(b"\n")
        self._rest = rest
        for line in map(bytes, lines):
            self._lines.append(line)
            if line == b"ok" or line.startswith(b"refused "):
                answer = Answer(b"\n".join(self._lines) + b"\n", line)
                self._lines = []
                yield answer

    @property
    def has_ended(self) -> bool:
        return self._process.returncode is not None

    async def kill(self) -> None:
        """Ends it at once."""
        with contextlib.suppress(ProcessLookupError):
            self._process.kill()
        await self._process.wait()

    async def close(self) -> None:
        """Ends it by the end of its input, or where that takes too long at once."""
        self._input.close()
        try:
            async with asyncio.timeout(_LAST_SECONDS):
                await self._process.wait()
        except TimeoutError:
            await self.kill()


@functools.cache
def with_its_parent() -> tuple[str, ...]:
    """The words before those of a process with which it ends as soon as the server does, where that can be had.

    Without them the program ends too, as its input does, but a long line is carried out before.
    """
    words = ("setpriv", "--pdeathsig", "KILL", "--")
    try:
        works = subprocess.run([*words, "true"], capture_output=True, check=False).returncode == 0
    except OSError:
        works = False
    return words if works else ()
