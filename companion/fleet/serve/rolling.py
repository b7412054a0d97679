"""Rolls the log by itself before the program's journal is full.

The rolled commands are worked out by a process beside the server, from the log as it stands then. When they are there,
what was added since follows them in a new log, and a new program takes over; clients wait no longer than it takes to
load. The old log is kept as a closed session.
"""

import asyncio
import json
import logging
import os
import re
import sys
from collections.abc import Callable, Iterator
from dataclasses import dataclass
from pathlib import Path
from typing import Protocol

from fleet.roll import Rolled
from fleet.serve.known import Known
from fleet.serve.log import Log
from fleet.serve.process import Program, ProgramEnded, SessionRefused, with_its_parent
from fleet.serve.runner import Runner
from fleet.serve.thread import Thread
from fleet.words import JOURNAL_BYTES, JOURNAL_ENTRIES

DEFAULT_ENTRIES = JOURNAL_ENTRIES * 9 // 10
"""The entries at which a log is rolled."""
_BYTES = JOURNAL_BYTES // 2
"""The bytes of commands as they were typed at which a log is rolled; their canonical lines may be longer."""
_RESERVE = 1_000
"""The entries that are left to the journal when no line is carried out before a roll is done."""
_MOST_OVERTAKEN = 2
_COMMANDS = ".rolled-"
"""What the names of the files begin with that rolled commands are written to."""
_DROP = re.compile(rb"[ \t]*drop[ \t]+([A-Za-z_][A-Za-z0-9_]*)[ \t]*")
_PACKAGES = Path(__file__).resolve().parents[2]

_LOGGER = logging.getLogger("fleet.serve")


class Tells(Protocol):
    """What tells clients what was lost."""

    def lines(self) -> list[str]: ...


class Rolling(Protocol):
    """What the engine asks of it where a log is to follow the present one."""

    @property
    def must_wait(self) -> bool: ...

    @property
    def is_ready(self) -> bool: ...

    def look(self) -> None: ...

    def hurry(self) -> None: ...

    async def wait(self) -> None: ...

    def stop(self) -> None: ...

    async def take_over(self, clock: int) -> "tuple[Program, Known, Tells] | None": ...


@dataclass(slots=True)
class _Running:
    """A roll that is being worked out: of which log, up to which of its bytes."""

    of: Path
    size: int
    task: asyncio.Task[Rolled | None]


class Roller:
    """Rolls the log of a server. `wake` is called when `is_ready` becomes true."""

    def __init__(
        self, log: Log, runner: Runner, thread: Thread, most_entries: int, wake: Callable[[], None]
    ) -> None:
        self._log = log
        self._runner = runner
        self._thread = thread
        self._most_entries = most_entries
        self._entries_at = most_entries
        self._bytes_at = _BYTES
        self._wake = wake
        self._running: _Running | None = None
        self._overtaken = 0
        self._rolled_entries = 0
        for left in log.folder.glob(f"{_COMMANDS}*"):
            left.unlink()
        # What is worked out for a server that has crashed is another file.
        self._commands = log.folder / f"{_COMMANDS}{os.getpid()}"

    @property
    def is_running(self) -> bool:
        return self._running is not None

    @property
    def must_wait(self) -> bool:
        """Whether a roll is running that nothing may overtake: the journal is nearly full, or imports, each of which
        begins a new log, have overtaken it before."""
        is_short = self._log.entries > JOURNAL_ENTRIES - _RESERVE
        return self._running is not None and (is_short or self._overtaken >= _MOST_OVERTAKEN)

    @property
    def is_ready(self) -> bool:
        """Whether a roll is worked out, and `take_over` may be called."""
        return self._running is not None and self._running.task.done()

    def look(self) -> None:
        """Begins a roll where one is due."""
        log = self._log
        if self._running is None and (log.entries >= self._entries_at or log.command_bytes >= self._bytes_at):
            _LOGGER.info("the log has %d entries and is rolled", log.entries)
            task = asyncio.create_task(self._work_out(log.path, log.size))
            task.add_done_callback(lambda _: self._wake())
            self._running = _Running(log.path, log.size, task)

    def hurry(self) -> None:
        """Says that the journal is full, so that a roll is due: unless not much was added since the last one."""
        if self._log.entries > self._rolled_entries * 5 // 4:
            self._entries_at = 0

    async def wait(self) -> None:
        """Waits until a roll that is running is worked out."""
        if self._running is not None:
            await asyncio.wait([self._running.task])

    def stop(self) -> None:
        """Gives a running roll up."""
        if self._running is not None:
            self._running.task.cancel()

    async def take_over(self, clock: int) -> tuple[Program, Known, Rolled] | None:
        """Goes on from a rolled log: a program that has loaded it, what it holds, and what became of the old log.

        The clock is that which it must have. None where that can't be had, and then all is as it was. Raises LogUnsure.
        No line may be carried out meanwhile.
        """
        assert self._running is not None
        running, self._running = self._running, None
        if running.of != self._log.path:
            self._overtaken += 1
            return None
        self._overtaken = 0
        try:
            told = running.task.result()
            taken = None if told is None else await self._adopted(running, told, clock)
        except (OSError, SessionRefused, ProgramEnded) as error:
            _LOGGER.error("the log can't be rolled: %s", error)
            taken = None
        self._set_next(taken is not None)
        return taken

    async def _adopted(self, running: _Running, told: Rolled, clock: int) -> tuple[Program, Known, Rolled]:
        commands = _rolled_and_since(self._log, running.size, told, self._commands)
        prepared = await self._thread.run(self._log.prepare, commands, is_rolled=True)
        try:
            program, known = await self._runner.start(prepared)
        except BaseException:
            prepared.unlink()
            raise
        try:
            if known.clock != clock:
                raise OSError(f"the clock of the rolled log is {known.clock}, not {clock}")
            await self._thread.run(self._log.adopt, prepared)
        except BaseException:
            await program.kill()
            prepared.unlink(missing_ok=True)
            raise
        self._commands.unlink(missing_ok=True)
        return program, known, told

    def _set_next(self, has_rolled: bool) -> None:
        """Says when to roll next: later than usual where the last roll didn't help much."""
        log = self._log
        self._rolled_entries = log.entries
        helped = has_rolled and log.entries < self._most_entries * 3 // 4 and log.command_bytes < _BYTES * 3 // 4
        self._entries_at = self._most_entries if helped else (log.entries + JOURNAL_ENTRIES) // 2
        self._bytes_at = _BYTES if helped else (log.command_bytes + JOURNAL_BYTES) // 2

    async def _work_out(self, path: Path, size: int) -> Rolled | None:
        """Works the rolled commands out, in a process of its own; None where that fails."""
        process = await asyncio.create_subprocess_exec(
            *with_its_parent(), sys.executable, "-m", "fleet.serve.roll_process",
            str(path), str(size), str(self._commands),
            stdin=asyncio.subprocess.DEVNULL, stdout=asyncio.subprocess.PIPE, process_group=0,
            env=os.environ | {"PYTHONPATH": str(_PACKAGES)},
        )  # fmt: skip
        try:
            output, _ = await process.communicate()
        except BaseException:
            process.kill()
            raise
        if process.returncode:
            _LOGGER.error("the log can't be rolled: status %d", process.returncode)
            return None
        return Rolled(**json.loads(output))


def _rolled_and_since(log: Log, size: int, told: Rolled, rolled: Path) -> Iterator[bytes]:
    """The rolled commands of a file, and those that were added to the log since. An expired query that was dropped
    since is gone already. Raises OSError where the file hasn't all commands."""
    count = 0
    with rolled.open("rb") as commands:
        for count, command in enumerate(commands, 1):
            yield command.removesuffix(b"\n")
    if count != told.entries_after:
        raise OSError(f"there are {count} rolled commands, not {told.entries_after}")
    gone = {name.encode() for name in told.expired_queries}
    for command in log.commands_since(size):
        match = _DROP.fullmatch(command)
        if match and match.group(1) in gone:
            gone.remove(match.group(1))
        else:
            yield command
