"""Starts the program from the log."""

import asyncio
import contextlib
import logging
import os
from pathlib import Path

from fleet.serve.known import Known
from fleet.serve.locks import lock
from fleet.serve.log import Log
from fleet.serve.process import Program, ProgramEnded
from fleet.serve.thread import Thread

OWN_PREFIX = ".fleet-"
"""What the names of the server's own files begin with in the clients' folder; clients may not use such names."""
_RETRY_SECONDS = 1.0

_LOGGER = logging.getLogger("fleet.serve")


class Runner:
    """Starts programs in the folder of the clients' files, each from a closed copy of the log.

    One server uses such a folder at a time, since it has files of its own there. Raises FolderInUse and OSError.
    """

    def __init__(self, program: Path, folder: Path, log: Log, thread: Thread) -> None:
        folder.mkdir(mode=0o700, parents=True, exist_ok=True)
        self.folder = folder
        self._lock = lock(folder, folder)
        self._program = program
        self._log = log
        self._thread = thread
        for left in folder.glob(f"{OWN_PREFIX}*"):
            left.unlink()
        # What a program of a server that has crashed may still write is another file.
        self._session = f"{OWN_PREFIX}session-{os.getpid()}"
        self.saved = f"{OWN_PREFIX}saved-{os.getpid()}"

    async def start(self, prepared: Path | None = None) -> tuple[Program, Known]:
        """Starts the program from the log, or from one that was prepared, and gives it with what it holds.

        Raises SessionRefused, ProgramEnded and OSError.
        """
        session = self.folder / self._session
        try:
            await self._thread.run(self._log.copy_closed, session, prepared)
            program, listed = await Program.start(self._program, self.folder, self._session)
        finally:
            with contextlib.suppress(OSError):
                session.unlink(missing_ok=True)
        return program, Known(listed)

    def close(self) -> None:
        """Lets go of the folder."""
        os.close(self._lock)

    async def start_again(self) -> tuple[Program, Known]:
        """Starts the program from the log, as often as it takes. Raises SessionRefused."""
        while True:
            try:
                return await self.start()
            except (OSError, ProgramEnded) as error:
                _LOGGER.error("the program can't be started, and is tried again: %s", error)
                await asyncio.sleep(_RETRY_SECONDS)
