"""A process with pipes to its standard input and output, which is read while it is written to."""

import os
import selectors
import subprocess
from collections.abc import Sequence
from pathlib import Path
from typing import IO, cast

PIECE = 65_536
"""The most bytes that are read or written at once."""


class Process:
    """A process that is being run. `status` is its exit status, None while it runs, or minus the signal that ended it.

    What is queued is written as the process takes it, and whoever waits for that reads at the same time: so neither
    side can wait for the other for ever.
    """

    def __init__(self, words: Sequence[str], directory: Path) -> None:
        # A process group of its own keeps an interrupt at the terminal from ending the program, and all that it holds.
        self._process = subprocess.Popen(
            words, stdin=subprocess.PIPE, stdout=subprocess.PIPE, bufsize=0, cwd=directory, process_group=0
        )
        self.status: int | None = None
        self._input = cast(IO[bytes], self._process.stdin)
        self._output = cast(IO[bytes], self._process.stdout)
        self._queued = bytearray()
        self._waits_for_room = False
        self._selector = selectors.DefaultSelector()
        self._selector.register(self._output, selectors.EVENT_READ)
        os.set_blocking(self._input.fileno(), False)

    @property
    def queued(self) -> int:
        """How many bytes aren't written yet."""
        return len(self._queued)

    def queue(self, piece: bytes) -> None:
        """Takes bytes that are to be written."""
        self._queued += piece

    def write(self) -> None:
        """Writes what is queued, as far as the process takes it now."""
        try:
            while self._queued:
                del self._queued[: os.write(self._input.fileno(), self._queued[:PIECE])]
        except BlockingIOError:
            pass
        except BrokenPipeError:
            # It takes no more, since it has ended. What it wrote before can still be read.
            self._queued.clear()
        self._wait_for_room(bool(self._queued))

    def advance(self, patience: float | None) -> bytes:
        """Waits until the process takes or writes something, and gives what it wrote.

        At the end of its output `status` is set. Raises TimeoutError after `patience` seconds; None waits for ever.
        """
        ready = self._selector.select(patience)
        if not ready:
            raise TimeoutError
        sides = [key.fileobj for key, _ in ready]
        if self._input in sides:
            self.write()
        if self._output not in sides:
            return b""
        piece = os.read(self._output.fileno(), PIECE)
        if not piece:
            self._end(patience)
        return piece

    def close_input(self) -> None:
        """Closes its input, and drops what is queued."""
        if self.status is None:
            self._queued.clear()
            self._wait_for_room(False)
            self._input.close()

    def kill(self) -> None:
        """Ends it at once."""
        if self.status is None:
            self._process.kill()
            self._end(None)

    def interrupt(self) -> None:
        """Ends it at once, from any thread: one that waits for it comes to the end of its output."""
        self._process.kill()

    def _wait_for_room(self, wanted: bool) -> None:
        if wanted and not self._waits_for_room:
            self._selector.register(self._input, selectors.EVENT_WRITE)
        elif self._waits_for_room and not wanted:
            self._selector.unregister(self._input)
        self._waits_for_room = wanted

    def _end(self, patience: float | None) -> None:
        self._selector.close()
        self._input.close()
        self._output.close()
        try:
            self.status = self._process.wait(patience)
        except subprocess.TimeoutExpired:
            self._process.kill()
            self.status = self._process.wait()
