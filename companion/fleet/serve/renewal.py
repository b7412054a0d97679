"""A new log from what the program saves: after an import, whose rows stand in no line, and where the log grows long."""

from collections.abc import Iterable

from fleet.serve.log import Log
from fleet.serve.outcomes import Number
from fleet.serve.process import Program
from fleet.serve.runner import Runner
from fleet.serve.thread import Thread
from fleet.session_text import entries

MOST_GROWTH = 128 << 20
"""The bytes by which a log grows before a new one begins from what the program saves. With the largest session that
the program saves it stays below the largest file that the program loads."""


class Renewal:
    """Begins new logs."""

    def __init__(self, log: Log, runner: Runner, thread: Thread) -> None:
        self._log = log
        self._saved = runner.folder / runner.saved
        self._thread = thread
        self._most = MOST_GROWTH

    @property
    def is_due(self) -> bool:
        """Whether the log has grown long."""
        return self._log.growth >= self._most

    def put_off(self) -> None:
        """Waits until the log has grown on, after a new one couldn't be begun."""
        self._most = self._log.growth + MOST_GROWTH // 8

    async def renew(self, program: Program, imported: Iterable[Number] | None = None) -> None:
        """Begins a new log from what the program holds; after an import with the numbers of its line.

        Raises OSError and ProgramEnded, and then the old log stands; and LogUnsure.
        """
        try:
            answer = await program.answer(f'save "{self._saved.name}"'.encode(), None)
            if not answer.is_ok:
                raise OSError(f"the session can't be saved: refused {answer.refusal}")
            await self._thread.run(self._begin, imported)
        finally:
            self._saved.unlink(missing_ok=True)
        self._most = MOST_GROWTH

    def _begin(self, imported: Iterable[Number] | None) -> None:
        with self._saved.open("rb") as text:
            commands = (entry.text for entry in entries(text))
            if imported is None:
                self._log.begin(commands)
            else:
                self._log.begin_imported(commands, imported)
