"""What a server does besides where its log is a stream."""

import asyncio
from pathlib import Path

from fleet.serve.log import Log
from fleet.serve.runner import Runner
from fleet.serve.thread import Thread
from fleet.serve.turns import Turns
from fleet.streams.follower import Follower
from fleet.streams.log import StreamLog
from fleet.streams.options import Address
from fleet.streams.stream import HOLD_MILLISECONDS, StreamAway, StreamFull

_RENEW_SECONDS = HOLD_MILLISECONDS / 5_000


def joined(folder: Path, address: Address, *, writes: bool) -> StreamLog:
    """The log that is the stream of an address, with its copy in a folder. Raises FleetError and OSError."""
    log = StreamLog(folder, address, writes=writes)
    try:
        log.join()
    except BaseException:
        log.close()
        raise
    return log


class Streaming:
    """Keeps the pen of a writer, or follows the stream as a reader."""

    def __init__(self, log: StreamLog, runner: Runner, thread: Thread, turns: Turns) -> None:
        self._log = log
        self._thread = thread
        self.follower = None if log.writes else Follower(log, runner, thread, turns.give, turns.wake)

    def told(self) -> str:
        """What is told of the stream at the start."""
        log = self._log
        said = log.stream.durability() if log.writes else "it is followed, and what changes something is refused"
        assert log.position is not None
        return f"stream {log.stream.address} at {log.position.id}: {said}"

    async def run(self) -> None:
        """Keeps the pen, or follows, until it is cancelled. Raises PenTaken, ReaderDiffers and NoStream."""
        if self.follower is not None:
            await self.follower.run()
        while True:
            await asyncio.sleep(_RENEW_SECONDS)
            try:
                await self._thread.run(self._log.renew_pen)
            except (StreamAway, StreamFull):
                # A commit finds out whether that matters.
                continue


def streaming_of(log: Log, runner: Runner, thread: Thread, turns: Turns) -> Streaming | None:
    """That of a log; None where it is no stream."""
    return Streaming(log, runner, thread, turns) if isinstance(log, StreamLog) else None
