"""A thread for what waits for the disk, so that clients are served meanwhile."""

import asyncio
from collections.abc import Callable
from concurrent.futures import ThreadPoolExecutor
from typing import ParamSpec, TypeVar

Parameters = ParamSpec("Parameters")
Result = TypeVar("Result")


class Thread:
    """One thread, which makes one call after the other."""

    def __init__(self) -> None:
        self._executor = ThreadPoolExecutor(1, "log")

    async def run(
        self, call: Callable[Parameters, Result], *arguments: Parameters.args, **named: Parameters.kwargs
    ) -> Result:
        """Makes the call and gives its result, or raises what it raises."""
        return await asyncio.get_running_loop().run_in_executor(self._executor, lambda: call(*arguments, **named))

    def close(self) -> None:
        """Ends the thread after its last call."""
        self._executor.shutdown()
