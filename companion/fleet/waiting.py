"""Waiting for what may take for ever, so that a process can end all the same."""

import asyncio
import contextlib
from collections.abc import Callable, Coroutine
from threading import Thread
from typing import Any, TypeVar

Result = TypeVar("Result")


async def first_of(*waited: Coroutine[Any, Any, object]) -> None:
    """Waits until one has ended, ends the others and waits for that, and raises what ended those that were done."""
    tasks = [asyncio.ensure_future(each) for each in waited]
    try:
        done, _ = await asyncio.wait(tasks, return_when=asyncio.FIRST_COMPLETED)
    finally:
        await ended(*tasks)
    for each in done:
        each.result()


async def ended(*tasks: asyncio.Task[Any]) -> None:
    """Cancels tasks and waits until they have ended, however they do."""
    for each in tasks:
        each.cancel()
    await asyncio.gather(*tasks, return_exceptions=True)


async def in_thread(call: Callable[[], Result]) -> Result:
    """Makes a call in a thread of its own, for which nothing waits where this is cancelled or the process ends."""
    loop = asyncio.get_running_loop()
    future: asyncio.Future[Result] = loop.create_future()

    def work() -> None:
        try:
            result = call()
        except BaseException as error:
            settle(future.set_exception, error)
        else:
            settle(future.set_result, result)

    def settle(how: Callable[[Any], None], what: object) -> None:
        # A loop that is closed needs nothing more.
        with contextlib.suppress(RuntimeError):
            loop.call_soon_threadsafe(lambda: None if future.done() else how(what))

    Thread(target=work, daemon=True).start()
    return await future
