"""Clients that load a server while a test kills it and what stands on it."""

import contextlib
import math
import random
import threading
import time

from servers import Gone, Model, Serving


class _Load(threading.Thread):
    """A client that sends the lines of a model, up to the number that is allowed, over the last of the servers."""

    def __init__(self, model: Model, servers: list[Serving], allowed: float) -> None:
        super().__init__()
        self.model = model
        self.allowed = allowed
        self.is_ending = False
        self.fault: BaseException | None = None
        self._servers = servers
        self._random = random.Random(model.name)

    def run(self) -> None:
        try:
            while not self.is_ending:
                with contextlib.suppress(Gone, OSError):
                    self.model.connect(self._servers[-1])
                    self._send_on()
                time.sleep(0.01)
        except BaseException as fault:  # noqa: BLE001  (told by the test)
            self.fault = fault

    def _send_on(self) -> None:
        while not self.is_ending:
            before = self.model.replied
            count = int(min(self._random.randint(1, 100), self.allowed - before))
            if count <= 0:
                time.sleep(0.01)
                continue
            self.model.send(count)
            if self.model.replied < before + count:
                raise Gone


class Loads:
    """A client for each model, which send from the beginning of the block to its end.

    Each sends no more lines than are allowed, which `allow` adds to.
    """

    def __init__(self, models: list[Model], servers: list[Serving], allowed: float = math.inf) -> None:
        self._models = models
        self._loads = [_Load(model, servers, allowed) for model in models]

    def __enter__(self) -> "Loads":
        for load in self._loads:
            load.start()
        return self

    def __exit__(self, *_: object) -> None:
        for load in self._loads:
            load.is_ending = True

    @property
    def replied(self) -> int:
        """How many lines have replies."""
        return sum(model.replied for model in self._models)

    def check(self) -> None:
        """Checks that all of them go on."""
        assert [load.fault for load in self._loads if load.fault is not None or not load.is_alive()] == []

    def allow(self, count: int, part: float) -> None:
        """Allows each so many lines more, and waits until a part, from 0 to 1, of those without a reply has one."""
        before = self.replied
        for load in self._loads:
            load.allowed += count
        wanted = before + part * (sum(load.allowed for load in self._loads) - before)
        while self.replied < wanted:
            self.check()
            time.sleep(0.01)

    def end(self, server: Serving, more: int) -> None:
        """Ends them, and has each of the models send some lines more to a server.

        What was sent last and not replied to may have been carried out or not; sent again it is carried out once.
        """
        self.__exit__()
        for load in self._loads:
            load.join()
            assert load.fault is None
        for model in self._models:
            model.connect(server)
            model.send(more)
