"""Servers of Redis and brokers of MQTT that a test starts, on free ports of the loopback, and ends."""

import contextlib
import json
import os
import socket
import subprocess
import tempfile
import threading
from collections.abc import Callable, Iterator
from pathlib import Path
from typing import Any

import paho.mqtt.client as mqtt
from servers import WAIT, WITH_TESTS, until

_TRIES = 5
"""Another process may take a port between its choice and its use."""


def free_port() -> int:
    with socket.socket() as chosen:
        chosen.bind(("127.0.0.1", 0))
        port: int = chosen.getsockname()[1]
        return port


def answers(port: int) -> bool:
    with contextlib.suppress(OSError), socket.create_connection(("127.0.0.1", port), timeout=WAIT):
        return True
    return False


class Background:
    """A server that runs in the background, on one port however often it is started."""

    def __init__(self, words: Callable[[int, Path], list[str]]) -> None:
        self.folder = Path(tempfile.mkdtemp(dir=os.environ["HOME"]))
        self._words = words
        self._process: subprocess.Popen[bytes] | None = None
        for _ in range(_TRIES):
            self.port = free_port()
            if self.start():
                return
        raise AssertionError((self.folder / "said").read_text())

    @property
    def address(self) -> str:
        return f"127.0.0.1:{self.port}"

    @property
    def pid(self) -> int:
        assert self._process is not None
        return self._process.pid

    def start(self) -> bool:
        """Starts it, and waits until it can be reached; says whether it runs."""
        with (self.folder / "said").open("ab") as said:
            process = self._process = subprocess.Popen(
                [*WITH_TESTS, *self._words(self.port, self.folder)], cwd=self.folder,
                stdin=subprocess.DEVNULL, stdout=said, stderr=said,
            )  # fmt: skip
        until(lambda: process.poll() is not None or answers(self.port), f"the server on port {self.port}")
        return process.poll() is None

    def kill(self) -> None:
        """Ends it as a crash does."""
        if self._process is not None:
            self._process.kill()
            self._process.wait()


@contextlib.contextmanager
def _background(words: Callable[[int, Path], list[str]]) -> Iterator[Background]:
    server = Background(words)
    try:
        yield server
    finally:
        server.kill()


def redis_server(*options: str) -> contextlib.AbstractContextManager[Background]:
    """A server of Redis that has its own folder; each append is on the disk before it is answered."""

    def words(port: int, folder: Path) -> list[str]:
        return [
            "redis-server", "--bind", "127.0.0.1", "--port", str(port), "--dir", str(folder), "--save", "",
            "--appendonly", "yes", "--appendfsync", "always", "--repl-diskless-sync-delay", "0", *options,
        ]  # fmt: skip

    return _background(words)


def mosquitto(*lines: str) -> contextlib.AbstractContextManager[Background]:
    """A broker of MQTT, with these lines in its settings."""

    def words(port: int, folder: Path) -> list[str]:
        settings = folder / "mosquitto.conf"
        settings.write_text("\n".join([f"listener {port} 127.0.0.1", "allow_anonymous true", *lines, ""]))
        return ["mosquitto", "-c", str(settings)]

    return _background(words)


class Person:
    """A client of a broker, which publishes and listens. `heard` has each topic and what came there."""

    def __init__(self, broker: Background, *topics: str) -> None:
        self.heard: list[tuple[str, str]] = []
        self._client = mqtt.Client(clean_session=True)
        self._client.on_message = lambda _, __, message: self.heard.append((message.topic, message.payload.decode()))
        is_ready = threading.Event()
        self._client.on_connect = lambda client, *_: client.subscribe([(topic, 1) for topic in topics or ("none",)])
        self._client.on_subscribe = lambda *_: is_ready.set()
        self._client.connect("127.0.0.1", broker.port)
        self._client.loop_start()
        assert is_ready.wait(WAIT), "the broker doesn't answer"

    def __enter__(self) -> "Person":
        return self

    def __exit__(self, *_: object) -> None:
        self._client.disconnect()
        self._client.loop_stop()

    def say(self, topic: str, payload: bytes | str, *, retain: bool = False) -> None:
        """Publishes, and waits until the broker has it."""
        self._client.publish(topic, payload, qos=1, retain=retain).wait_for_publish(WAIT)

    def report(self, topic: str, **properties: Any) -> None:
        """Publishes a report."""
        self.say(topic, json.dumps(properties))

    def told(self, topic: str) -> list[dict[str, Any]]:
        """What came to a topic, as objects of JSON."""
        return [json.loads(text) for name, text in list(self.heard) if name == topic]
