"""A client of a broker of MQTT that connects again and again. Needs python3-paho-mqtt.

It has a thread of its own. What comes waits in a bounded row, of which the oldest is lost first: of positions the last
one counts.
"""

import asyncio
import contextlib
import logging
import secrets
import threading
import time
from collections import deque
from collections.abc import Callable, Sequence
from dataclasses import dataclass
from typing import Any

import paho.mqtt.client as mqtt

from fleet.brokers.options import BrokerAddress

MOST_WAITING = 20_000
"""How many messages wait at most, of those that came and of those that are to be published."""
_MOST_FLYING = 100
_KEEP_ALIVE = 30
_MOST_PAUSE = 10
_LAST_SECONDS = 2.0
"""How long the last messages may take when the server ends."""
_QOS = 1

_LOGGER = logging.getLogger("fleet.serve")


@dataclass(frozen=True, slots=True)
class Message:
    """A message of the broker: its topic, its bytes, and when it came, in microseconds since 1970."""

    topic: str
    payload: bytes
    came: int


class BrokerClient:
    """Takes messages of some topics, and publishes.

    `wake` is called in the loop when messages wait. On `state` the word `here` is kept while it is connected, and
    `away` while it isn't.
    """

    def __init__(self, address: BrokerAddress, topics: Sequence[str], state: str, wake: Callable[[], None]) -> None:
        self.lost = 0
        self._address = address
        self._topics = topics
        self._state = state
        self._wake = wake
        self._loop = asyncio.get_running_loop()
        self._waiting: deque[Message] = deque()
        self._is_woken = False
        self._is_ending = False
        self._lock = threading.Lock()
        self._client = client = mqtt.Client(f"fleet-{secrets.token_hex(8)}", clean_session=True)
        client.on_connect = self._connected
        client.on_subscribe = self._subscribed
        client.on_disconnect = self._disconnected
        client.on_message = self._came
        # With this what is published is written by the client's own thread alone.
        client.on_socket_register_write = lambda *_: None
        client.max_inflight_messages_set(_MOST_FLYING)
        client.max_queued_messages_set(MOST_WAITING)
        client.reconnect_delay_set(1, _MOST_PAUSE)
        client.will_set(state, b"away", _QOS, retain=True)
        if address.user is not None:
            client.username_pw_set(address.user, address.password)
        self.is_connected = False
        self._thread = threading.Thread(target=self._run, name="mqtt", daemon=True)

    def start(self) -> None:
        """Connects from now on, and whenever the connection is lost."""
        self._client.connect_async(self._address.host, self._address.port, _KEEP_ALIVE)
        self._thread.start()

    def take(self, most: int) -> list[Message]:
        """Takes some of the messages that wait; `wake` is called again where more do."""
        with self._lock:
            taken = [self._waiting.popleft() for _ in range(min(most, len(self._waiting)))]
            self._is_woken = bool(self._waiting)
            if self._is_woken:
                self._loop.call_soon(self._wake)
        return taken

    def publish(self, topic: str, payload: bytes) -> bool:
        """Publishes a message, when the broker is there; not where too many wait already."""
        return bool(self._client.publish(topic, payload, _QOS).rc != mqtt.MQTT_ERR_QUEUE_SIZE)

    def close(self) -> None:
        """Says that it goes, and ends the connection."""
        self._is_ending = True
        if self.is_connected:
            info = self._client.publish(self._state, b"away", _QOS, retain=True)
            with contextlib.suppress(ValueError, RuntimeError):
                info.wait_for_publish(_LAST_SECONDS)
        self._client.disconnect()
        if self._thread.is_alive():
            self._thread.join(_LAST_SECONDS)

    def _run(self) -> None:
        while not self._is_ending:
            try:
                self._client.loop_forever(retry_first_connection=True)
            except Exception as error:  # noqa: BLE001  (whatever a broker sends, the server goes on)
                _LOGGER.warning("the broker %s sent what isn't MQTT: %r", self._address, error)
                connection = self._client.socket()
                if connection is not None:
                    connection.close()
            if not self._is_ending:
                time.sleep(1.0)

    def _connected(self, client: mqtt.Client, _: Any, __: Any, code: int) -> None:
        if code:
            _LOGGER.warning("the broker %s refuses the connection: %s", self._address, mqtt.connack_string(code))
            return
        client.subscribe([(topic, _QOS) for topic in self._topics])

    def _subscribed(self, client: mqtt.Client, *_: Any) -> None:
        """What is published from here on comes."""
        client.publish(self._state, b"here", _QOS, retain=True)
        self.is_connected = True
        _LOGGER.info("the broker %s is there", self._address)

    def _disconnected(self, *_: Any) -> None:
        if self.is_connected and not self._is_ending:
            _LOGGER.warning("the broker %s is away, and is connected to again", self._address)
        self.is_connected = False

    def _came(self, _: mqtt.Client, __: Any, message: mqtt.MQTTMessage) -> None:
        try:
            topic = message.topic
        except UnicodeDecodeError:
            topic = ""
        with self._lock:
            if len(self._waiting) >= MOST_WAITING:
                self._waiting.popleft()
                self.lost += 1
            self._waiting.append(Message(topic, message.payload, time.time_ns() // 1000))
            is_woken, self._is_woken = self._is_woken, True
        if not is_woken:
            with contextlib.suppress(RuntimeError):
                # The loop has ended.
                self._loop.call_soon_threadsafe(self._wake)
