"""The server's own words, which begin with a colon."""

import re
from collections.abc import Callable

from fleet.serve.hub import Hub
from fleet.serve.log import Log
from fleet.serve.peers import Peer
from fleet.serve.wire import Refusal, client_named, told
from fleet.ways.planes import plane_in
from fleet.words import JOURNAL_ENTRIES, RESERVED

_OK = b"ok\n"
_LOG = re.compile(r"log-[0-9]{8}")
_NUMBER = re.compile(r"[0-9]{1,15}")


class Words:
    """Answers them. `status` tells what only the server knows, as words with a value each."""

    def __init__(self, log: Log, hub: Hub, status: Callable[[], dict[str, object]]) -> None:
        self._log = log
        self._hub = hub
        self._status = status

    def answer(self, peer: Peer, text: bytes) -> bytes:
        """The reply to a word, which stands where the lines before it are answered and those after it aren't."""
        word, *rest = text.decode().split()
        match word, rest:
            case ":client", [_] if name := client_named(text):
                return told("client", name, self._log.outcomes.last(name)) + _OK
            case ":follow", names if all(map(_is_followed, names)):
                peer.follows.all = "*" in names
                peer.follows.names = frozenset(names) - {"*"}
                return _OK
            case ":ticks", ["on" | "off"]:
                peer.follows.ticks = rest == ["on"]
                return _OK
            case ":log", []:
                self._hub.feed(peer, "", 0, self._log)
                return _OK
            case ":log", [name, number] if _LOG.fullmatch(name) and _NUMBER.fullmatch(number):
                self._hub.feed(peer, name, int(number), self._log)
                return _OK
            case ":status", []:
                return b"".join(told("status", name, value) for name, value in self._status().items()) + _OK
            case ":token", [_]:
                return _OK
        return Refusal.BAD_WORD.reply()


def log_status(log: Log) -> dict[str, object]:
    """What the log tells of itself."""
    plane = plane_in([log.plane])
    told_of_log = {"entries": f"{log.entries} of {JOURNAL_ENTRIES}", "log": f"{log.path.name} {log.size} bytes"}
    return told_of_log | ({} if plane is None else {"plane": plane}) | log.status


def _is_followed(name: str) -> bool:
    return name == "*" or (name.isidentifier() and name.isascii() and name not in RESERVED)
