"""All clients that are there, and what several of them are told."""

import asyncio
from collections.abc import Callable, Iterable

from fleet.serve.feed import Extent, Feed
from fleet.serve.known import Push
from fleet.serve.log import Log
from fleet.serve.peers import Peer, Source


class Hub:
    """The clients that are there, and those of them that are told of the log."""

    def __init__(self) -> None:
        self.peers: set[Peer] = set()
        self.listeners: list[Callable[[bytes], None]] = []
        self._feeds: dict[Peer, tuple[Feed, asyncio.Task[None]]] = {}

    def leave(self, peer: Peer) -> None:
        """Takes a client away."""
        self.peers.discard(peer)
        if peer in self._feeds:
            self._feeds.pop(peer)[1].cancel()

    def feed(self, peer: Peer, name: str, number: int, log: Log) -> None:
        """Tells a client of the log from now on, but of so many commands of the log of this name."""
        if peer not in self.peers:
            return
        if peer in self._feeds:
            self._feeds.pop(peer)[1].cancel()
        feed = Feed(peer, name, number)
        self._feeds[peer] = feed, asyncio.create_task(feed.run())
        feed.grow(_extent(log))

    def grow(self, log: Log) -> None:
        """Says that the log may have grown, or that another one is there. No commit and no new log is under way."""
        if self._feeds:
            extent = _extent(log)
            for feed, _ in self._feeds.values():
                feed.grow(extent)

    def accepted(self, line: bytes) -> None:
        """Tells those who keep what is there of a line that was accepted and kept."""
        for listener in self.listeners:
            listener(line)

    def push(self, pushes: list[Push], but: Source) -> None:
        """Tells those who follow what has changed, but the client whose line has changed it: its reply says so."""
        if not pushes:
            return
        everything = b"".join(push.line for push in pushes)
        for peer in tuple(self.peers):
            if peer is but or peer.follows.is_nothing:
                continue
            follows = peer.follows
            if follows.all and follows.ticks:
                peer.tell(everything)
            else:
                peer.tell(b"".join(_wanted(pushes, peer)))

    def tell_all(self, lines: Iterable[bytes]) -> None:
        """Tells all clients that have come in."""
        block = b"".join(lines)
        for peer in tuple(self.peers):
            if peer.is_allowed:
                peer.tell(block)


def _extent(log: Log) -> Extent:
    return Extent(log.path, log.size, log.entries)


def _wanted(pushes: list[Push], peer: Peer) -> Iterable[bytes]:
    follows = peer.follows
    return (push.line for push in pushes if (follows.has(push.query) if push.query else follows.ticks))
