"""A client: one process of the program, a line sent, its reply read as records."""

import argparse
import contextlib
import os
import re
import time
from collections import deque
from collections.abc import Iterable, Iterator
from dataclasses import dataclass, field
from pathlib import Path
from types import TracebackType
from typing import Self

from fleet.errors import FleetError
from fleet.filenames import BadName, check_line, check_name
from fleet.process import PIECE, Process
from fleet.program import add_program_argument, find_program
from fleet.replies import BadReply, ListedClock, Reply, ReplyReader
from fleet.tokens import BadToken, Token, is_silent, line_bytes, line_text, tokens
from fleet.words import status_meaning

__all__ = ["BadName", "BadReply", "BadSession", "Client", "Ended", "TooSlow", "add_arguments", "client_of"]

_MOST_AHEAD = 4_096
"""The most lines that are sent before their replies are read."""
_LAST_SECONDS = 5.0
"""How long the program may take to end after a fault of the caller."""
_NOTED = re.compile(rb"[ \t]*(?:tick|ask|nearest|range|must|may|watch|keep|show|drop|save|import|export|quit)\b")
"""The beginnings of the lines whose tokens matter to a client."""


class Ended(FleetError):
    """The program has ended, so that a line has no reply.

    `status` is its exit status, or minus the signal that ended it; `last_reply` the last whole reply.
    """

    def __init__(self, status: int, last_reply: Reply | None = None) -> None:
        super().__init__(f"the program has ended with status {status}: {status_meaning(status)}")
        self.status = status
        self.last_reply = last_reply
        self.exit_status = status if status > 0 else 1


class BadSession(FleetError):
    """The session to go on from isn't there, where `number` is 0, or its line `number` is the first that is faulty."""

    exit_status = 2

    def __init__(self, number: int) -> None:
        cause = f"its line {number} is faulty" if number else "there is none of that name"
        super().__init__(f"bad session {number}: {cause}")
        self.number = number


class TooSlow(FleetError):
    """The program wrote nothing for as long as the caller would wait, and was ended."""

    def __init__(self, seconds: float) -> None:
        super().__init__(f"the program wrote nothing for {seconds:g} seconds and was ended")
        self.seconds = seconds


@dataclass(frozen=True, slots=True)
class _Sent:
    """A line that has a reply to come, its tokens where they matter, the texts of these, and where the reply goes."""

    line: str
    tokens: list[Token]
    words: list[str]
    replies: deque[Reply]


@dataclass(slots=True)
class _Known:
    """What replies don't say: the clock, and the variables of RETRIEVE of each registered query."""

    clock: int = 0
    queries: dict[str, tuple[str, ...]] = field(default_factory=dict)

    def clock_after(self, sent: _Sent) -> int:
        """The clock after the line, where it is accepted."""
        match sent.words:
            case ["tick", ticks] if ticks.isdecimal():
                return self.clock + int(ticks)
        return self.clock

    def columns(self, sent: _Sent) -> tuple[str, ...]:
        """The columns of the rows that the reply to the line may have."""
        match sent.words:
            case ["show", query]:
                return self.queries.get(query, ())
            case ["ask" | "must" | "may" | "watch" | "keep", *_]:
                return _retrieved(sent.tokens, sent.words)
            case ["nearest", _, _, _, class_name]:
                return (class_name,)
            case ["range", _, class_name, *_]:
                return (class_name,)
        return ()

    def accept(self, sent: _Sent) -> None:
        """Takes an accepted line."""
        self.clock = self.clock_after(sent)
        self._accept_query(sent.tokens, sent.words)

    def accept_session(self, path: Path, clock: int) -> None:
        """Takes a session that the program has loaded, and its clock."""
        self.clock = clock
        with path.open("rb") as text:
            for line in text:
                if line.lstrip(b" \t").startswith((b"watch", b"keep", b"drop")):
                    found = _tokens(line)
                    self._accept_query(found, [token.text for token in found])

    def _accept_query(self, line: list[Token], words: list[str]) -> None:
        match words:
            case ["watch" | "keep", query, *_]:
                self.queries[query] = _retrieved(line, words)
            case ["drop", query]:
                self.queries.pop(query, None)


class Client:
    """One process of the program.

    `program` is found as `fleet.program.find_program` says; `session` is the name of a saved session to go on from;
    `directory` is the folder whose files `save`, `import` and `export` name. `patience` is how many seconds the program
    may write nothing while a reply is awaited; None waits as long as it takes.

    It reads while it writes, so it can't deadlock. One thread at a time may use it, but for `interrupt`.

    Raises NotBuilt, BadName or BadSession; Ended where the session couldn't be read; OSError where the folder can't be
    gone into.
    """

    def __init__(
        self,
        program: str | os.PathLike[str] | None = None,
        session: str | None = None,
        directory: str | os.PathLike[str] | None = None,
        *,
        patience: float | None = None,
    ) -> None:
        self.directory = Path(directory or ".").absolute()
        self._patience = patience
        self._known = _Known()
        self._reader = ReplyReader(self._known.queries)
        self._sent: deque[_Sent] = deque()
        self._unfinished = bytearray()
        self._bad_start = ""
        self._last_reply: Reply | None = None
        self._quitting = False
        words = [str(find_program(program))]
        if session is not None:
            check_name(session, self.directory, writes=False)
            words += ["--session", session]
        self._process = Process(words, self.directory)
        if session is not None:
            self._open(session)

    def _open(self, session: str) -> None:
        """Waits until the session is loaded, which the reply to a first line shows."""
        try:
            match self.send("list"):
                case Reply(records=[ListedClock(tick=clock), *_]):
                    self._known.accept_session(self.directory / session, clock)
        except BaseException:
            self.kill()
            raise

    def __enter__(self) -> Self:
        return self

    def __exit__(
        self, kind: type[BaseException] | None, error: BaseException | None, trace: TracebackType | None
    ) -> None:
        if kind is None:
            self.close()
        else:
            self._give_up()

    @property
    def clock(self) -> int:
        """The clock after the last reply, in ticks."""
        return self._known.clock

    @property
    def queries(self) -> dict[str, tuple[str, ...]]:
        """The registered queries and their columns, the variables of RETRIEVE."""
        return dict(self._known.queries)

    @property
    def status(self) -> int | None:
        """The exit status of the program, None while it runs; minus the signal where one ended it."""
        return self._process.status

    @property
    def last_reply(self) -> Reply | None:
        """The last whole reply."""
        return self._last_reply

    def send(self, line: str | bytes) -> Reply | None:
        """Sends a line and gives its reply; None, at once, for a blank line and a comment.

        Raises ValueError where the line has a line feed in it; BadName, before the line is sent, where the program
        would end by a file name; Ended where the program has ended; TooSlow.
        """
        replies: deque[Reply] = deque()
        sent = self._queue(line, replies)
        if sent is None:
            return None
        self._process.write()
        while not replies:
            self._step()
        if self._quitting:
            self._read_to_end()
        return replies.popleft()

    def send_many(self, lines: Iterable[str | bytes]) -> Iterator[Reply]:
        """Sends lines and gives the reply to each, in order; blank lines and comments have none.

        Lines are taken and sent ahead of the replies, some thousands at most, whatever their number; none is taken
        after a `quit`. Raises as `send` does, after the replies to all lines before.
        """
        replies: deque[Reply] = deque()
        source = iter(lines)
        waiting, more, fault = 0, True, None
        while more or waiting:
            while more and self._has_room():
                try:
                    waiting += self._queue(next(source), replies) is not None
                    more = not self._quitting
                except StopIteration:
                    more = False
                except Exception as error:
                    more, fault = False, error
            self._process.write()
            if waiting and not replies:
                self._step()
            while replies:
                waiting -= 1
                yield replies.popleft()
        if fault is not None:
            raise fault
        if self._quitting:
            self._read_to_end()

    def close(self) -> int:
        """Ends the program by the end of its input, after the replies to all lines that were sent; gives its status."""
        self._process.write()
        while self._sent and self.status is None:
            self._advance()
        return self._read_to_end()

    def kill(self) -> None:
        """Ends the program at once. What wasn't saved is lost."""
        self._process.kill()

    def interrupt(self) -> None:
        """Ends the program at once, from any thread: one that waits for a reply raises Ended."""
        self._process.interrupt()

    def _queue(self, line: str | bytes, replies: deque[Reply]) -> _Sent | None:
        """Takes a line to be sent; None where it has no reply, and then it needn't be sent."""
        sending = line_bytes(line)
        if is_silent(sending):
            return None
        if self._quitting:
            self._read_to_end()
        if self.status is not None:
            raise self._why_ended()
        found = _tokens(sending)
        check_line(found, self.directory)
        sent = _Sent(line_text(sending), found, [token.text for token in found], replies)
        self._process.queue(sending + b"\n")
        self._sent.append(sent)
        self._quitting = sent.words == ["quit"]
        return sent

    def _has_room(self) -> bool:
        return self._process.queued < PIECE and len(self._sent) < _MOST_AHEAD

    def _step(self) -> None:
        """Goes on by a piece. Raises Ended or BadSession where the program has ended."""
        self._advance()
        if self.status is not None:
            raise self._why_ended()

    def _advance(self) -> None:
        """Waits until the program takes or writes something, and takes what it wrote."""
        try:
            piece = self._process.advance(self._patience)
        except TimeoutError:
            self.kill()
            raise TooSlow(self._patience or 0) from None
        self._take(piece)

    def _take(self, piece: bytes) -> None:
        self._unfinished += piece
        if b"\n" not in piece:
            return
        *lines, self._unfinished = self._unfinished.split(b"\n")
        try:
            for line in lines:
                self._take_line(line.decode("ascii", "surrogateescape"))
        except BadReply:
            self.kill()
            raise

    def _take_line(self, line: str) -> None:
        if line.startswith("bad "):
            self._bad_start = line
            return
        if not self._sent:
            raise BadReply(line)
        sent = self._sent[0]
        if self._reader.is_between:
            self._reader.begin(sent.line, self.clock, self._known.clock_after(sent), self._known.columns(sent))
        reply = self._reader.feed(line)
        if reply is not None:
            self._sent.popleft()
            if reply.ok:
                self._known.accept(sent)
            self._last_reply = reply
            sent.replies.append(reply)

    def _read_to_end(self) -> int:
        """Closes the program's input, reads to the end of its output, and gives its status."""
        self._process.close_input()
        while self.status is None:
            self._advance()
        return self.status

    def _give_up(self) -> None:
        """Ends the program soon: by the end of its input, where it comes to that in time."""
        end = time.monotonic() + _LAST_SECONDS
        self._process.close_input()
        with contextlib.suppress(BadReply, TimeoutError):
            while self.status is None and (left := end - time.monotonic()) > 0:
                self._take(self._process.advance(left))
        self.kill()

    def _why_ended(self) -> Ended | BadSession:
        number = self._bad_start.removeprefix("bad session ")
        if self.status == 2 and number.isdecimal():
            return BadSession(int(number))
        return Ended(self.status or 0, self._last_reply)


def add_arguments(parser: argparse.ArgumentParser) -> None:
    """Adds the options that say which program a client runs, and on what."""
    add_program_argument(parser)
    parser.add_argument("--session", metavar="NAME", help="the saved session to go on from")
    parser.add_argument(
        "--directory",
        metavar="FOLDER",
        help="the folder of the files that are saved, imported and exported (else this one)",
    )


def client_of(arguments: argparse.Namespace) -> Client:
    """The client that the options of `add_arguments` ask for."""
    return Client(arguments.program, arguments.session, arguments.directory)


def _tokens(line: bytes) -> list[Token]:
    """The tokens of a line that matters to a client; none of another one, and of one that the program refuses."""
    if not _NOTED.match(line):
        return []
    try:
        return tokens(line)
    except BadToken:
        return []


def _retrieved(line: list[Token], words: list[str]) -> tuple[str, ...]:
    """The variables between RETRIEVE and FROM."""
    if "RETRIEVE" not in words or "FROM" not in words:
        return ()
    between = line[words.index("RETRIEVE") : words.index("FROM")]
    return tuple(token.text for token in between if token.kind == "name")
