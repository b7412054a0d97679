"""The line protocol: what a client's line is, and the lines that the server writes by itself.

The lines of a reply are the program's, and end with `ok` or `refused N NAME`; refusals from 101 on are the server's.
All other lines begin with `* ` and stand before or after a whole reply, never in one.
"""

import re
from dataclasses import dataclass
from enum import Enum

from fleet.session_text import first_word, is_kept
from fleet.tokens import BadToken, is_silent, tokens
from fleet.ways.planes import plane_in
from fleet.words import FILE_COMMANDS

VERSION = 1
"""The version of the protocol, which the greeting tells."""
MOST_LINE_BYTES = 8_192
"""The most bytes of a line; a client that sends more before a line feed loses its connection."""
MOST_NUMBER = 10**15
"""The largest number of a line."""

_NUMBERED = re.compile(rb"@([0-9]{1,16})[ \t]+(.*)", re.DOTALL)
_CLIENT = re.compile(rb":client[ \t]+([A-Za-z0-9_.-]{1,64})[ \t]*")
_HTTP = re.compile(rb"[A-Z]+ .* HTTP/[0-9.]+")
_QUICK = frozenset((b"insert", b"update", b"remove", b"tick", b"class", b"region", b"drop", b"show", b"list"))
_FILES = frozenset(word.encode() for word in FILE_COMMANDS)


class Kind(Enum):
    """What the server does with a line."""

    SILENT = "nothing: it has no reply"
    PLANE = "kept in the log where that names no plane yet; it has no reply"
    WORD = "one of its own words"
    QUIT = "the end of the connection"
    KEPT = "sent to the program, and kept in the log where it is accepted"
    IMPORT = "sent to the program, and where it is accepted a new log begins"
    FILE = "sent to the program, after a look at its file name"
    OTHER = "sent to the program"


class Refusal(Enum):
    """The refusals of the server."""

    NOT_ALLOWED = 101
    BAD_WORD = 102
    FILE_NAME = 103
    OUT_OF_PATIENCE = 104
    PROGRAM_ENDED = 105
    NUMBER_FORGOTTEN = 106
    NUMBER_TAKEN = 107
    LOG_FULL = 108
    STOPPING = 109
    READER = 110

    def reply(self) -> bytes:
        """The line of the reply."""
        name = "".join(part.capitalize() for part in self.name.split("_"))
        return f"refused {self.value} {name}\n".encode()


class Hostile(Exception):
    """Bytes that no client of good will sends: its connection ends."""


@dataclass(frozen=True, slots=True)
class Parsed:
    """A line: `text` is without its number, its line feed and its carriage return. A number of 0 is none."""

    kind: Kind
    text: bytes
    number: int = 0


def parsed(line: bytes) -> Parsed:
    """What a line is, without its line feed. Raises Hostile."""
    line = line.removesuffix(b"\r")
    _check(line)
    if line.startswith(b":"):
        return Parsed(Kind.WORD, line)
    if not line.startswith(b"@"):
        return Parsed(_kind(line), line)
    match = _NUMBERED.fullmatch(line)
    if match is None or not 1 <= int(match.group(1)) <= MOST_NUMBER:
        return Parsed(Kind.WORD, line)
    kind = _kind(match.group(2))
    if kind in (Kind.SILENT, Kind.PLANE):
        return Parsed(Kind.WORD, line)
    return Parsed(kind, match.group(2), int(match.group(1)))


def is_quick(line: Parsed) -> bool:
    """Whether the line is one that the program answers soon, or isn't asked of it."""
    return line.kind in (Kind.WORD, Kind.QUIT) or first_word(line.text) in _QUICK


def is_http(line: bytes) -> bool:
    """Whether the line is the first of a request that a browser sends."""
    return bool(_HTTP.fullmatch(line.removesuffix(b"\r")))


def client_named(word: bytes) -> str:
    """The name that a line gives to the client whose numbers follow; empty where it is another line."""
    match = _CLIENT.fullmatch(word)
    return match.group(1).decode() if match else ""


def told(*words: object) -> bytes:
    """A line that the server writes by itself."""
    return f"* {' '.join(map(str, words))}\n".encode("utf-8", "replace")


def _check(line: bytes) -> None:
    if len(line) > MOST_LINE_BYTES:
        raise Hostile(f"a line of more than {MOST_LINE_BYTES} bytes")
    if b"\0" in line:
        raise Hostile("a byte 0")
    if not line.isascii():
        try:
            line.decode()
        except UnicodeDecodeError:
            raise Hostile("bytes that are no UTF-8") from None


def _kind(line: bytes) -> Kind:
    if is_silent(line):
        return Kind.SILENT if plane_in([line]) is None else Kind.PLANE
    word = first_word(line)
    if word == b"quit" and _is_quit(line):
        return Kind.QUIT
    if word in _FILES:
        return Kind.IMPORT if word == b"import" else Kind.FILE
    return Kind.KEPT if is_kept(line) else Kind.OTHER


def _is_quit(line: bytes) -> bool:
    try:
        return len(tokens(line)) == 1
    except BadToken:
        return False
