"""The tokens of a line, as the manual defines them."""

import re
from collections.abc import Iterator
from dataclasses import dataclass
from typing import BinaryIO, Literal, cast

from fleet.words import LINE_LIMIT, RESERVED

TokenKind = Literal["name", "word", "number", "text", "symbol"]

_TOKEN = re.compile(
    r"""
    (?P<name>[A-Za-z_][A-Za-z0-9_]*)
    | (?P<number>[0-9]+(?:\.[0-9]+)?)
    | (?P<text>"[^"]*")
    | (?P<symbol><-|<=|>=|!=|[()\[\],.+\-*=<>])
    """,
    re.VERBOSE,
)
_BLANKS = re.compile(r"[ \t]+")
_PRINTABLE = re.compile(rb"[\t -~]*")
_SILENT = re.compile(rb"[ \t]*(?:#.*)?", re.DOTALL)
_DECIMAL = re.compile(r"[0-9]{1,10}(?:\.[0-9]{1,3})?")


@dataclass(frozen=True, slots=True)
class Token:
    """A token as it is written, a text with its quotes; `at` is the place of its first byte in the line, from 0."""

    kind: TokenKind
    text: str
    at: int

    @property
    def value(self) -> str:
        """The token without the quotes of a text."""
        return self.text[1:-1] if self.kind == "text" else self.text

    @property
    def end(self) -> int:
        """The place behind its last byte."""
        return self.at + len(self.text)


class BadToken(ValueError):
    """No token begins at the place `at` of the line, from 0."""

    def __init__(self, at: int) -> None:
        super().__init__(f"no token begins at column {at + 1}")
        self.at = at


def line_bytes(line: str | bytes) -> bytes:
    """The bytes of one line as they are sent, without its line feed.

    Raises ValueError where the line has a line feed, which would make two of it.
    """
    sent = line.encode("utf-8", "surrogateescape") if isinstance(line, str) else bytes(line)
    if b"\n" in sent:
        raise ValueError("a line has no line feed in it")
    return sent


def line_text(line: bytes) -> str:
    """The text of a line that was read as bytes. `line_bytes` gives the same bytes of it again."""
    return line.decode("utf-8", "surrogateescape")


def tokens(line: str | bytes) -> list[Token]:
    """The tokens of a line; none of a blank one and of a comment.

    A line feed at its end is dropped, and a carriage return before it. In a line of bytes each byte counts as one
    place. Raises BadToken at the first place where no token begins.
    """
    text = line if isinstance(line, str) else line.decode("latin-1")
    text = text.removesuffix("\n").removesuffix("\r")
    at = _after_blanks(text, 0)
    found: list[Token] = []
    if text.startswith("#", at):
        return found
    while at < len(text):
        match = _TOKEN.match(text, at)
        if match is None:
            raise BadToken(at)
        kind = "word" if match.group() in RESERVED else cast(TokenKind, match.lastgroup)
        found.append(Token(kind, match.group(), at))
        at = _after_blanks(text, match.end())
    return found


def _after_blanks(text: str, at: int) -> int:
    blanks = _BLANKS.match(text, at)
    return blanks.end() if blanks else at


def thousandths(text: str) -> int | None:
    """The thousandths of a number without a sign, None where it hasn't one to ten digits and at most three decimals."""
    if not _DECIMAL.fullmatch(text):
        return None
    units, _, decimals = text.partition(".")
    return 1000 * int(units) + int(decimals.ljust(3, "0"))


def is_silent(line: str | bytes) -> bool:
    """Whether the line has no reply: it is blank or a comment, not too long, and all of it is printable ASCII."""
    sent = line if isinstance(line, bytes) else line.encode("utf-8", "surrogateescape")
    sent = sent.removesuffix(b"\n").removesuffix(b"\r")
    return len(sent) <= LINE_LIMIT and bool(_SILENT.fullmatch(sent)) and bool(_PRINTABLE.fullmatch(sent))


def read_lines(stream: BinaryIO) -> Iterator[bytes]:
    """The lines of a stream of bytes, each as soon as it is there, without its line feed and one carriage return before.

    Of a line that is too long no more is kept than shows that it is: the program refuses both alike.
    """
    most = LINE_LIMIT + 2
    while line := stream.readline(most):
        rest = line
        while rest and not rest.endswith(b"\n"):
            rest = stream.readline(most)
        yield line.removesuffix(b"\n").removesuffix(b"\r") if line.endswith(b"\n") else line
