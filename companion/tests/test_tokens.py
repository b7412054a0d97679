"""The tokens of a line, against the manual and against the program."""

import io
import subprocess
from pathlib import Path

import pytest
from hypothesis import given, settings
from hypothesis import strategies as st

from fleet.client import Client
from fleet.tokens import BadToken, Token, is_silent, line_bytes, line_text, read_lines, tokens
from fleet.words import LINE_LIMIT, REFUSALS, RESERVED

PIECES = ["a", "_b9", "RETRIEVE", "list", "12", "1.5", "1.", ".5", '"t x"', '"', "<-", "<", "=", "!=", "!", "-", "#", " ", "\t", "?", "é"]


def kinds(line: str) -> list[tuple[str, str, int]]:
    return [(token.kind, token.text, token.at) for token in tokens(line)]


def test_each_kind_has_its_place() -> None:
    assert kinds('insert car a at (0,-1.5) plate = "A B"') == [
        ("word", "insert", 0), ("name", "car", 7), ("name", "a", 11), ("word", "at", 13), ("symbol", "(", 16),
        ("number", "0", 17), ("symbol", ",", 18), ("symbol", "-", 19), ("number", "1.5", 20), ("symbol", ")", 23),
        ("name", "plate", 25), ("symbol", "=", 31), ("text", '"A B"', 33),
    ]  # fmt: skip


@pytest.mark.parametrize(
    ("line", "found"),
    [
        ("o.x <-3", ["o", ".", "x", "<-", "3"]),
        ("o.x < -3", ["o", ".", "x", "<", "-", "3"]),
        ("a<=b>=c!=d", ["a", "<=", "b", ">=", "c", "!=", "d"]),
        ("1.5.2", ["1.5", ".", "2"]),
        ("1.", ["1", "."]),
        (".5", [".", "5"]),
        ("12ab", ["12", "ab"]),
        ('""', ['""']),
        ("  # a comment ?", []),
        (" \t", []),
        ("list\r\n", ["list"]),
    ],
)
def test_tokens_are_the_longest(line: str, found: list[str]) -> None:
    assert [token.text for token in tokens(line)] == found


def test_case_and_place_make_a_reserved_word() -> None:
    assert [token.kind for token in tokens("retrieve RETRIEVE Value value nearest")] == [
        "name", "word", "name", "word", "name",
    ]  # fmt: skip
    assert len(RESERVED) == 48 and len(REFUSALS) == 20


def test_text_has_its_value_without_quotes() -> None:
    assert Token("text", '"a b"', 3).value == "a b" and Token("text", '"a b"', 3).end == 8
    assert Token("name", "a", 0).value == "a"


@pytest.mark.parametrize(("line", "at"), [("list;", 4), ('save "x', 5), ("a ! b", 2), ("insert zoë", 9), ("list\rx", 4)])
def test_bad_token_tells_its_place(line: str, at: int) -> None:
    with pytest.raises(BadToken) as fault:
        tokens(line)
    assert fault.value.at == at


def test_bytes_count_one_by_one() -> None:
    with pytest.raises(BadToken) as fault:
        tokens("é?".encode())
    assert fault.value.at == 0
    assert tokens('"é" ?'.encode()[:4])[0].text == '"\xc3\xa9"'


@pytest.mark.parametrize("line", ["", " ", "\t \t", "#", "  # x", "# x\r\n", "\r", "#" * LINE_LIMIT, "#" * LINE_LIMIT + "\r"], ids=len)
def test_silent(line: str) -> None:
    assert is_silent(line) and is_silent(line.encode())


@pytest.mark.parametrize("line", ["a", "a #", "# é", "#\x01", "#\rx", "\r\r", " " * (LINE_LIMIT + 1), "# a\nlist"], ids=len)
def test_not_silent(line: str) -> None:
    assert not is_silent(line) and not is_silent(line.encode())


def test_a_line_has_no_line_feed() -> None:
    for line in ("a\nb", "a\n", b"\n"):
        with pytest.raises(ValueError):
            line_bytes(line)
    assert line_bytes(line_text(b"\xff\xc3(")) == b"\xff\xc3("


def test_lines_are_read_without_their_ends() -> None:
    assert list(read_lines(io.BytesIO(b"a\r\n\n\r\r\nb\rc\n \nlast\r"))) == [b"a", b"", b"\r", b"b\rc", b" ", b"last\r"]


def test_a_long_line_is_read_as_a_long_one() -> None:
    lengths = [LINE_LIMIT, LINE_LIMIT + 1, LINE_LIMIT + 2, LINE_LIMIT + 3, 1_000_000]
    text = b"".join(b"x" * length + end for length in lengths for end in (b"\n", b"\r\n")) + b"last"
    *read, last = read_lines(io.BytesIO(text))
    assert last == b"last" and len(read) == 2 * len(lengths)
    for length, line in zip((length for length in lengths for _ in range(2)), read):
        kept = line.removesuffix(b"\r")
        assert min(length, LINE_LIMIT + 1) <= len(kept) <= LINE_LIMIT + 2


@settings(max_examples=40)
@given(st.lists(st.lists(st.sampled_from(PIECES), max_size=6).map("".join), min_size=1, max_size=60))
def test_the_program_agrees(program: Path, lines: list[str]) -> None:
    """Each line that isn't silent has one reply, and it is BadToken exactly where some token is bad."""
    asked = [line for line in lines if line.strip(" ") != "quit"]
    with Client(program, patience=60) as client:
        replies = list(client.send_many(asked))
    answered = [line for line in asked if not is_silent(line)]
    assert [reply.line for reply in replies] == answered
    for line, reply in zip(answered, replies):
        assert (reply.refusal is not None and reply.refusal.number in (2, 3)) == (not line.isascii() or has_bad_token(line))


def has_bad_token(line: str) -> bool:
    try:
        tokens(line)
    except BadToken:
        return True
    return False


def test_what_is_silent_has_no_reply_of_the_program(program: Path, tmp_path: Path) -> None:
    """Beside the client, which doesn't send such lines: the program is given them as they are."""
    lines = [b"", b" \t", b"#", b" # x", b"# \xc3", b"\r", b"\r\r", b"#" * LINE_LIMIT, b"#" * (LINE_LIMIT + 1), b"# \x7f"]
    for line in lines:
        said = subprocess.run([program], input=line + b"\n", capture_output=True, cwd=tmp_path, check=True, timeout=60)
        assert (said.stdout == b"") == is_silent(line), line
