"""Reading and writing the text of a saved session, compared with what the program loads."""

import io
import subprocess
from pathlib import Path

import pytest

from fleet.session_text import BadSessionText, entries, first_word, is_kept, saved, ticks_of, write_whole

TEXTS: list[tuple[bytes, int | None]] = [
    (b"domino-session 1\nend\n", None),
    (b"domino-session 1\nend", None),
    (b"domino-session 1\r\nclass car 3\r\nend\r\n", None),
    (b"domino-session 1\n\n # a comment\n#\xc3\xa9\x00\n\tclass   car 03\ntick 04\nend\n", None),
    (b"domino-session 1\n#" + b"x" * 20_000 + b"\nend\n", None),
    (b"domino-session 1\nclass car 3" + b" " * 16_373 + b"\nend\n", None),
    (b"domino-session 1\nclass car 3" + b" " * 16_374 + b"\nend\n", 2),
    (b"", 1),
    (b"domino-session 1 \nend\n", 1),
    (b"domino-session 3\nend\n", 1),
    (b"domino-session 1\n", 2),
    (b"domino-session 1\nclass car 3\n", 3),
    (b"domino-session 1\nclass car 3\n end\n", 3),
    (b"domino-session 1\nclass car 3\nend\n\n", 4),
    (b"domino-session 1\nend\nend\n", 3),
    (b"domino-session 1\nlist\nend\n", 2),
    (b"domino-session 1\nask 0 RETRIEVE o FROM car o WHERE TRUE\nend\n", 2),
    (b"domino-session 1\nsave \"s\"\nend\n", 2),
    (b"domino-session 1\nquit\nend\n", 2),
    (b"domino-session 2\nentries 1 clock 0\nclass car 3\nend\n", None),
    (b"domino-session 2\nentries 2 clock 7\n# a\ntick 3\n\ntick 04\n# b\nend\n", None),
    (b"domino-session 2\nentries 01 clock 0\nclass car 3\nend\n", 2),
    (b"domino-session 2\n# a\nentries 0 clock 0\nend\n", 2),
    (b"domino-session 2\nentries 2000001 clock 0\nend\n", 2),
    (b"domino-session 2\nentries 0 clock 1000000001\nend\n", 2),
    (b"domino-session 2\n", 2),
    (b"domino-session 2\nentries 0 clock 0\n", 3),
    (b"domino-session 2\nentries 1 clock 0\nend\n", 3),
    (b"domino-session 2\nentries 1 clock 1\ntick 2\nend\n", 4),
    (b"domino-session 2\nentries 0 clock 0\nclass car 3\nend\n", 3),
]
"""Texts, and the line of their first fault."""


@pytest.mark.parametrize(("text", "fault"), TEXTS, ids=range(len(TEXTS)))
def test_the_frame_is_read_as_the_program_reads_it(
    program: Path, tmp_path: Path, text: bytes, fault: int | None
) -> None:
    (tmp_path / "s").write_bytes(text)
    run = subprocess.run([program, "--session", "s"], cwd=tmp_path, capture_output=True, stdin=subprocess.DEVNULL)
    assert run.stdout == (b"" if fault is None else b"bad session %d\n" % fault)
    if fault is None:
        list(entries(io.BytesIO(text)))
        return
    with pytest.raises(BadSessionText) as caught:
        list(entries(io.BytesIO(text)))
    assert caught.value.line == fault


def test_entries_have_their_lines() -> None:
    text = io.BytesIO(b"domino-session 1\n# a\nclass car 3\n\n  tick 04\r\nend\n")
    assert [(entry.line, entry.text) for entry in entries(text)] == [(3, b"class car 3"), (5, b"  tick 04")]


def test_what_is_saved_is_what_the_program_saves(program: Path, tmp_path: Path) -> None:
    commands = ["class car 3 point (fuel dyn)", "tick 4", "insert car a at (0,5) fuel = 40 rate -0.5", "tick 10"]
    lines = "".join(f"{command}\n" for command in [*commands, 'save "s"'])
    subprocess.run([program], input=lines.encode(), cwd=tmp_path, check=True, stdout=subprocess.DEVNULL)
    assert b"".join(saved(commands)) == (tmp_path / "s").read_bytes()


def test_words_of_lines() -> None:
    assert first_word(b" \tupdate a") == b"update"
    assert first_word(b'save"x"') == b"save"
    assert first_word(b"(update") == b""
    assert is_kept(b"drop w") and not is_kept(b"drops w") and not is_kept(b"# drop w") and not is_kept(b"show w")
    assert ticks_of(b" tick 007 ") == 7 and ticks_of(b"ticks 7") == 0 and ticks_of(b"") == 0


def test_a_file_is_written_whole_or_not_at_all(tmp_path: Path) -> None:
    path = tmp_path / "s"
    write_whole(path, [b"a\n", b"b\n"])
    assert path.read_bytes() == b"a\nb\n"

    def failing() -> object:
        yield b"c\n"
        raise OSError("no more")

    with pytest.raises(OSError, match="no more"):
        write_whole(path, failing())  # type: ignore[arg-type]
    assert path.read_bytes() == b"a\nb\n"
    assert [each.name for each in tmp_path.iterdir()] == ["s"]
