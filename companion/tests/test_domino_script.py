"""The script `domino` at the top of the repository: with a stand-in for the build, the program, the shell and rlwrap."""

import os
import subprocess
from pathlib import Path

import pexpect
import pytest

from documents import TOP
from fleet.words import RESERVED

SECONDS = 60
NOT_BUILT = "the program isn't built yet"


def write_script(path: Path, text: str) -> None:
    path.parent.mkdir(parents=True, exist_ok=True)
    path.write_text(f"#!/usr/bin/env bash\n{text}\n")
    path.chmod(0o755)


@pytest.fixture
def top(tmp_path: Path) -> Path:
    """The top of a repository with the script, where the build makes a program that tells its words and its input."""
    program = tmp_path / "crates/domino/out/domino"
    write_script(tmp_path / "built", 'echo "program $*"; cat; exit 7')
    build = f"mkdir -p {program.parent}\ncp {tmp_path}/built {program}\necho {program}"
    write_script(tmp_path / "tools/proved", f'[ "$*" = domino ] || exit 9\necho proving >&2\n{build}')
    (tmp_path / "domino").write_bytes((TOP / "domino").read_bytes())
    (tmp_path / "domino").chmod(0o755)
    (tmp_path / "docs").symlink_to(TOP / "docs")
    return tmp_path


def add_shell(top: Path, *, is_complete: bool) -> None:
    """A stand-in for the companion's command, which says whether all that it needs is there."""
    status = 0 if is_complete else 1
    write_script(top / "companion/bin/fleet", f'[ "$2" != --check ] || exit {status}\necho "shell $* of $DOMINO"')


def add_rlwrap(top: Path) -> None:
    """A stand-in for rlwrap, which tells its words and how many words there are to complete."""
    write_script(top / "bin/rlwrap", 'echo "rlwrap $1 $2 $3 $(wc -l <"$4" | tr -d " ") ${*:5}"')


def environment(top: Path) -> dict[str, str]:
    """Tools of the system, and rlwrap where a stand-in was added."""
    (top / "tool").mkdir()
    for tool in ("bash", "env", "sed", "tr", "cat", "wc", "dirname", "mkdir", "cp"):
        (top / "tool" / tool).symlink_to(f"/usr/bin/{tool}")
    return {**os.environ, "PATH": f"{top}/bin:{top}/tool"}


def piped(top: Path, *words: str) -> subprocess.CompletedProcess[str]:
    return subprocess.run(
        [top / "domino", *words], input="list\n", capture_output=True, encoding="utf-8", env=environment(top),
        timeout=SECONDS, check=False,
    )


def on_terminal(top: Path, *words: str) -> str:
    """What the script writes on a terminal whose input ends at once."""
    child = pexpect.spawn(str(top / "domino"), list(words), env=environment(top), encoding="utf-8", timeout=SECONDS)
    child.sendeof()
    child.expect(pexpect.EOF)
    child.close()
    return str(child.before).replace("\r\n", "\n")


@pytest.mark.parametrize("words", [[], ["--session", "s"], ["--gen", "1"], ["--help"], ["build", "all"]])
def test_pipes_go_to_the_program(words: list[str], top: Path) -> None:
    add_shell(top, is_complete=True)
    add_rlwrap(top)
    ended = piped(top, *words)
    assert ended.stdout == f"program {' '.join(words)}\nlist\n"
    assert ended.stderr == "proving\n"
    assert ended.returncode == 7


def test_build_runs_nothing(top: Path) -> None:
    ended = piped(top, "build")
    assert (ended.stdout, ended.returncode) == ("", 0)
    assert ended.stderr.startswith("proving\n") and "crates/domino/out/domino" in ended.stderr


def test_a_failed_build_ends_the_script(top: Path) -> None:
    write_script(top / "tools/proved", "echo failed >&2; exit 3")
    ended = piped(top)
    assert (ended.stdout, ended.stderr, ended.returncode) == ("", "failed\n", 3)


@pytest.mark.parametrize("words", [[], ["--session", "evening"]])
def test_terminal_takes_the_shell(words: list[str], top: Path) -> None:
    add_shell(top, is_complete=True)
    add_rlwrap(top)
    said = on_terminal(top, *words)
    assert " ".join(["shell shell", *words, "of", f"{top}/crates/domino/out/domino\n"]) in said


@pytest.mark.parametrize("words", [[], ["--session", "evening"]])
def test_terminal_without_the_shells_packages_takes_rlwrap(words: list[str], top: Path) -> None:
    add_shell(top, is_complete=False)
    add_rlwrap(top)
    said = on_terminal(top, *words)
    assert " ".join(["rlwrap -S domino>  -f", str(len(RESERVED)), f"{top}/crates/domino/out/domino", *words]) + "\n" in said


@pytest.mark.parametrize("words", [[], ["--session", "evening"], ["--gen", "1"], ["--help"]])
def test_terminal_without_shell_and_rlwrap_is_plain(words: list[str], top: Path) -> None:
    assert f"program {' '.join(words)}\n" in on_terminal(top, *words)


@pytest.mark.parametrize("words", [["--gen", "1"], ["--help"], ["--session"]])
def test_words_that_read_no_lines_go_to_the_program(words: list[str], top: Path) -> None:
    add_shell(top, is_complete=True)
    add_rlwrap(top)
    assert f"program {' '.join(words)}\n" in on_terminal(top, *words)


def test_terminal_is_told_of_a_first_build(top: Path) -> None:
    said = on_terminal(top)
    assert said.index(NOT_BUILT) < said.index("may take an hour") < said.index("proving")
    (top / "tool").rename(top / "tool_before")
    assert NOT_BUILT not in on_terminal(top)
