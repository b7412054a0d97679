"""The package is installed without network, and runs in place."""

import os
import shutil
import subprocess
import sys
from pathlib import Path

import pytest

from fleet import __version__, cli
from fleet.program import NotBuilt, find_program

TOP = Path(__file__).resolve().parents[2]
COMPANION = TOP / "companion"


def said_by(*words: str | Path, status: int = 0, **options: object) -> str:
    """What a command writes; it has to end with the status."""
    said = subprocess.run(words, capture_output=True, text=True, timeout=600, check=False, **options)  # type: ignore[call-overload]
    assert said.returncode == status, said.stdout + said.stderr
    return str(said.stdout + said.stderr)


def test_it_installs_without_network_and_runs(program: Path, tmp_path: Path) -> None:
    # Of a copy, since a build leaves files beside its sources.
    source = tmp_path / "companion"
    shutil.copytree(COMPANION, source, ignore=shutil.ignore_patterns("__pycache__", "build", "*.egg-info"))
    (source.parent / "docs").mkdir()
    shutil.copy(COMPANION.parent / "docs" / "LANGUAGE.md", source.parent / "docs")
    place = tmp_path / "venv"
    said_by(sys.executable, "-m", "venv", "--system-site-packages", place)
    said_by(place / "bin" / "pip", "install", "--no-build-isolation", "--no-index", source)
    shutil.rmtree(source)
    fleet = place / "bin" / "fleet"
    assert said_by(fleet, "--version") == f"fleet {__version__}\n"
    environment = {"PATH": os.environ["PATH"], "DOMINO": str(program)}
    assert said_by(fleet, "json", input="list\n", env=environment) == '{"kind":"clock","tick":0}\n{"kind":"ok","line":1,"tick":0}\n'
    python = place / "bin" / "python"
    listed = "from importlib.resources import files; print(*sorted(file.name for file in files('fleet').iterdir()))"
    assert {"grammar.lark", "LANGUAGE.md"} <= set(said_by(python, "-c", listed, cwd=tmp_path).split())
    assert said_by(fleet, "json", status=1, env={"PATH": "/usr/bin:/bin"}, input="").startswith("fleet: there is no program")


def test_it_runs_in_place_from_any_folder(fleet_command: list[str], tmp_path: Path) -> None:
    script = COMPANION / "bin" / "fleet"
    assert script.read_text().splitlines()[0] == "#!/usr/bin/python3"
    for command in ([script], fleet_command):
        assert said_by(*command, "--version", cwd=tmp_path) == f"fleet {__version__}\n"
    link = tmp_path / "fleet"
    link.symlink_to(script)
    assert said_by(link, "--version", cwd="/") == f"fleet {__version__}\n"
    assert said_by(sys.executable, "-m", "fleet", "--version", cwd=COMPANION) == f"fleet {__version__}\n"


@pytest.mark.parametrize("word", cli.PARTS)
def test_each_word_tells_of_itself(fleet_command: list[str], word: str, tmp_path: Path) -> None:
    said = said_by(*fleet_command, word, "--help", cwd=tmp_path)
    assert said.startswith(f"usage: fleet {word} ") and "options:" in said


def test_no_word_and_a_wrong_one_are_told(fleet_command: list[str]) -> None:
    assert "WORD" in said_by(*fleet_command, status=2, stdin=subprocess.DEVNULL)
    assert "invalid choice: 'bogus'" in said_by(*fleet_command, "bogus", status=2)


def test_a_missing_package_is_named(program: Path, tmp_path: Path) -> None:
    """Without the system's packages: -S keeps Debian's folder of them out."""
    fleet = COMPANION / "bin" / "fleet"
    needed = said_by("/usr/bin/python3", "-S", fleet, "check", tmp_path / "x.domino", status=1)
    assert needed == "fleet: this part needs the Debian package python3-lark\n"
    environment = {"PATH": os.environ["PATH"], "DOMINO": str(program)}
    said = said_by("/usr/bin/python3", "-S", fleet, "json", input="list\n", env=environment)
    assert said.startswith('{"kind":"clock"'), "the core needs the standard library alone"


def test_the_reader_may_go(fleet_command: list[str], program: Path) -> None:
    """A pipe that is closed early ends the command without a traceback."""
    words = " ".join(fleet_command)
    said = said_by("bash", "-c", f"yes list | {words} json --program {program} | head -1")
    assert said == '{"kind":"clock","tick":0}\n'


def test_the_program_is_found_in_order(program: Path, tmp_path: Path, monkeypatch: pytest.MonkeyPatch) -> None:
    other = tmp_path / "domino"
    shutil.copy(program, other)
    monkeypatch.setenv("DOMINO", str(program))
    assert find_program(other) == other and find_program() == program
    monkeypatch.chdir(tmp_path)
    assert find_program("domino") == other
    monkeypatch.setenv("DOMINO", str(tmp_path / "none"))
    with pytest.raises(NotBuilt, match="none"):
        find_program()
    monkeypatch.delenv("DOMINO")
    monkeypatch.setenv("PATH", str(tmp_path))
    built = TOP / "crates" / "domino" / "out" / "domino"
    assert find_program() == (built if built.exists() else other)
    other.chmod(0o644)
    if not built.exists():
        with pytest.raises(NotBuilt, match="isn't built"):
            find_program()
    for wrong in (other, tmp_path, tmp_path / "none"):
        with pytest.raises(NotBuilt):
            find_program(wrong)


def test_setup_is_quick_where_all_is_there() -> None:
    assert said_by(COMPANION / "setup") == "setup: all packages are there\n"


STUBS = {
    "dpkg-query": '[ "${@: -1}" != python3-lark ] || [ -e "$state/there" ] || exit 1; printf installed',
    "apt-get": """
        echo "apt-get $1 ${@: -1}"
        [ "$1" != update ] || touch "$state/lists"
        [ "$1" != install ] || [ -e "$state/lists" ] || exit 100
        [ "$1" != install ] || [ -e "$state/broken" ] || touch "$state/there"
    """,
    "id": 'cat "$state/user"',
}
"""A machine without python3-lark, on which an installation fails where there are no lists of packages."""


@pytest.mark.parametrize(
    ("user", "files", "status", "said"),
    [
        ("0", ["lists"], 0, ["apt-get install python3-lark", "setup: all packages are there"]),
        (
            "0",
            [],
            0,
            ["apt-get install python3-lark", "setup: fetching the lists of packages", "apt-get update -q"]
            + ["apt-get install python3-lark", "setup: all packages are there"],
        ),
        ("0", ["lists", "broken"], 1, ["apt-get install python3-lark", "setup: still missing: python3-lark"]),
        ("1000", ["lists"], 1, ["setup: only root installs packages; run it as root"]),
    ],
    ids=["with lists", "without lists", "in vain", "as a user"],
)
def test_setup_installs_what_is_missing(
    tmp_path: Path, user: str, files: list[str], status: int, said: list[str]
) -> None:
    for name, text in STUBS.items():
        stub = tmp_path / name
        stub.write_text(f"#!/bin/bash\nstate={tmp_path}\n{text}\n")
        stub.chmod(0o755)
    (tmp_path / "user").write_text(user)
    for name in files:
        (tmp_path / name).touch()
    told = said_by(COMPANION / "setup", status=status, env={"PATH": f"{tmp_path}:/usr/bin:/bin"}).splitlines()
    assert told == ["setup: installing python3-lark", *said]


def test_check_names_what_is_missing(tmp_path: Path) -> None:
    environment = {"PATH": os.environ["PATH"], "DOMINO": str(tmp_path / "none")}
    said = said_by(COMPANION / "check", status=1, env=environment)
    assert said == f"companion: failed: there is no program at {tmp_path}/none; ./domino build makes it, or DOMINO names another\n"
    assert said_by(COMPANION / "check", "--longer", status=1) == "companion: failed: check takes no words, or --long\n"
