"""What all tests share: the program, a folder for its files, and the last line of a run."""

import os
import random
import sys
from collections.abc import Iterator
from pathlib import Path

import hypothesis
import pytest

TOP = Path(__file__).resolve().parents[2]
sys.path.insert(0, str(TOP / "companion"))

from fleet.client import Client  # noqa: E402  (the path must be there first)
from fleet.program import find_program  # noqa: E402

SEED = 20_240_607

# The same examples in each run, and none kept for the next one.
hypothesis.settings.register_profile("companion", derandomize=True, database=None, deadline=None)
hypothesis.settings.load_profile("companion")


@pytest.fixture(scope="session")
def program() -> Path:
    """The program that is tested with."""
    return find_program()


@pytest.fixture(scope="session")
def fleet_command() -> list[str]:
    """The words that run the command in place."""
    return [sys.executable, str(TOP / "companion" / "bin" / "fleet")]


@pytest.fixture
def client(program: Path, tmp_path: Path) -> Iterator[Client]:
    """A client of an empty database, with a folder of its own."""
    with Client(program, directory=tmp_path, patience=60) as client:
        yield client


@pytest.fixture(autouse=True)
def seeded() -> None:
    """Makes what is random in a test the same in each run."""
    random.seed(SEED)


@pytest.fixture(autouse=True)
def in_own_home(tmp_path_factory: pytest.TempPathFactory, monkeypatch: pytest.MonkeyPatch) -> None:
    """Keeps history and settings of the user out of the tests, and what the tests leave out of the user's home."""
    home = str(tmp_path_factory.mktemp("home"))
    for variable in ("HOME", "XDG_STATE_HOME", "XDG_DATA_HOME", "XDG_CONFIG_HOME", "XDG_CACHE_HOME"):
        monkeypatch.setenv(variable, home)


def pytest_sessionfinish(session: pytest.Session) -> None:
    """A test that is skipped is one that wasn't run: that fails."""
    reporter = session.config.pluginmanager.get_plugin("terminalreporter")
    if reporter is not None and reporter.stats.get("skipped"):
        session.exitstatus = pytest.ExitCode.TESTS_FAILED


def pytest_unconfigure(config: pytest.Config) -> None:
    """Writes the last line, without how long it took: it is the same for the same tests."""
    reporter = config.pluginmanager.get_plugin("terminalreporter")
    if reporter is not None:
        passed, *others = (len(reporter.stats.get(word, [])) for word in ("passed", "failed", "error", "skipped"))
        reporter.write_line(f"companion: {passed} passed, {sum(others)} failed")
