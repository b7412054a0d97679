"""Long tests of a stream as the log: kills of the writer, of readers and of Redis under load, and figures of readers."""

import contextlib
import os
import random
import signal
import subprocess
import sys
from pathlib import Path

import pytest
from brokers import redis_server
from loads import Loads
from servers import Model, Serving, accepted, check_models, commands_of, programs_of
from test_streams import caught_up

pytestmark = pytest.mark.long

KILLS = 50
"""How often a reader is killed."""
LINES = 200
"""How many lines each client may send from kill to kill: the log has some 50,000 in the end, and rolls at 1,800,000."""
QUESTIONS = ["list", "show all", "ask 30 RETRIEVE o FROM van o WHERE o.x >= 0"]
BENCH = Path(__file__).resolve().parents[1] / "bench" / "replicas"


@pytest.mark.parametrize("count", [2, 4])
def test_kills_of_readers_the_writer_and_redis_under_load(program: Path, tmp_path: Path, count: int) -> None:
    """Readers are killed, most times with something else, while lines come, and have the bytes of the writer in the end.

    Between two kills each client sends the same number of lines at most, so the log is as long on any machine.
    """
    chance = random.Random(count)
    models = [Model(f"v{i}") for i in range(6)]
    writers: list[Serving] = []
    readers: list[Serving] = []
    with redis_server() as redis:
        words = ("--redis", redis.address)
        try:
            writers.append(Serving(program, tmp_path / "w", *words))
            with writers[0].client() as client:
                accepted(client, "class van 10 point")
            readers += [Serving(program, tmp_path / f"r{i}", *words, "--follow") for i in range(count)]
            with Loads(models, writers, 0) as loads:
                for _ in range(KILLS):
                    loads.allow(LINES, chance.random())
                    at = chance.randrange(count)
                    what = chance.choice(["the reader alone", "a program", "writer", "redis", "both"])
                    if what == "a program":
                        _kill_programs(tmp_path / chance.choice(["w", *(f"r{i}" for i in range(count))]))
                    readers[at].kill()
                    if what in ("writer", "both"):
                        writers[-1].kill()
                    if what in ("redis", "both"):
                        redis.kill()
                        assert redis.start()
                    if what in ("writer", "both"):
                        writers.append(Serving(program, tmp_path / "w", *words))
                        writers[-2].end()
                    readers[at].end()
                    readers[at] = Serving(program, tmp_path / f"r{at}", *words, "--follow")
                    assert readers[at].told[2].startswith(f"log {tmp_path}/r{at}/log-"), readers[at].said()
                    loads.check()
                loads.end(writers[-1], 200)
            with writers[-1].client() as writer:
                accepted(writer, "watch all 1000000 RETRIEVE o FROM van o WHERE o.x >= 0")
                found = writer.asks(*QUESTIONS)
                for i, reader in enumerate(readers):
                    with reader.client() as client:
                        caught_up(client, writer)
                        assert client.asks(*QUESTIONS) == found
                    assert commands_of(tmp_path / f"r{i}") == commands_of(tmp_path / "w")
                accepted(writer, "drop all")
            _check(models, writers[-1])
            assert loads.replied > 10 * KILLS
        finally:
            for server in (*writers, *readers):
                server.end()


def _check(models: list[Model], server: Serving) -> None:
    """Checks that each line that was replied to was carried out once, and no other."""
    check_models(models, server, is_rolled=True)
    ticks = sum(len(model.numbers("tick")) for model in models)
    changes = sum(len(model.numbers("update")) for model in models)
    assert len(commands_of(server.log)) == 3 + len(models) + ticks + changes


def _kill_programs(log: Path) -> None:
    for pid in programs_of(log):
        with contextlib.suppress(ProcessLookupError):
            os.kill(pid, signal.SIGKILL)


def test_figures_of_two_and_four_readers(program: Path, capsys: pytest.CaptureFixture[str]) -> None:
    words = [sys.executable, BENCH, "--program", program, "--updates", "5000", "--seconds", "10", "--readers", "2", "4"]
    run = subprocess.run(words, capture_output=True, text=True, timeout=1_800, check=False)
    with capsys.disabled():
        print(run.stdout + run.stderr)
    assert run.returncode == 0
    assert run.stdout.count("all answers are equal") == 2
