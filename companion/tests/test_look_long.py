"""Long tests of pages that go on with a server: many kills, and the time that a frame takes."""

import contextlib
import os
import random
import signal
import time
from collections.abc import Iterator
from pathlib import Path
from typing import Any, NamedTuple

import pytest

from browsers import Browser, browsing
from loads import Loads
from servers import Model, Serving, accepted, programs_of, until
from sessions import place_texts, saved_session
from test_look_live import children_of, living, tick_of
from test_look_page import page_of

pytestmark = pytest.mark.long

KILLS = 50
MOST_SECONDS = 2.0
"""How long all that is killed lives at most."""
FRAME = 16.0
"""The milliseconds that a frame may take."""
FRAMES, ROUNDS, WARMING = 100, 5, 2
"""The frames of a round, how many rounds are timed, and how many go before, by which the browser compiles the page's code."""


@pytest.fixture(scope="module")
def browser(tmp_path_factory: pytest.TempPathFactory) -> Iterator[Browser]:
    with browsing(tmp_path_factory.mktemp("browser")) as browser:
        yield browser


def test_a_page_goes_on_through_kills(browser: Browser, program: Path, tmp_path: Path) -> None:
    """The server, its program and that of the page are killed while lines come, and the page shows what the server has."""
    chance = random.Random(KILLS)
    log, killed = tmp_path / "log", {"server": 0, "its program": 0, "the page's program": 0}
    servers = [Serving(program, log, "--ws-port", "0", "--roll-at", "20000")]
    port = servers[0].websocket.rpartition(":")[2]
    try:
        with servers[0].client() as client:
            accepted(client, "class van 10 point")
        with living(program, servers[0].websocket) as (process, address):
            browser.open(address)
            with Loads([Model(f"v{i}") for i in range(4)], servers) as loads:
                for _ in range(KILLS):
                    time.sleep(chance.uniform(0, MOST_SECONDS))
                    what = chance.choice(sorted(killed))
                    killed[what] += 1
                    programs = {"its program": programs_of(log), "the page's program": children_of(process.pid)}
                    for pid in programs.get(what, []):
                        os.kill(pid, signal.SIGKILL)
                    if what == "server":
                        servers[-1].kill()
                        servers.append(Serving(program, log, "--ws-port", port, "--roll-at", "20000"))
                        servers[-2].end()
                    loads.check()
                loads.end(servers[-1], 100)
            assert min(killed.values()) > 5 and loads.replied > 10 * KILLS
            with servers[-1].client() as client:
                accepted(client, "tick 1")
                tick_of(browser, int(client.ask("list")[0].split()[1]))
                accepted(client, 'export van "e"')
            places = browser.run("return look.recording.places(look.tick)")
            told = {line.split(",")[0]: line.split(",")[1:5] for line in (log / "files" / "e").read_text().splitlines()[1:]}
            assert {place["name"]: place_texts((place["x"], place["y"]), (place["dx"], place["dy"])) for place in places} == {
                name: (x, y, dx, dy) for name, (x, dx, y, dy) in told.items()
            }
            assert process.poll() is None
    finally:
        for server in servers:
            server.end()


@pytest.fixture
def traced_browser(tmp_path: Path) -> Iterator[Browser]:
    with browsing(tmp_path / "browser", "blink.user_timing") as browser:
        yield browser


def moving_thousand() -> list[str]:
    """The commands of a session of 1,000 objects, of which each changes its motion every 30 ticks, under a watch."""
    lines = ["class van 1000 point", "region yard (0,0) (900,0) (900,900) (0,900)"]
    for i in range(1000):
        lines.append(f"insert van v{i} at ({i * 37 % 4000},{i * 91 % 4000}) move ({i % 19 - 9},{i % 23 - 11})")
    lines.append("watch town 100000 RETRIEVE o FROM van o WHERE INSIDE(o,yard)")
    for tick in range(1, 120):
        lines.append("tick 1")
        lines += [f"update v{i} move ({(i + tick) % 19 - 9},{(i * tick) % 23 - 11})" for i in range(tick % 30, 1000, 30)]
    return lines


PLAYED = """
const [frames, done] = arguments;
const { port1, port2 } = new MessageChannel();
const animate = globalThis.requestAnimationFrame;
let [clock, seen, left] = [0, null, frames];
performance.now = () => clock;
globalThis.requestAnimationFrame = (work) => animate((now) => {
  if (now !== seen && left > 0) {
    [clock, seen] = [clock + 1000 / 60, now];
    performance.mark("begun");
    port2.postMessage(null);
  }
  work(clock);
});
port1.onmessage = () => {
  performance.mark("drawn");
  if (--left !== 0) return;
  globalThis.requestAnimationFrame = animate;
  delete performance.now;
  look.pause();
  done();
};
performance.mark("round");
look.go(0);
look.play();
"""
"""Plays some frames from the beginning of a session, each a sixtieth of a second after the one before by the clock that
the page is given: the same frames on any machine. Each is marked where the page's work for it begins, and where the browser
comes to a message that was sent then, which is once it has drawn."""

SLOWER, NEW_TICKS = 20.0, 15
"""The milliseconds that each tick takes longer in a page that is slowed down, and how many of the frames have a new one."""
SLOWED = """
const [wanted] = arguments;
const work = (count) => { let sum = 0; for (let at = 1; at < count; at++) sum += Math.sqrt(at) % 7; return sum; };
const timed = (count) => { const begun = performance.now(); globalThis.sum = work(count); return performance.now() - begun; };
const some = 100_000, least = Math.min(...Array.from({ length: 200 }, () => timed(some)));
const count = (some * wanted) / least;
const { recording } = look, scene = recording.scene;
recording.scene = (...words) => { globalThis.sum = work(count); return scene.apply(recording, words); };
"""
"""Makes the page work for so long at each tick, by a count and not by a clock, so that it is work on any machine."""


class Frame(NamedTuple):
    """How many milliseconds a frame took: by the clock of the thread that the page has, which goes on while that has a
    processor, and by the machine's."""

    thread: float
    machine: float


def marks_of_rounds(browser: Browser) -> list[dict[str, Any]]:
    """What is marked in some rounds, in each of which the session is played from its beginning."""
    for _ in range(WARMING + ROUNDS):
        browser.run_on(PLAYED, FRAMES)
    marks: list[dict[str, Any]] = []

    def are_all_there() -> bool:
        marks.extend(event for event in browser.traces() if event["name"] in ("round", "begun", "drawn"))
        return sum(mark["name"] == "drawn" for mark in marks) >= (WARMING + ROUNDS) * FRAMES

    until(are_all_there, "the last traces")  # they come some time after what they tell of
    return sorted(marks, key=lambda mark: mark["ts"])


def frames_of_rounds(browser: Browser) -> list[list[Frame]]:
    """The frames of each round. One ends with its message, or where the next frame begins before that comes."""
    marks = marks_of_rounds(browser)
    rounds: list[list[Frame]] = []
    for mark, after in zip(marks, marks[1:]):
        if mark["name"] == "round":
            rounds.append([])
        elif mark["name"] == "begun":
            rounds[-1].append(Frame(*((after[clock] - mark[clock]) / 1000 for clock in ("tts", "ts"))))
    assert all(len(frames) >= FRAMES for frames in rounds)
    return [frames[:FRAMES] for frames in rounds[WARMING:]]


def least_of_rounds(browser: Browser) -> list[float]:
    """The milliseconds that each frame took by the thread's clock, in the round in which it took least."""
    browser.run("document.getElementById('pace').value = 10")
    rounds = frames_of_rounds(browser)
    for frames in rounds:
        by_thread, by_machine = (sorted(times) for times in zip(*frames))
        print(f"frames of 1,000 objects, a round of {FRAMES}: {told(by_thread)}; by the machine's clock {told(by_machine)}")
    least = [min(frame.thread for frame in same) for same in zip(*rounds)]
    print(f"each in its quickest round: {told(sorted(least))}; the load is {os.getloadavg()[0]:.0f}")
    return least


def told(times: list[float]) -> str:
    """What is told of times in their order."""
    return f"half within {times[len(times) // 2]:.1f} ms, all within {times[-1]:.1f}"


@pytest.fixture
def thousand(traced_browser: Browser, program: Path, tmp_path: Path) -> Browser:
    """A browser that has the page of a session of 1,000 objects."""
    traced_browser.open(page_of(saved_session(program, tmp_path, moving_thousand())).as_uri())
    return traced_browser


def test_each_frame_of_a_thousand_objects_is_drawn_in_time(thousand: Browser) -> None:
    """Each of 100 frames takes 16 ms at most, ten ticks a second: the page's work for it, and the layout and the drawing of
    it, by the clock of the page's thread. So what the machine does beside isn't counted; but that slows down what the
    thread does too, so the least time of several rounds is taken, in which the frames are the same.

    What the browser does for a frame in threads of its own, by the processor since it has no graphics card, isn't judged,
    and how many frames are shown in a second isn't either.
    """
    assert max(least_of_rounds(thousand)) <= FRAME


def test_frames_that_take_too_long_are_seen(thousand: Browser) -> None:
    """A page that works for some 20 ms more at each new tick isn't taken for a quick one."""
    thousand.run(SLOWED, SLOWER)
    assert sum(frame > FRAME for frame in least_of_rounds(thousand)) >= NEW_TICKS
