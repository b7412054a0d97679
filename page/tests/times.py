"""Measures the page by its own clock, and fails where it is slower than it should be. A machine with other work to do may
fail it."""

import pathlib
import random
import resource
import statistics
import subprocess
import tempfile

from browser import Browser, paste, served
from compare import NODE, PAGE, native

FIRST_ANSWER, OPENED = 1_000, 5
UPDATED, WARM, MEASURED, RUNS, MOST_TIMES = 1_000, 60_000, 300_000, 5, 5
OBJECTS, TICKS = 10_000, 200
# ticks a second: what is wanted, and what shows that there is room; so many parts of it must be made
PACE, WITH_ROOM, PART = 10, 13, 0.99
# types a line as soon as the page takes one, and notes when it was answered
AT_ONCE = """
addEventListener('DOMContentLoaded', () => {
  new MutationObserver(() => {
    if (document.body.dataset.isReady !== 'yes' || window.firstReady) return;
    window.firstReady = performance.now();
    document.getElementById('line').value = 'list';
    document.getElementById('entry').requestSubmit();
  }).observe(document.body, { attributes: true });
  new MutationObserver(() => {
    window.firstAnswer ??= document.querySelector('#transcript .reply') ? performance.now() : undefined;
  }).observe(document.getElementById('transcript'), { childList: true, subtree: true });
});
"""
# notes when the clock moves, how long the page takes for a tick, and when frames come
CLOCK = """
window.moved = [];
window.frames = [];
window.took = [];
let begun = NaN;
new MutationObserver((changes) => {
  const now = performance.now();
  for (const { oldValue } of changes) {
    if (oldValue === '0') begun = now;
    else window.took.push(now - begun);
  }
}).observe(document.body, { attributes: true, attributeOldValue: true, attributeFilter: ['data-waits'] });
new MutationObserver(() => window.moved.push(performance.now())).observe(document.getElementById('clock'), { childList: true });
const frame = (now) => { window.frames.push(now); requestAnimationFrame(frame); };
requestAnimationFrame(frame);
"""


def first_answer():
    """Milliseconds from the opening of the page to its first answer, in a browser that has not seen it before."""
    with tempfile.TemporaryDirectory(prefix="page-profile-", ignore_cleanup_errors=True) as profile:
        with served() as (address, _), Browser(profile) as browser:
            browser.driver.execute_cdp_cmd("Page.addScriptToEvaluateOnNewDocument", {"source": AT_ONCE})
            browser.driver.get(address)
            browser.wait("window.firstAnswer", "the first answer")
            return browser.script("return window.firstAnswer")


def fleet(draw, count=OBJECTS):
    """A fleet over a square, with a watch that rows of it enter and leave."""
    place, slope = lambda: draw.randint(-1000, 1000), lambda: draw.randint(-2000, 2000) / 1000
    lines = [f"class car {count} point", "region town (-400,-400) (400,-400) (400,400) (-400,400)"]
    lines += [f"insert car c{n} at ({place()},{place()}) move ({slope():g},{slope():g})" for n in range(count)]
    return [*lines, "watch town 1000 RETRIEVE o FROM car o WHERE INSIDE(o,town)"]


def running_clock(pace):
    """How many ticks a second the clock makes with so many objects where it is asked for so many, from the press of the button
    on; and milliseconds: in which half and nine tenths of the ticks are made, and half of the frames come. What is late is
    made up for, but never more ticks are made than are due."""
    with tempfile.TemporaryDirectory(prefix="page-profile-", ignore_cleanup_errors=True) as profile:
        with served() as (address, _), Browser(profile) as browser:
            browser.open(address)
            paste(browser, fleet(random.Random(1)))
            browser.wait("document.body.dataset.waits === '0'", "the fleet is there")
            browser.script(CLOCK)
            # (the page offers ten at most)
            browser.script(f"document.getElementById('pace').append(new Option('', {pace}, true, true))")
            browser.script("window.pressed = performance.now(); document.getElementById('run').click()")
            browser.wait(f"window.moved.length >= {TICKS}", "the ticks")
            seconds, took, frames = browser.script(
                f"return [(window.moved[{TICKS - 1}] - window.pressed) / 1000, window.took, window.frames]")
            between = [later - earlier for earlier, later in zip(frames, frames[1:])]
            return TICKS / seconds, statistics.median(took), statistics.quantiles(took, n=10)[-1], statistics.median(between)


def updates(draw, count):
    place = lambda: draw.randint(-1000, 1000)
    return [f"update c{draw.randrange(UPDATED)} at ({place()},{place()}) move ({draw.randint(-2, 2)},1)" for _ in range(count)]


def native_seconds(lines):
    """The user time of the native program for these lines."""
    before = resource.getrusage(resource.RUSAGE_CHILDREN).ru_utime
    text = "".join(line + "\n" for line in lines).encode()
    subprocess.run(native(), input=text, stdout=subprocess.DEVNULL, check=True)
    return resource.getrusage(resource.RUSAGE_CHILDREN).ru_utime - before


def warm_seconds(before, measured):
    """The user time of the module for lines, after others."""
    with tempfile.TemporaryDirectory(prefix="page-") as folder:
        files = [pathlib.Path(folder) / name for name in ("before", "measured")]
        for file, lines in zip(files, (before, measured)):
            file.write_text("".join(line + "\n" for line in lines), encoding="utf-8")
        words = [*NODE, str(PAGE / "tests/lines.mjs"), str(PAGE / "out/domino.wasm"), *map(str, files)]
        return float(subprocess.run(words, stdout=subprocess.PIPE, text=True, check=True).stdout)


def line_times():
    """Microseconds that an update takes the native program, and the module once it is warm."""
    draw = random.Random(2)
    before = [*fleet(draw, UPDATED), *updates(draw, WARM)]
    measured = updates(draw, MEASURED)
    native_best = min(native_seconds(before + measured) for _ in range(RUNS)) - min(native_seconds(before) for _ in range(RUNS))
    warm_best = min(warm_seconds(before, measured) for _ in range(RUNS))
    return 1e6 * native_best / MEASURED, 1e6 * warm_best / MEASURED


def measure_all():
    """Prints the figures, and returns what is slower than it should be."""
    slow = []
    answer = min(first_answer() for _ in range(OPENED))
    print(f"the first answer {answer:.0f} ms after the page is opened, least of {OPENED}")
    if answer > FIRST_ANSWER:
        slow.append("the first answer")
    by_native, by_module = line_times()
    print(f"an update in {by_native:.1f} microseconds by the native program, in {by_module:.1f} by the module")
    if by_module > MOST_TIMES * by_native:
        slow.append("lines")
    for pace in (PACE, WITH_ROOM):
        made, half, most, frame = running_clock(pace)
        print(f"{OBJECTS} objects: {made:.2f} ticks a second of {pace}; half of them made within {half:.0f} ms and nine tenths "
              f"within {most:.0f}; half of the frames within {frame:.0f} ms")
        if made < PART * pace:
            slow.append(f"the clock with {pace} ticks a second")
    return slow
