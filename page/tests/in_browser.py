"""Tries the page in a browser without a window. Each function here that begins with `try_` is one try, with a profile of
its own."""

import json
import pathlib
import random
import subprocess
import tempfile

from browser import Browser, paste, served
from compare import EXAMPLES, PAGE, in_node, native, objects, run
from making import link
from selenium.webdriver.common.keys import Keys

WATCH = [line for line in (EXAMPLES / "watch.domino").read_text(encoding="utf-8").split("\n") if line not in ("", "quit")]
# examples whose letters are typed, which takes chromium's driver milliseconds each
BY_KEYS, LONG_BY_KEYS = ("first", "watch"), ("data", "first", "fleet", "queries", "watch")
# as deep as a formula may be
DEEP = "ask 9 RETRIEVE o FROM truck o WHERE " + "NOT (" * 31 + "o.x >= 3" + ")" * 31
HOSTILE = (
    "<img src=x onerror=document.title='stolen'>", "</pre><script>document.title='stolen'</script>", "class __proto__ 3 point",
    "insert __proto__ constructor at (1,1) move (1,0)", "insert __proto__ toString at (2,2)", "class constructor 3 (hasOwnProperty dyn)",
    "insert constructor valueOf hasOwnProperty = 3 rate 1", "watch prototype 20 RETRIEVE o FROM __proto__ o WHERE o.x >= 3",
    "region toString (0,0) (4,0) (4,4)", "é𝕏\u202e", "\t# tab\t", "x" * 5000, '"', "(" * 3000, "ask 5 RETRIEVE o FROM __proto__ o WHERE TRUE",
    'save "<b>"', 'save "../x"',
)


def same(found, expected, what):
    if found != expected:
        raise AssertionError(f"{what}: {found!r} and not {expected!r}"[:2000])


def native_replies(lines, words=(), files=None):
    """What the native program writes to these lines."""
    text = "".join(line + "\n" for line in lines).encode()
    return run(native(words), text, files or {})[0].decode()


def joined(replies):
    """Replies as the program writes them."""
    return "".join(reply + "\n" for reply in replies)


def lines_of(example):
    return (EXAMPLES / f"{example}.domino").read_bytes().decode().removesuffix("\n").split("\n")


def try_examples(browser, words="", typed=BY_KEYS):
    """Each example, line by line, has the replies of the native program."""
    with served() as (address, _):
        browser.open(address + words)
        for file in sorted(EXAMPLES.glob("*.domino")):
            if file.stem in typed:
                browser.say(*lines_of(file.stem))
            else:
                browser.enter(lines_of(file.stem))
            same(joined(browser.replies()), file.with_suffix(".out").read_text(encoding="utf-8"), file.name)
            begin_new(browser)


def begin_new(browser):
    """Begins a new session, whether the program has ended or not."""
    browser.press("Session", "nav")
    browser.find("new-session").click()
    if browser.script("return document.getElementById('question').open"):
        browser.press("Forget it", "dialog")
    browser.wait("document.querySelector('#transcript .reply') === null && document.getElementById('clock').textContent === 'tick 0'",
                 "the new session is empty")
    browser.settle()


def try_examples_without_suspending(browser):
    """The same where the browser can't suspend calls."""
    try_examples(browser, "?again", ())


def try_examples_by_keys(browser):
    """The same with each letter typed of all but two."""
    try_examples(browser, typed=LONG_BY_KEYS)


def try_example_by_its_panel(browser):
    """An example with a file, chosen in the panel and played; the files that it writes, and the session that it saves."""
    with served() as (address, _):
        browser.open(address)
        begin_example(browser, "files, first")
        browser.press("All the rest")
        browser.settle()
        folder = EXAMPLES / "files"
        same(joined(browser.replies()), (folder / "first.out").read_text(encoding="utf-8"), "files/first")
        for name in ("evening", "now.csv"):
            same(file_of(browser, name), (folder / name).read_text(encoding="utf-8"), name)
        begin_example(browser, "files, second")
        for _ in lines_of("files/second"):
            browser.find("line").send_keys(Keys.ENTER)
            browser.settle()
        same(joined(browser.replies()), (folder / "second.out").read_text(encoding="utf-8"), "files/second")


def begin_example(browser, name):
    browser.press("Examples", "nav")
    browser.script("[...document.querySelectorAll('#example-list button')].find((one) => one.firstChild.textContent === arguments[0]).click()", name)
    if browser.script("return document.getElementById('question').open"):
        browser.press("Forget it", "dialog")
    browser.wait("!document.getElementById('script').hidden", "the example's lines wait")


def file_of(browser, name):
    """A file of the page's, by its store."""
    text = """
        const [name, done] = arguments;
        indexedDB.open('domino').onsuccess = ({ target }) => {
          const found = target.result.transaction('files').objectStore('files').get(name);
          found.onsuccess = () => { target.result.close(); done(found.result ? new TextDecoder().decode(found.result) : null); };
        };"""
    return browser.driver.execute_async_script(text, name)


def try_reload(browser):
    """What was said and what the program knows are there after a reload, and after an import too."""
    with served() as (address, _):
        browser.open(address)
        browser.say(*WATCH[:-2])
        browser.say("export truck \"t\"", "import truck \"t\"", "export truck \"t\"", "update a move (0,1)")
        before, asked = browser.replies(), browser.say("list", "show visits")
        table = browser.table()
        browser.open(address)
        same(browser.replies(), before + asked, "the transcript after a reload")
        same(browser.say("list", "show visits"), asked, "the answers after a reload")
        same(browser.table(), table, "the objects after a reload")


def try_end(browser):
    """After `quit`, and after a name that no file can have, the session goes on from all that was answered."""
    with served() as (address, _):
        browser.open(address)
        browser.say(*WATCH[:9])
        listed = browser.say("list")
        for line in ("quit", 'save "a/b"', 'import truck ".."'):
            browser.say(line)
            status = 0 if line == "quit" else 5
            browser.wait(f"document.getElementById('ended').textContent.includes('status {status}')", f"the end by {line}")
            browser.press("Go on", "#ended")
            browser.wait("!document.getElementById('line').disabled", "the program is there again")
            same(browser.say("list"), listed, f"the session after {line}")


def try_hostile_lines(browser):
    """Hostile lines have the native program's replies, change nothing of the page, and lose nothing that was kept."""
    with served() as (address, asked):
        browser.open(address)
        lines = [*WATCH[:7], *HOSTILE]
        browser.enter(lines)
        expected = native_replies(lines)
        same(joined(browser.replies()), expected, "the replies to hostile lines")
        same(browser.script("return document.title"), "DOMINO", "the title")
        browser.press("Go on", "#ended")
        browser.wait("!document.getElementById('line').disabled", "the program is there again")
        kept = [line for line in lines[:-1] if not line.startswith(("save", "ask"))]
        listed = browser.say("list", "show prototype")
        same(joined(listed), native_replies([*kept, "list", "show prototype"])[-len(joined(listed)):], "the session after hostile lines")
        browser.open(address)
        same(browser.say("list", "show prototype"), listed, "the session after a reload")
        same(file_of(browser, "<b>") is not None, True, "the file with a strange name")
        strangers = [path for path, code in asked if code not in (200, 304)]
        same(strangers, [], "what the page asked for that isn't there")


def try_closed_tabs(profile, rounds=2):
    """A browser that is killed at any moment loses nothing that was answered."""
    draw = random.Random(7)
    clock = "Number(document.getElementById('clock').textContent.slice(5))"
    least = 0
    with served() as (address, _):
        for number in range(rounds):
            with Browser(profile) as browser:
                browser.open(address)
                browser.wait(f"{clock} >= {least}", f"the clock stands at {least} or later, as before the browser was killed")
                if number == 0:
                    browser.say(*WATCH[:7])
                browser.script("document.getElementById('pace').value = 10")
                browser.find("run").click()
                browser.wait(f"{clock} >= {least + draw.randint(3, 12)}", "the clock runs")
                least = browser.script(f"return {clock}")
                browser.kill()
        with Browser(profile) as browser:
            browser.open(address)
            found = browser.script(f"return {clock}")
            if found < least:
                raise AssertionError(f"the clock stands at {found}, and {least} was shown before the browser was killed")
            same("watch arrivals" in browser.script("return document.getElementById('transcript').textContent"), True, "what was said")
            same(browser.say("list")[-1].split("\n")[1:], native_replies([*WATCH[:7], "list"]).split("\n")[-6:-1], "the session")


def try_many_closed_tabs(profile):
    """The same, ten times."""
    try_closed_tabs(profile, 10)


def with_small_stack(room):
    """The module with a stack that is enough for all that the page asks, and not for a formula as deep as may be."""
    module = room / "small.wasm"
    before = ["class truck 3 point", "insert truck a at (1,1)", 'export truck "t"', 'save "s"', "list"]

    def status(lines):
        text = "".join(line + "\n" for line in lines).encode()
        return subprocess.run(in_node(module=module), input=text, cwd=room, capture_output=True, check=False).returncode

    too_small, enough = 0, 512 << 10
    while enough - too_small > 4 << 10:
        size = (too_small + enough) // 2
        link(objects(), module, stack=size)
        too_small, enough = (too_small, size) if status(before) == 0 else (size, enough)
    link(objects(), module, stack=enough)
    same(status(before) == 0 and status([*before, DEEP]) != 0, True, "a stack is too small for a deep formula alone")
    return module.read_bytes()


def try_full_stack(browser):
    """An overflow of the stack stops the program, and the page tells so; the session goes on without the line."""
    with tempfile.TemporaryDirectory(prefix="page-") as room:
        small = with_small_stack(pathlib.Path(room))
    with served({"out/domino.wasm": small}) as (address, _):
        browser.open(address)
        browser.say("class truck 3 point", "insert truck a at (1,1)")
        browser.type(DEEP)
        browser.wait("document.getElementById('ended').textContent.includes('its stack is full')", "the page tells of the stack")
        browser.press("Go on", "#ended")
        browser.wait("!document.getElementById('line').disabled", "the program is there again")
        same(browser.say("list"), ["clock 0\nclass truck 1/3\nok"], "the session after the overflow")


def try_stop(browser):
    """A query that takes long is stopped by a button, and nothing else is lost."""
    lines = ["class car 1000 point", *(f"insert car c{n} at ({n},{n}) move ({n % 7 - 3},{n % 5 - 2})" for n in range(1000))]
    with served() as (address, _):
        browser.open(address)
        paste(browser, lines)
        browser.settle()
        listed = browser.say("list")
        near = " OR ".join(f"EVENTUALLY_WITHIN 9 (DIST(o,n) <= {most} AND o.x < n.y)" for most in range(5, 35))
        browser.type(f"ask 100000 RETRIEVE o,n FROM car o,car n WHERE {near}")
        browser.wait("!document.getElementById('slow').hidden", "the page tells that the program works")
        browser.press("Stop it", "#slow")
        browser.wait("document.querySelector('#transcript').textContent.includes('Stopped.')", "the program is stopped")
        same(browser.say("list"), listed, "the session after the stop")


def try_without_wide_memory(browser):
    """Where the browser has no memory of 64 bits, the page tells so."""
    lacking = (PAGE / "program.js").read_text(encoding="utf-8").replace("return WebAssembly.validate(WIDE_MEMORY);", "return false;")
    with served({"program.js": lacking.encode()}) as (address, _):
        browser.driver.get(address)
        browser.wait("document.getElementById('notice').textContent.includes('64-bit memory')", "the page tells what it lacks")
        same(browser.find("line").is_enabled(), False, "the input")


def try_places_of_faults(browser):
    """The place of a fault is marked in the line, and told in words."""
    with served() as (address, _):
        browser.open(address)
        browser.say("class ! 3", "tick", "tick 0", "list")
        marks = browser.script("return [...document.querySelectorAll('#transcript mark')].map((mark) => mark.textContent)")
        same(marks, ["!", " ", "0"], "what is marked")
        hints = browser.script("return [...document.querySelectorAll('#transcript .hint')].map((hint) => hint.textContent)")
        same(hints, ["column 7: no token begins here; unequal is !=", "column 5: expected a number of ticks",
                     "column 6: a number of ticks is a whole number from 1 to 1,000,000,000"], "the hints")
        lines = browser.script("return [...document.querySelectorAll('#transcript .line')].map((line) => line.textContent)")
        same(lines, ["class ! 3", "tick ", "tick 0", "list"], "the lines")


def exported(lines, ticks):
    """Where the native program has the trucks at a tick: rows of name, x, y and how these change."""
    text = "".join(f"{line}\n" for line in (*lines, *([f"tick {ticks}"] if ticks else []), 'export truck "t"')).encode()
    _, _, files = run(native(), text, {})
    columns, *rows = [line.split(",") for line in files["t"].decode().splitlines()]
    return [[row[columns.index(name)] for name in ("name", "x", "y", "x.rate", "y.rate")] for row in rows]


def try_places(browser):
    """Places now and later are those of the native program, to the thousandth."""
    lines = ["class truck 9 point (fuel dyn)", "insert truck a at (0.125,-3) move [(0.333,-1.001),7] [(2,2),3] (0,0.5)",
             "insert truck b at (-1000000000,1000000000) move (1000,-1000)", "insert truck c", "tick 2", "remove c"]
    with served() as (address, _):
        browser.open(address)
        browser.say(*lines)
        for ahead in (0, 3, 11, 20):
            browser.script("const ahead = document.getElementById('ahead'); ahead.value = arguments[0]; ahead.dispatchEvent(new Event('input'))", ahead)
            browser.wait(f"document.getElementById('table-tick').textContent === 'tick {2 + ahead}'", "the later tick is drawn")
            found = [[row[0], *row[2:]] for row in browser.table()]
            numbers = lambda rows: [[row[0], *map(float, row[1:])] for row in rows]
            same(numbers(found), numbers(exported(lines, ahead)), f"the places {ahead} ticks ahead")


def rows_shown(lines, ticks, query):
    """The rows of a query as the timeline has them, by what the native program shows after some ticks."""
    reply = native_replies([*lines, f"tick {ticks}", f"show {query}"]).removesuffix("ok\n").rpartition("ok\n")[2]
    for row in reply.splitlines():
        word, _, rest = row.partition(" ")
        label, _, runs = rest.partition(" : ")
        ends = (run.split("..") for run in runs.split(" "))
        told = ", ".join(first if first == last else f"{first} to {last}" for first, last in ends)
        yield f"{label}: {told}{', now' if word == 'now' else ''}"


def try_clock_alone(browser):
    """While only the clock moves the page asks for the list alone, and for all again where an object turns; what it shows is
    what the program tells, tick by tick."""
    lines = ["class truck 9 point (fuel dyn)", "insert truck a at (0.125,-3) move [(0.333,-1.001),4] (0.001,3.5) fuel = 9 rate -0.125",
             "insert truck b at (-1000000000,5) move (0,-1.125)", "watch low 7 RETRIEVE o FROM truck o WHERE o.y <= 1"]
    head = "  *#askAll({ clock, classes, regions, queries }) {\n"
    whole = (PAGE / "session.js").read_text(encoding="utf-8")
    telling = whole.replace(head, f"{head}    new BroadcastChannel('asked').postMessage(clock);\n")
    same(telling == whole, False, "the session tells when it asks for all")
    with served({"session.js": telling.encode()}) as (address, _):
        browser.open(address)
        browser.say(*lines)
        browser.script("window.asked = []; new BroadcastChannel('asked').onmessage = ({ data }) => window.asked.push(data)")
        for tick in range(1, 9):
            browser.say("tick 1")
            numbers = lambda rows: [[row[0], *map(float, row[1:])] for row in rows]
            found = numbers([[row[0], *row[2:]] for row in browser.table()])
            same(found, numbers(exported(lines, tick)), f"the places at tick {tick}")
            rows = browser.script("return [...document.querySelectorAll('#timeline [role=listitem]')].map((row) => row.ariaLabel)")
            same(rows, list(rows_shown(lines, tick, "low")), f"the rows at tick {tick}")
        same(browser.script("return window.asked"), [4], "when all was asked for")
        browser.script("[...document.querySelectorAll('#table tbody button')].find((one) => one.textContent === 'a').click()")
        browser.wait("document.getElementById('object').textContent.includes('fuel8fuel.rate-0.125')", "the values of an object are carried on")


def try_keys(browser):
    """All can be reached and done by keys, and all that takes input has a name."""
    with served() as (address, _):
        browser.open(address)
        browser.say(*WATCH[:7])
        nameless = browser.script("""
            return [...document.querySelectorAll('button, input, select, canvas, summary, [tabindex]')]
              .filter((one) => one.checkVisibility() && !one.textContent.trim() && !one.labels?.length && !one.ariaLabel)
              .map((one) => one.outerHTML)""")
        same(nameless, [], "what has no name")
        view = "return document.getElementById('map').toDataURL()"
        for key in (Keys.ARROW_LEFT, "+", "-", Keys.ARROW_UP):
            before = browser.script(view)
            browser.find("map").send_keys(key)
            browser.wait(f"document.getElementById('map').toDataURL() !== {json.dumps(before)}", f"the map moves by {key!r}")
        browser.find("ahead").send_keys(Keys.ARROW_RIGHT * 3)
        browser.wait("document.getElementById('ahead').getAttribute('aria-valuetext') === 'tick 3, 3 ahead'", "the slider moves by keys")
        found = browser.find("line")
        found.send_keys(Keys.ARROW_UP)
        same(found.get_attribute("value"), WATCH[6], "the line before, by the up key")
        reached = set()
        for _ in range(40):
            browser.driver.switch_to.active_element.send_keys(Keys.TAB)
            reached.add(browser.script("return document.activeElement.id || document.activeElement.textContent"))
        lacking = {"line", "map", "tick", "run", "pace", "marked", "ahead", "timeline-frame", "Examples", "Files"} - reached
        same(lacking, set(), "what the tab key does not reach")


CONTRAST = """
    const light = (parts) => parts.map((part) => part / 255)
      .map((part) => (part <= 0.04045 ? part / 12.92 : ((part + 0.055) / 1.055) ** 2.4))
      .reduce((sum, part, at) => sum + part * [0.2126, 0.7152, 0.0722][at], 0);
    const contrast = (a, b) => (Math.max(light(a), light(b)) + 0.05) / (Math.min(light(a), light(b)) + 0.05);"""
OF_TEXTS = CONTRAST + """
    const numbers = (colour) => colour.match(/[0-9.]+/g).map(Number);
    const isSeen = (one) => one.checkVisibility() && !one.closest(':disabled, .unseen, svg');
    const hasText = (one) => [...one.childNodes].some((child) => child.nodeType === 3 && child.textContent.trim());
    const groundOf = (one) => {
      for (let at = one; at; at = at.parentElement) {
        const found = numbers(getComputedStyle(at).backgroundColor);
        if (found.length === 3) return found;
      }
    };
    return [...document.querySelectorAll('body *')].filter((one) => hasText(one) && isSeen(one))
      .filter((one) => contrast(numbers(getComputedStyle(one).color).slice(0, 3), groundOf(one)) < 4.5)
      .map((one) => one.outerHTML.slice(0, 90));"""
OF_DRAWINGS = CONTRAST + """
    const done = arguments[0];
    const parts = (hex) => [1, 3, 5].map((at) => parseInt(hex.slice(at, at + 2), 16));
    import('./out/drawing.js').then(({ LIGHT, DARK }) => done([LIGHT, DARK].flatMap((theme) => {
      const texts = ['text', 'ink', 'regionLine'].map((name) => [theme[name], 4.5]);
      const marks = [...['mark', 'bar', 'barNow', 'clock'].map((name) => theme[name]), ...theme.classes].map((colour) => [colour, 3]);
      return [...texts, ...marks].filter(([colour, least]) => contrast(parts(colour), parts(theme.ground)) < least);
    })));"""


def try_contrast(browser):
    """Texts have a contrast of 4.5 to their grounds, and other marks of 3, in both kinds of colours."""
    with served() as (address, _):
        browser.open(address)
        browser.say(*WATCH[:7], "show nothing", "quit")
        same(browser.driver.execute_async_script(OF_DRAWINGS), [], "colours of drawings with too little contrast")
        for scheme in ("light", "dark"):
            browser.driver.execute_cdp_cmd("Emulation.setEmulatedMedia", {"features": [{"name": "prefers-color-scheme", "value": scheme}]})
            for panel in ("Examples", "Files", "Session", "About"):
                browser.press(panel, "nav")
                same(browser.script(OF_TEXTS), [], f"{scheme} texts with too little contrast")


def try_narrow(profile):
    """On a narrow screen nothing is cut off at the side."""
    with served() as (address, _), Browser(profile, size=(500, 800)) as browser:
        browser.open(address)
        browser.say(*WATCH[:7])
        same(browser.script("return document.documentElement.scrollWidth <= innerWidth"), True, "the width of the page")


def try_second_tab(browser):
    """A second tab leaves the session of the first one alone."""
    with served() as (address, _):
        browser.open(address)
        browser.say(*WATCH[:5])
        browser.driver.switch_to.new_window("tab")
        browser.open(address)
        browser.wait("document.getElementById('notice').textContent.includes('another tab')", "the second tab tells")
        same(browser.say("list"), ["clock 0\nok"], "the second tab's session")


def try_sessions(browser):
    """A session is saved to a file and loaded from one; a faulty one is refused by the program, and the old one stays."""
    with served() as (address, _):
        browser.open(address)
        browser.say(*WATCH[:9])
        listed = browser.say("list")
        browser.press("Session", "nav")
        browser.find("save-session").click()
        clock = listed[0].split("\n")[0].removeprefix("clock ")
        saved = browser.downloaded(f"domino-session-{clock}")
        text = "".join(line + "\n" for line in WATCH[:9]) + 'save "s"\n'
        same(saved, run(native(), text.encode(), {})[2]["s"], "the session that was saved")
        with tempfile.TemporaryDirectory(prefix="page-") as room:
            room = pathlib.Path(room)
            (room / "good").write_bytes(saved)
            (room / "bad").write_bytes(b"domino-session 2\nentries 1 clock 0\nnothing\nend\n")
            browser.press("Session", "nav")
            begin_new(browser)
            load_file(browser, room / "good")
            same(browser.say("list"), listed, "the session that was loaded")
            load_file(browser, room / "bad")
            same("bad session 3" in browser.text("transcript"), True, "the faulty session is refused")
            same(browser.say("list"), listed, "the session that stays")


def load_file(browser, file):
    """Loads a session from a file, and forgets the present one where the page asks."""
    browser.find("load-session").send_keys(str(file))
    isAsked = "document.getElementById('question').open"
    isDone = f"[...document.querySelectorAll('#transcript .note')].some((note) => note.textContent.match(/{file.name} was loaded|stays/))"
    browser.wait(f"{isAsked} || {isDone}", "the file is read")
    if browser.script(f"return {isAsked}"):
        browser.press("Forget it", "dialog")
    browser.wait(isDone, "the session is loaded or refused")


def try_files(browser):
    """Files are added, read by the program, kept over a reload, given to the user and removed."""
    with served() as (address, _), tempfile.TemporaryDirectory(prefix="page-") as room:
        browser.open(address)
        file = pathlib.Path(room) / "cars"
        file.write_bytes(b"name,x,y\nc0,1,2\nc1,-5,0.25\n")
        browser.press("Files", "nav")
        browser.find("add-file").send_keys(str(file))
        browser.wait("document.getElementById('file-list').textContent.includes('cars')", "the file is listed")
        browser.press("Files", "nav")
        lines = ["class car 9 point", 'import car "cars"', 'export car "out"']
        browser.say(*lines)
        _, _, left = run(native(), "".join(line + "\n" for line in lines).encode(), {"cars": file.read_bytes()})
        browser.open(address)
        browser.press("Files", "nav")
        browser.script("document.querySelector('[aria-label=\"Download: out\"]').click()")
        same(browser.downloaded("out"), left["out"], "the file that was exported")
        browser.script("document.querySelector('[aria-label=\"Remove: cars\"]').click()")
        browser.wait("!document.getElementById('file-list').textContent.includes('cars')", "the file is gone")
        same(file_of(browser, "cars"), None, "the file that was removed")


WITH_PROFILE = (try_closed_tabs, try_many_closed_tabs, try_narrow)
LONG = (try_examples_by_keys, try_many_closed_tabs)


def try_all(names=(), is_long=False):
    """Runs the tries of these names, or all, the long ones only where they are wanted; and returns how many there were."""
    tries = {name.removeprefix("try_"): one for name, one in globals().items() if name.startswith("try_") and name != "try_all"}
    chosen = [one for name, one in tries.items() if name in names or (not names and (is_long or one not in LONG))]
    for one in chosen:
        with tempfile.TemporaryDirectory(prefix="page-profile-", ignore_cleanup_errors=True) as profile:
            if one in WITH_PROFILE:
                one(profile)
            else:
                with Browser(profile) as browser:
                    one(browser)
        print(f"  {one.__doc__.splitlines()[0]}", flush=True)
    return len(chosen)
