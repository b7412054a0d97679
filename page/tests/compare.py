"""Compares the module, in node, with the native program: what is written, the status and the files, byte for byte; the places
of faults with the companion's; and what the page carries on from tick to tick with what the native program tells."""

import json
import os
import pathlib
import random
import subprocess
import sys
import tempfile

HERE = pathlib.Path(__file__).resolve().parent
PAGE = HERE.parent
TOP = PAGE.parent
sys.path += [str(TOP / "bench"), str(TOP / "companion"), str(TOP / "trials"), str(PAGE)]

from fleet import grammar  # noqa: E402
from making import compile_c, link  # noqa: E402
from runs import plain_program  # noqa: E402
from sessions import FILES  # noqa: E402

EXAMPLES = TOP / "examples"
STORED = TOP / "crates/domino"
SECONDS = 600
# lines of a session of the fuzzer, and which commands it has
SESSION_LINES = 4_000
BUILT = "files"
FIRST_SEED = 1_000_000
# lines that are too long have no place of a fault
LONGEST = 4_096
NODE = ("node", "--experimental-wasm-memory64")
OLDEST_NODE = 20
WIDE_TRIES = 300_000
LITTLE_MEMORY, OUT_OF_MEMORY = 16 << 20, 6
# sessions in which what is shown is carried on from tick to tick, and their lines
CARRIED, CARRIED_LINES = 12, 400


def native(words=()):
    return [os.environ.get("DOMINO") or str(PAGE / "out/native"), *words]


def in_node(words=(), module=PAGE / "out/domino.wasm"):
    return [*NODE, str(PAGE / "run.mjs"), str(module), *words]


def files_of(folder):
    return {path.name: path.read_bytes() for path in folder.iterdir()}


def run(program, text, files):
    """What a program writes to these bytes, its status, and the files that it leaves of those that were there."""
    with tempfile.TemporaryDirectory(prefix="page-") as folder:
        folder = pathlib.Path(folder)
        for name, content in files.items():
            (folder / name).write_bytes(content)
        ran = subprocess.run(program, input=text, stdout=subprocess.PIPE, cwd=folder, timeout=SECONDS, check=False)
        return ran.stdout, ran.returncode, files_of(folder)


def first_line(one, other):
    """The number of the first line that differs."""
    pairs = zip(one.split(b"\n"), other.split(b"\n"))
    return next((number for number, (a, b) in enumerate(pairs, 1) if a != b), 0)


class Comparison:
    """Runs that are compared, and how many there were."""

    def __init__(self):
        self.runs = self.lines = 0

    def same(self, name, text, words=(), files=None, expected=None):
        """Ends where the two differ, or from what is expected. Returns what is written and the files."""
        files = files or {}
        one, other = run(native(words), text, files), run(in_node(words), text, files)
        for what, a, b in zip(("the output", "the status", "the files"), one, other):
            if a != b:
                at = f" at line {first_line(a, b)}" if what == "the output" else f": {a} and {b}"
                sys.exit(f"{name}: {what} of the native program and of the module differ{at[:400]}")
        if expected is not None and one[0] != expected:
            sys.exit(f"{name}: the output isn't that of the file beside it")
        self.runs += 1
        self.lines += text.count(b"\n")
        return one


def compare_examples(comparison):
    for file in sorted(EXAMPLES.glob("*.domino")):
        comparison.same(file.name, file.read_bytes(), expected=file.with_suffix(".out").read_bytes())
    folder = EXAMPLES / "files"
    text = lambda name: (folder / name).read_bytes()
    _, _, left = comparison.same("files/first", text("first.domino"), files={"fleet.csv": text("fleet.csv")},
                                 expected=text("first.out"))
    for name in ("evening", "now.csv"):
        if left[name] != text(name):
            sys.exit(f"files/first: {name} isn't the file of the examples")
    comparison.same("files/second", text("second.domino"), ("--session", "evening"), left, text("second.out"))


def compare_stored_run(comparison):
    """The run by which the gate tries the program."""
    text = lambda name: (STORED / name).read_bytes() if (STORED / name).exists() else b""
    words = text("args").decode().splitlines()
    files = files_of(STORED / "data") if (STORED / "data").exists() else {}
    comparison.same("the stored run", text("stdin"), words, files, text("stdout"))


def compare_words(comparison):
    for words in (["a", "word"], ["--session", "missing"], ["--gen"], ["--gen", "x"], *(["--gen", str(n)] for n in (1, 2, 77))):
        comparison.same(" ".join(words), b"", words)
    for text in (b"", b"\n", b"list", b"list\r\n\xff\n" + 5000 * b"x" + b"\nlist\n", b"quit\nlist\n", b"save \"a/b\"\nlist\n"):
        comparison.same(repr(text[:20]), text)
    comparison.same("a faulty session", b"list\n", ["--session", "s"], {"s": b"domino-session 2\nentries 1 clock 0\nend\n"})


def fuzzed(seed, count, reach):
    """Lines of the fuzzer, of which those of the last lines save and export."""
    words = [plain_program("fuzz"), str(seed), str(count), BUILT, reach]
    lines = subprocess.run(words, stdout=subprocess.PIPE, check=True).stdout.split(b"\n")
    return b"\n".join(line for line in lines if line.strip() != b"quit") + b'\nsave "saved"\nlist\n'


def compare_fuzzed(comparison, count):
    """Hostile and right lines, in sessions with files, near spans and far ones in turn; each third session is read again."""
    files = {name: text.encode() for name, text in FILES.items()}
    for number in range(-(-count // SESSION_LINES)):
        text = fuzzed(FIRST_SEED + number, min(SESSION_LINES, count), "far" if number % 3 == 2 else "near")
        _, _, left = comparison.same(f"fuzzed session {FIRST_SEED + number}", text, files=files)
        if number % 3 == 0 and "saved" in left:
            comparison.same(f"fuzzed session {FIRST_SEED + number} once more", b"list\nsave \"again\"\n", ("--session", "saved"), left)


def compare_little_memory(comparison):
    """With a memory that is soon full the module ends as the native program does where memory is out, by its status and with
    a part of the replies."""
    lines = [b"class car 100000 point (fuel dyn,plate text)\n"]
    lines += [b'insert car c%d at (%d,5) move (1,0) fuel = 3 plate = "plate"\n' % (number, number) for number in range(20_000)]
    text = b"".join(lines)
    whole = run(native(), text, {})[0]
    with tempfile.TemporaryDirectory(prefix="page-") as room:
        small = pathlib.Path(room) / "small.wasm"
        link(objects(), small, most_memory=LITTLE_MEMORY)
        written, status, _ = run(in_node(module=small), text, {})
    if status != OUT_OF_MEMORY or not whole.startswith(written) or written == whole:
        sys.exit(f"with little memory the module ends with status {status} after {len(written)} of {len(whole)} bytes")
    comparison.runs += 1


def fault_of(line):
    """The fault of a line of bytes as the companion tells it, without its hints at syntax, or None where there is none that
    the page tells too: it tells nothing of the sizes of lists and formulas."""
    fault = grammar.explain(line)
    if fault is None or (fault.number == 6 and not fault.message.startswith(("this name", "this text"))):
        return None
    words = {2: "neither printable ASCII nor a tab", 4: fault.message.partition(";")[0]}
    return {"number": fault.number, "at": fault.place, "length": fault.length, "words": words.get(fault.number, fault.message)}


def compare_faults(count):
    """Compares the places of faults in lines of the fuzzer, half of which are hostile, with the companion's."""
    lines = [line for line in fuzzed(FIRST_SEED, count, "near").split(b"\n") if len(line) <= LONGEST]
    words = ["node", str(HERE / "faults.mjs"), str(PAGE / "out/faults.json")]
    given = json.dumps([line.decode("latin-1") for line in lines])
    said = subprocess.run(words, input=given, stdout=subprocess.PIPE, text=True, check=True).stdout
    for line, found in zip(lines, json.loads(said), strict=True):
        expected = fault_of(line)
        # a list or a formula that is too long may stand before a long name
        if found != expected and not (expected is None and found["number"] == 6):
            sys.exit(f"the fault of {line[:300]} is {found}, and by the companion {expected}")
    return len(lines)


def moving_lines(draw, count):
    """Lines of a session in which objects turn by legs, are written, removed and inserted again, and the clock goes on."""
    number = lambda most: f"{draw.randint(-most, most) / draw.choice((1, 10, 1000)):g}"
    pair = lambda most: f"({number(most)},{number(most)})"
    legs = lambda slope: "".join(f"[{slope()},{draw.randint(1, 9)}] " for _ in range(draw.choice((0, 0, 0, 1, 3)))) + slope()
    name = lambda: f"v{draw.randrange(9)}"
    yield from ("class van 9 point (fuel dyn,plate text)", "class tank 2 (level dyn)", "region yard (-20,-20) (20,-20) (20,20) (-20,20)",
                "insert tank t level = 3 rate [0.5,4] [-1,3] 0.125", "watch in 60 RETRIEVE o FROM van o WHERE INSIDE(o,yard)",
                "keep all 60 RETRIEVE o,n FROM van o,van n WHERE DIST(o,n) <= 20", "watch late 400 RETRIEVE o FROM van o WHERE o.fuel < 0")
    for _ in range(count):
        kind = draw.choice(("tick",) * 12 + ("insert", "update", "update", "remove"))
        if kind == "tick":
            yield f"tick {draw.choice((1, 1, 1, 2, 7))}"
        elif kind == "remove":
            yield f"remove {name()}"
        else:
            place = f"at {pair(40)} " if draw.randrange(3) else ""
            fuel = f" fuel = {number(9)} rate {legs(lambda: number(3))}" if draw.randrange(2) else ""
            plate = draw.choice(("", "", ' plate = "[1,"', ' plate = "a,b] "'))
            yield f"{kind} {'van ' if kind == 'insert' else ''}{name()} {place}move {legs(lambda: pair(5))}{fuel}{plate}"


def compare_carried(sessions=CARRIED, lines=CARRIED_LINES):
    """Compares what the page carries on from one tick to the next with what the native program tells there, in sessions of
    random lines; and returns how many ticks were carried on to."""
    count = 0
    for seed in range(sessions):
        said = [line for line in moving_lines(random.Random(seed), lines)]
        asked = lambda at: [f'export van "van {at}"', f'export tank "tank {at}"', "show in", "show all", "show late", "list"]
        whole = [one for at, line in enumerate(said) for one in (line, *asked(at))]
        replies, _, files = run(native(), "".join(line + "\n" for line in whole).encode(), {})
        words = subprocess.run(["node", str(HERE / "carried.mjs")], input=json.dumps(list(steps_of(said, replies.decode(), files))),
                               stdout=subprocess.PIPE, text=True, check=True).stdout
        count += int(words)
    if count < sessions * lines // 10:
        sys.exit(f"only {count} ticks were carried on to")
    return count


def steps_of(said, replies, files):
    """The steps that carried.mjs reads: each line with its reply, and what the program tells after it."""
    told = iter(replies_in(replies))
    kinds = {"in": "watch", "all": "keep", "late": "watch"}
    for at, line in enumerate(said):
        yield {"line": line, "reply": next(told)}
        exports = [next(told), next(told)]
        shown = {name: next(told) for name in kinds}
        listed = next(told).split("\n")
        clock = int(listed[0].removeprefix("clock "))
        spans = {words[1]: words[2].split("..") for words in map(str.split, listed) if words and words[0] in ("watch", "keep")}
        yield {
            "clock": clock,
            "exported": {name: files[f"{name} {at}"].decode() for name, reply in zip(("van", "tank"), exports) if reply == "ok\n"},
            "answers": [{"kind": kinds[name], "name": name, "from": int(first), "to": int(last), "answer": shown[name]}
                        for name, (first, last) in spans.items()],
        }


def replies_in(text):
    """The replies in what the program wrote to lines that each have one."""
    reply = ""
    for line in text.splitlines(keepends=True):
        reply += line
        if line == "ok\n" or line.startswith("refused "):
            yield reply
            reply = ""


def objects():
    """What the module is linked of."""
    return sorted((PAGE / "out/objects").glob("*.o"))


def try_wide(tries=WIDE_TRIES):
    """Tries the arithmetic of 128 bits that the module is linked with."""
    with tempfile.TemporaryDirectory(prefix="page-") as room:
        room = pathlib.Path(room)
        compile_c("wasm/wide", room / "wide.o")
        compile_c("tests/wide", room / "try.o")
        link([room / "try.o", room / "wide.o"], room / "try.wasm", entry="try_wide")
        for seed in (1, 88172645463325252):
            subprocess.run([*NODE, str(HERE / "wide.mjs"), str(room / "try.wasm"), str(seed), str(tries)], check=True)


def check_node():
    """Ends where node is missing, or too old for memories of 64 bits as the module has them."""
    said = subprocess.run(["node", "--version"], stdout=subprocess.PIPE, text=True, check=True).stdout.strip()
    if int(said.removeprefix("v").split(".")[0]) < OLDEST_NODE:
        sys.exit(f"node {said} is older than {OLDEST_NODE}")


def compare_all(lines):
    """Returns how many runs and lines were compared."""
    check_node()
    try_wide()
    comparison = Comparison()
    compare_examples(comparison)
    compare_stored_run(comparison)
    compare_words(comparison)
    compare_little_memory(comparison)
    compare_fuzzed(comparison, lines)
    return comparison.runs, comparison.lines
