"""Rolled sessions answer as the long ones do."""

import random
import re
from collections.abc import Callable
from pathlib import Path

import pytest

from fleet import cli
from fleet.client import Client
from fleet.present import Function, Present, Vector, number_text, thousandths
from fleet.roll import Changes, rolled
from fleet.session_text import entries

CLASSES = {
    "van": ("class van 12 point (fuel dyn,plate text,seats num)", "fuel plate seats x y"),
    "depot": ("class depot 4 point", "x y"),
    "tank": ("class tank 6 (level dyn,heat dyn)", "level heat"),
    "note": ("class note 3 (words text,mark num)", "words mark"),
}
REGIONS = ["region yard (0,0) (40,0) (40,30.5) (0,30)", "region far (-500,-500) (-400,-500) (-450.125,-300)"]
QUERIES = [
    "RETRIEVE o FROM van o WHERE INSIDE(o,yard)",
    "RETRIEVE o FROM van o WHERE EVENTUALLY_WITHIN 5 INSIDE(o,yard)",
    "RETRIEVE o FROM van o WHERE (o.fuel > 10 UNTIL o.fuel <= 5)",
    "RETRIEVE o FROM van o WHERE TIME - o.x.updatetime >= 12",
    "RETRIEVE o FROM van o WHERE o.fuel.value - o.fuel > 3 OR o.y.function < 0",
    "RETRIEVE o FROM van o WHERE NEXTTIME OUTSIDE(o,far)",
    "RETRIEVE d,o FROM van o,depot d WHERE DIST(o,d) <= 25",
    "RETRIEVE o,p FROM van o,van p WHERE DIST(o,p) <= 30 AND o.seats < p.seats",
    "RETRIEVE t FROM tank t WHERE t.level > t.heat",
    'RETRIEVE n,t FROM tank t,note n WHERE n.words != "x" AND t.level >= n.mark',
    "RETRIEVE o FROM van o WHERE [v <- o.fuel] EVENTUALLY_WITHIN 8 o.fuel <= v - 4",
    "RETRIEVE t FROM tank t WHERE ALWAYS_FOR 6 t.heat.value <= 500",
]

CHANGE = re.compile(r"(gain|lose|enter|leave) ")
Roll = Callable[..., tuple[int, str, str]]


class Maker:
    """Makes lines of a session at random: most of them right ones."""

    def __init__(self, seed: int) -> None:
        self.random = random.Random(seed)
        self.removed: set[str] = set()

    def number(self) -> str:
        if self.random.random() < 0.05:
            return self.random.choice(["1000000000", "-1000000000", "999999999.999"])
        return number_text(self.random.choice([0, 1, -1, 500, 2500]) + 1000 * self.random.randint(-60, 60))

    def slope(self) -> str:
        if self.random.random() < 0.05:
            return self.random.choice(["1000", "-1000"])
        return number_text(self.random.choice([0, 0, 125, -500, 1000, -2000, 3250]))

    def legs(self, one: str) -> str:
        count = self.random.choice([0, 0, 0, 1, 2, 7])
        return " ".join(f"[{self.part(one)},{self.random.randint(1, 9)}]" for _ in range(count))

    def part(self, one: str) -> str:
        return f"({self.slope()},{self.slope()})" if one == "move" else self.slope()

    def settings(self, of: str) -> str:
        parts = []
        names = [name for name in CLASSES[of][1].split() if self.random.random() < 0.5]
        if of in ("van", "depot") and self.random.random() < 0.7:
            names = [name for name in names if name not in "xy"]
            if self.random.random() < 0.7:
                parts.append(f"at ({self.number()},{self.number()})")
            if self.random.random() < 0.6:
                parts.append(f"move {self.legs('move')} {self.part('move')}")
        return " ".join(parts + [self.setting(name) for name in names])

    def setting(self, name: str) -> str:
        if name in ("plate", "words"):
            return f'{name} = "{self.random.choice(["x", "A = 1", "", "at (0,0)"])}"'
        if name in ("seats", "mark"):
            return f"{name} = {self.number()}"
        rate = f" rate {self.legs('rate')} {self.slope()}"
        return self.random.choice([f"{name} = {self.number()}", f"{name}{rate}", f"{name} = {self.number()}{rate}"])

    def object_name(self, of: str) -> str:
        return f"{of[0]}{self.random.randint(1, 8)}"

    def write(self) -> str:
        of = self.random.choice([*CLASSES, "van", "van"])
        name = self.object_name(of)
        word = self.random.choices(["update", "insert", "remove"], [8, 4, 1])[0]
        if word == "remove":
            return f"remove {name}"
        return f"{word} {of + ' ' if word == 'insert' else ''}{name} {self.settings(of)}"

    def line(self) -> str:
        word = self.random.choices(["write", "tick", "watch", "keep", "drop"], [70, 12, 4, 3, 2])[0]
        name = f"q{self.random.randint(1, 8)}"
        if word == "write":
            return self.write()
        if word == "tick":
            return f"tick {self.random.choice([1, 1, 2, 5, 11])}"
        if word == "drop":
            return f"drop {name}"
        return f"{word} {name} {self.random.choice([3, 20, 200, 5000])} {self.random.choice(QUERIES)}"


def clipped(lines: list[str], now: int) -> list[str]:
    """Rows of an answer, with the ticks before now left out."""
    rows = []
    for line in lines[:-1]:
        when, _, spans = line.partition(" : ")
        if when.startswith("past "):
            continue
        ticks = [tuple(map(int, span.split(".."))) for span in spans.split()]
        left = " ".join(f"{max(first, now)}..{last}" for first, last in ticks if last >= now)
        rows.append(f"{when} : {left}")
    return rows


def listed(lines: list[str]) -> dict[str, str]:
    return {" ".join(line.split()[:2]): line.split()[-1] for line in lines[:-1]}


def compare_now(long: Client, short: Client, folder: Path) -> dict[str, str]:
    """Compares all that can be asked of both, and gives what the long one lists."""
    assert long.clock == short.clock
    for query in QUERIES:
        for span in (0, 60, 1500):
            assert long.send(f"ask {span} {query}").text == short.send(f"ask {span} {query}").text
    for of in CLASSES:
        long.send(f'export {of} "long.csv"')
        short.send(f'export {of} "short.csv"')
        assert (folder / "long.csv").read_bytes() == (folder / "short.csv").read_bytes()
    there = listed(long.send("list").text)
    left = listed(short.send("list").text)
    for what, numbers in there.items():
        if not what.startswith(("watch", "keep")):
            assert what in left
        elif what in left:
            assert left[what].split("..")[1] == numbers.split("..")[1]
            name = what.split()[1]
            first, second = (client.send(f"show {name}").text for client in (long, short))
            assert clipped(first, long.clock) == clipped(second, long.clock)
        else:
            assert int(numbers.split("..")[1]) < long.clock
    assert list(left) == [what for what in there if what in left]
    return there


def changes(lines: list[str], left_out: set[str]) -> list[str]:
    """The lines of a reply, but for changes of some queries."""
    return [line for line in lines if not CHANGE.match(line) or line.split()[1] not in left_out]


def compare_rolled(program: Path, tmp_path: Path, seed: int) -> None:
    """Makes a session at random, rolls it, and compares what both answer, then and after some more lines."""
    maker = Maker(seed)
    with Client(program, directory=tmp_path, patience=60) as long:
        for line in [*(of[0] for of in CLASSES.values()), *REGIONS]:
            assert long.send(line).ok
        for _ in range(260):
            long.send(maker.line())
        assert long.send('save "long"').ok
        with (tmp_path / "long").open("rb") as text:
            told, made = rolled((entry.text for entry in entries(text)), Changes())
        assert told.clock == long.clock
        (tmp_path / "short").write_text("\n".join(
            ["domino-session 2", f"entries {len(made)} clock {told.clock}", *made, "end", ""]
        ))  # fmt: skip
        with Client(program, "short", tmp_path, patience=60) as short:
            there = compare_now(long, short, tmp_path)
            assert short.send('save "again"').ok
            assert (tmp_path / "again").read_bytes() == (tmp_path / "short").read_bytes()
            left = listed(short.send("list").text)
            gone = {what.split()[1] for what in there if what not in left or what.startswith("keep")}
            go_on(maker, long, short, gone)
            compare_now(long, short, tmp_path)


def go_on(maker: Maker, long: Client, short: Client, gone: set[str]) -> None:
    """Sends the same lines to both, and compares the replies but for what they tell of the queries that are gone or
    have another past."""
    for _ in range(60):
        line = maker.line()
        if line.startswith(("insert", "drop", "watch", "keep")):
            # A forgotten name may be used again, and that of an expired query.
            continue
        first, second = long.send(line), short.send(line)
        if first.text != ["refused 14 Presence"] or second.text != ["refused 7 UnknownName"]:
            assert changes(first.text, gone) == changes(second.text, gone)


@pytest.mark.parametrize("seed", range(6))
def test_a_rolled_session_answers_as_the_long_one(program: Path, tmp_path: Path, seed: int) -> None:
    compare_rolled(program, tmp_path, seed)


@pytest.mark.long
def test_many_rolled_sessions_answer_as_the_long_ones(program: Path, tmp_path: Path) -> None:
    for seed in range(6, 206):
        compare_rolled(program, tmp_path, seed)


@pytest.fixture
def roll(
    program: Path, tmp_path: Path, monkeypatch: pytest.MonkeyPatch, capsys: pytest.CaptureFixture[str]
) -> Callable[..., tuple[int, str, str]]:
    """Runs `fleet roll` in the test's folder, and gives its status and what it says."""
    monkeypatch.chdir(tmp_path)

    def run(*words: str) -> tuple[int, str, str]:
        try:
            status = cli.main(["roll", *words, "--program", str(program)])
        except SystemExit as end:
            status = int(end.code or 0)
        return status, *capsys.readouterr()

    return run


SESSION = """domino-session 1
class van 5 point (fuel dyn,plate text)
class post 2 point
region yard (0,0) (9,0) (9,9)
region far (90,0) (99,0) (99,9)
insert van gone at (1,1)
insert van a at (0,5) move [(1,0),9] (0,0) fuel = 40 rate -1 plate = "AB"
insert post p
remove gone
watch w 50 RETRIEVE o FROM van o WHERE INSIDE(o,yard) AND o.fuel > 3
keep k 50 RETRIEVE o,n FROM van o,post n WHERE DIST(o,n) <= 4
watch old 2 RETRIEVE o FROM van o WHERE TRUE
tick 4
end
"""


def test_it_says_what_is_lost(roll: Roll, tmp_path: Path) -> None:
    (tmp_path / "long").write_text(SESSION)
    status, told, faults = roll("long", "short")
    assert (status, faults) == (0, "")
    assert told.splitlines() == [
        "12 entries became 9, at tick 4",
        "class van: 1 removed name is forgotten",
        "expired queries are gone: old",
        "kept queries have lost their past: k",
    ]
    assert (tmp_path / "short").read_text().splitlines() == [
        "domino-session 2",
        "entries 9 clock 4",
        "class van 5 point (fuel dyn,plate text)",
        "class post 2 point",
        "region yard (0,0) (9,0) (9,9)",
        "region far (90,0) (99,0) (99,9)",
        'insert van a at (0,5) move [(1,0),9] (0,0) fuel = 40 rate -1 plate = "AB"',
        "insert post p",
        "tick 4",
        "watch w 46 RETRIEVE o FROM van o WHERE INSIDE(o,yard) AND o.fuel > 3",
        "keep k 46 RETRIEVE o,n FROM van o,post n WHERE DIST(o,n) <= 4",
        "end",
    ]
    assert sorted(path.name for path in tmp_path.iterdir()) == ["long", "short"]
    assert roll("long", "short") == (1, "", "fleet: short is there already; --force writes in its place\n")
    assert roll("long", "short", "--force")[0] == 0


def test_the_schema_may_change(roll: Roll, program: Path, tmp_path: Path) -> None:
    (tmp_path / "long").write_text(SESSION)
    words = ["--capacity", "van=100", "--add-attribute", "van.seats=num", "--add-attribute", "van.oil=dyn"]
    words += ["--add-attribute", "van.note=text", "--drop-attribute", "van.plate", "--drop-region", "far"]
    words += ["--drop-query", "k", "--drop-class", "post"]
    assert roll("long", "short", *words)[0] == 0
    with Client(program, "short", tmp_path) as client:
        assert client.send("list").text == ["clock 4", "class van 1/100", "region yard 3", "watch w 4..50", "ok"]
        assert client.send('export van "e"').ok
        assert (tmp_path / "e").read_text().splitlines() == [
            "name,x,x.rate,y,y.rate,fuel,fuel.rate,seats,oil,oil.rate,note",
            "a,4,1,5,0,36,-1,0,0,0,",
        ]
        ask = "ask 0 RETRIEVE o FROM van o WHERE o.oil.updatetime = 4 AND o.x.updatetime = 0"
        assert client.send(ask).text == ["now a : 4..4", "ok"]


@pytest.mark.parametrize(
    ("words", "cause"),
    [
        (["--drop-region", "yard"], "the query w needs the region yard; --drop-query w takes it away"),
        (["--drop-class", "post"], "the query k needs the class post; --drop-query k takes it away"),
        (["--drop-attribute", "van.fuel"], "the query w needs the attribute van.fuel; --drop-query w takes it away"),
        (["--drop-region", "yrad"], "there is no region of the name yrad"),
        (["--drop-query", "x"], "there is no registered query of the name x"),
        (["--drop-attribute", "van.x"], "there is no attribute of van of the name x"),
        (["--capacity", "bus=5"], "there is no class of the name bus"),
        (["--add-attribute", "van.x=num"], "the class van has an attribute x already"),
        (
            ["--capacity", "post=100000", "--capacity", "van=11"],
            "the program refuses a command of the rolled session: keep k 46",
        ),
    ],
)
def test_what_cannot_be_had_is_told(roll: Roll, tmp_path: Path, words: list[str], cause: str) -> None:
    (tmp_path / "long").write_text(SESSION)
    status, told, faults = roll("long", "short", *words)
    assert (status, told) == (1, "")
    assert faults.startswith(f"fleet: {cause}"), faults
    assert [path.name for path in tmp_path.iterdir()] == ["long"]


def test_bad_words_and_sessions(roll: Roll, tmp_path: Path) -> None:
    bad = ["--capacity", "van"], ["--capacity", "van=0"], ["--add-attribute", "van.a=int"], ["--drop-attribute", "van"]
    for words in bad:
        assert roll("long", "short", *words)[0] == 2
    for text, line in (("class van 5\n", 3), ("update a\nend\n", 2), ("class é 5\nend\n", 2), ("foo\nend\n", 2)):
        (tmp_path / "long").write_text(f"domino-session 1\n{text}")
        assert roll("long", "short") == (2, "", f"fleet: bad session {line}: its line {line} is faulty\n")
    assert roll("none", "short") == (2, "", "fleet: bad session 0: there is none of that name\n")


def test_numbers() -> None:
    for text in ("0", "0.001", "12.5", "1000000000", "3.04"):
        assert number_text(thousandths(text)) == text
    assert number_text(-500) == "-0.5" and thousandths("3.40") == 3400


def test_legs() -> None:
    function = Function(((2000, 10), (0, 5)), -1000)
    rises = {0: 0, 1: 2000, 10: 20000, 12: 20000, 15: 20000, 16: 19000, 20: 15000}
    assert {ticks: function.rise(ticks) for ticks in rises} == rises
    assert function.after(0) == function
    assert function.after(4) == Function(((2000, 6), (0, 5)), -1000)
    assert function.after(10) == Function(((0, 5),), -1000)
    assert function.after(15) == function.after(99) == Function((), -1000)
    assert Vector(5, 10, function).at(12) == 4005


def test_values_that_no_command_can_write_are_reached(program: Path, tmp_path: Path) -> None:
    lines = ["class tank 3 (level dyn)", "insert tank a level = 1000000000 rate 1000", "insert tank b", "tick 7"]
    lines += ["update a level rate -0.001", "tick 3", "update b level = -1000000000 rate -999.999", "tick 5"]
    lines += ["update b level rate 2", 'export tank "long.csv"', 'save "long"']
    with Client(program, directory=tmp_path) as client:
        assert all(client.send(line).ok for line in lines)
    with (tmp_path / "long").open("rb") as text:
        present = Present.after(entry.text for entry in entries(text))
    (tmp_path / "short").write_text("\n".join(["domino-session 1", *present.commands(), "end"]))
    with Client(program, "short", tmp_path) as client:
        assert client.send('export tank "short.csv"').ok
        query = "RETRIEVE o FROM tank o WHERE o.level.updatetime = 15 AND o.level.value < -1000000000"
        assert client.send(f"ask 0 {query}").text == ["now b : 15..15", "ok"]
    assert (tmp_path / "long.csv").read_bytes() == (tmp_path / "short.csv").read_bytes()
