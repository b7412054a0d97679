"""The grammar against the program: which lines it refuses by its refusals 1 to 6, and where the fault is."""

import random
from collections.abc import Iterable
from pathlib import Path

import pytest

from conftest import SEED
from fleet import grammar, manual
from fleet.client import BadName, Client
from fleet.explain import answered_commands
from fleet.filenames import check_line
from fleet.names import unknown_names
from fleet.schema import Schema
from fleet.tokens import BadToken, is_silent, tokens
from fleet.words import COMMANDS, LATER_COMMANDS, LINE_LIMIT, RESERVED
from lines import Derivations, mutated, spelled, with_odd_byte

LINES = 8_000
QUERY = "ask 1 RETRIEVE o FROM car o WHERE "


@pytest.fixture(scope="session")
def answered(program: Path) -> frozenset[str]:
    """The commands that the program answers."""
    return answered_commands(program)


def is_sendable(line: bytes, directory: Path) -> bool:
    """Whether the line has a reply, and the program goes on after it."""
    if is_silent(line):
        return False
    try:
        found = tokens(line)
        check_line(found, directory)
    except BadToken:
        return True
    except BadName:
        return False
    return [token.text for token in found] != ["quit"]


def compare(client: Client, lines: Iterable[bytes], answered: frozenset[str]) -> int:
    """Compares the first refusal of 1 to 6 of each line with that of the program, and gives how many were compared."""
    sent = [line for line in lines if is_sendable(line, client.directory)]
    for line, reply in zip(sent, client.send_many(sent), strict=True):
        fault = grammar.explain(line, answered)
        theirs = reply.refusal.number if reply.refusal and reply.refusal.number <= 6 else None
        assert (fault.number if fault else None) == theirs, (line, fault, reply.text[-1])
        if fault:
            assert 0 <= fault.place <= len(line) and fault.message, (line, fault)
    return len(sent)


def made_lines(count: int, chance: random.Random) -> Iterable[bytes]:
    """Commands that the grammar derives, most of them with one or two mutations."""
    derivations = Derivations(chance)
    for _ in range(count):
        found = derivations.line()
        for _ in range(chance.choice((0, 0, 1, 1, 1, 2))):
            found = mutated(found, chance) if found else found
        line = spelled(found, chance)
        yield with_odd_byte(line, chance) if chance.random() < 0.08 else line


def test_refuses_what_the_program_refuses(client: Client, answered: frozenset[str]) -> None:
    assert compare(client, made_lines(LINES, random.Random(SEED)), answered) > LINES * 9 // 10


@pytest.mark.parametrize("command", sorted(grammar.ALL_COMMANDS))
def test_reads_what_it_derives(command: str) -> None:
    derivations = Derivations(random.Random(SEED), odd_numbers=0)
    for _ in range(20):
        line = spelled(derivations.line(command), derivations.chance)
        fault = grammar.explain(line)
        if fault is None:
            assert grammar.read(line).data == command
        else:
            assert fault.number in (5, 6), (line, fault)


def test_has_all_reserved_words() -> None:
    assert {word for word in grammar.terminals() if word.isidentifier()} == RESERVED | set(LATER_COMMANDS)


def at_limits() -> Iterable[tuple[str, str]]:
    """Lines at a limit, each with one that is past it by one."""
    tree = "TRUE"
    for _ in range(7):
        tree = f"({tree} AND {tree})"
    yield "show " + "n" * 32, "show " + "n" * 33
    yield 'update a t = "' + "t" * 32 + '"', 'update a t = "' + "t" * 33 + '"'
    for count, line in (
        (16, lambda n: "class c 1 (" + ",".join(f"a{i} num" for i in range(n)) + ")"),
        (64, lambda n: "region r" + " (0,0)" * n),
        (8, lambda n: "update a v rate " + "[1,1] " * (n - 1) + "1"),
        (8, lambda n: "update a move " + "[(1,1),1] " * (n - 1) + "(1,1)"),
        (4, lambda n: "ask 1 RETRIEVE o FROM " + ",".join(f"car v{i}" for i in range(n)) + " WHERE TRUE"),
        (4, lambda n: QUERY + "WITHIN_SPHERE(1" + ",o" * n + ")"),
        (16, lambda n: QUERY + "o.x < " + " + ".join("1" * n)),
        (16, lambda n: QUERY + "[v <- " + " - ".join("1" * n) + "] TRUE"),
        (2, lambda n: QUERY + "".join(f"[v{i} <- 1] " for i in range(n)) + "TRUE"),
        (32, lambda n: QUERY + "NOT " * (n - 1) + "TRUE"),
        (32, lambda n: QUERY + " OR ".join(["TRUE"] * n)),
        (32, lambda n: QUERY + " UNTIL ".join(["TRUE"] * n)),
        (1, lambda n: QUERY + "NOT " * n + tree),
        (LINE_LIMIT, lambda n: "list" + " " * (n - 4)),
    ):
        yield line(count), line(count + 1)


def test_judges_each_limit(client: Client, answered: frozenset[str]) -> None:
    for within, past in at_limits():
        assert grammar.explain(within) is None, within
        fault = grammar.explain(past)
        assert fault and fault.number == (1 if len(past) > LINE_LIMIT else 6), past
        compare(client, [within.encode(), past.encode()], answered)


def test_judges_each_range(client: Client, answered: frozenset[str]) -> None:
    forms = {
        "value": "update a v = {}", "literal": QUERY + "o.x < {}", "slope": "update a v rate {}",
        "radius": QUERY + "WITHIN_SPHERE({},o)", "error": "must {} 1 RETRIEVE o FROM car o WHERE TRUE",
        "width": "index car x {}", "ticks": "tick {}", "span": "ask {} RETRIEVE o FROM car o WHERE TRUE",
        "bound": QUERY + "ALWAYS_FOR {} TRUE", "capacity": "class car {}", "multiplier": QUERY + "{} * o.x < 1",
        "count": "nearest 1 {} a car",
    }
    assert forms.keys() == grammar.NUMBER_KINDS.keys()
    for kind, form in forms.items():
        compare(client, [form.format(text).encode() for text in number_texts(grammar.NUMBER_KINDS[kind])], answered)


def number_texts(kind: grammar.NumberKind) -> Iterable[str]:
    """Numbers at and past the limits of a place, and in forms that it may not take."""
    unit = 1 if kind.is_whole else 1000
    for number in (kind.least // unit, kind.most // unit):
        yield from (str(number + step) for step in (-1, 0, 1) if number + step >= 0)
        yield from (f"-{number}", f"{abs(number)}.0", f"{abs(number)}.001", f"{abs(number)}.0000")
    yield from ("0", "00", "-0", "0.001", "0.0001", "0000000001", "00000000001", "1.5")
    yield from ("9" * 40, "0" * 40, "0" * 4_000 + "1")


def test_deep_brackets_are_no_depth(client: Client, answered: frozenset[str]) -> None:
    lines = [QUERY + "(" * n + "TRUE" + ")" * n for n in (0, 1, 40, 2_000)]
    assert [grammar.explain(line) for line in lines] == [None] * 4
    compare(client, [line.encode() for line in [*lines, QUERY + "(" * 2_000 + "TRUE"]], answered)


def test_drops_one_carriage_return(client: Client, answered: frozenset[str]) -> None:
    lines = [b"list\r", b"list\r\r", b"li\rst", b"# \r\r", b" " * LINE_LIMIT + b"\r", b" " * 4095 + b"\r\r"]
    compare(client, lines, answered)


def test_comments_are_judged_by_their_bytes_alone() -> None:
    assert grammar.explain("# ?? \" must") is None
    assert grammar.explain(" \t") is None
    assert grammar.explain("# zoë").number == 2
    assert grammar.explain("#" * (LINE_LIMIT + 1)).number == 1


def test_an_empty_command_has_its_place_at_the_end() -> None:
    fault = grammar.explain("ask 5 RETRIEVE o FROM car o WHERE  ")
    assert (fault.place, fault.length, fault.expected) == (33, 0, ("a formula",))


PLACES = [
    ("ask 60 retrieve o from van o", 4, 7, ("RETRIEVE",), "upper and lower case count: RETRIEVE"),
    (QUERY + "(o.speed - o.limit) > 0", 4, 52, ("a comparison", "+", "-", "."), "a term has no brackets"),
    (QUERY + "o.x == 1", 4, 39, ("a term",), "this comparison is written ="),
    (QUERY + "o.x <-3", 4, 38, ("a comparison", "+", "-", "."), "<- is one symbol"),
    (QUERY + "o.x > .5", 4, 40, ("a term",), "a number begins with a digit"),
    (QUERY + "o.x * 2 > 7", 4, 38, ("a comparison", "+", "-", "."), "a product is a whole number"),
    (QUERY + "DIST(o,o) < o.x", 4, 46, ("a number", "-"), ""),
    ("insert van AB-12 at (0,0)", 4, 13, ("an attribute", "at", "move", "the end of the line"), "digits and _"),
    ("class lorry point (fuel dyn)", 4, 12, ("a capacity",), ""),
    ("class lorry 10 point (value num)", 4, 22, ("a new name",), "value is a reserved word"),
    ("class lorry 10 (load number)", 4, 21, ("num, text or dyn",), "num?"),
    ("save evening", 4, 5, ("a file's name in quotes",), 'a text stands in quotes: "evening"'),
    ("remove 12", 4, 7, ("an object",), "a name begins with a letter"),
    ("insert v9 at (0,0)", 4, 10, ("an object",), "the class stands before the name"),
    ("update van v1 at (0,0)", 4, 14, ("=", "rate"), "an object's name says its class"),
    ("remove van v1", 4, 11, ("the end of the line",), "an object's name says its class"),
    ("insert van v9 (0,0)", 4, 14, ("an attribute", "at", "move", "the end of the line"), "at stands before a place"),
    ("insrt car a", 4, 0, ("a command",), "insert"),
    ("region r (0,0) (1,0)", 4, 20, ("(",), ""),
    ("update a fuel = +1", 4, 16, ("a number", "a text in quotes", "-"), "no + before it"),
    ("list;", 3, 4, (), "without a semicolon"),
    ("tick 1 # next", 3, 7, (), "a comment has a line of its own"),
    ('save "a', 3, 5, (), "isn't closed"),
    ("insert van zoë", 2, 13, (), "0xC3"),
    ("tick 0", 5, 5, (), "from 1 to 1,000,000,000"),
    ("update a at (0,-1000000000.001)", 5, 15, (), "at most 1,000,000,000"),
    ("update a x = 0.0001 y = 0.0001", 5, 13, (), "three after"),
    ("remove " + "n" * 33, 6, 7, (), "33 bytes"),
    ("update a x rate " + "[1,1] " * 8 + "1", 6, 64, (), "9 legs"),
]


@pytest.mark.parametrize(("line", "number", "place", "expected", "hint"), PLACES)
def test_tells_the_place_and_what_was_expected(
    client: Client, line: str, number: int, place: int, expected: tuple[str, ...], hint: str
) -> None:
    fault = grammar.explain(line)
    assert (fault.number, fault.place, fault.expected) == (number, place, expected)
    assert hint in fault.message
    assert client.send(line).refusal.number == number


def test_refuses_the_mistakes_of_the_manual() -> None:
    """Each command in the manual's table of mistakes is refused by the number that stands there."""
    begins = ("| 4 BadSyntax |", "| 5 NumberRange |", "| 6 TooLarge |")
    rows = [line.split("|")[1:3] for line in manual.text().splitlines() if line.startswith(begins)]
    judged = 0
    for reply, typed in rows:
        line = typed.strip().strip("`")
        line = f"ask 60 RETRIEVE o FROM van o {line}" if line.startswith("WHERE") else line
        fault = grammar.explain(line, grammar.ALL_COMMANDS - manual.unanswered())
        assert fault and fault.number == int(reply.split()[0]), line
        judged += 1
    assert judged > 20


def test_says_of_commands_whether_they_are_built(answered: frozenset[str]) -> None:
    assert answered >= set(COMMANDS)
    assert grammar.ALL_COMMANDS - answered == manual.unanswered()
    fault = grammar.explain("  nearest 60 3 a car", frozenset(COMMANDS))
    assert (fault.number, fault.place, fault.length) == (4, 2, 7)
    assert "not built yet" in fault.message
    assert grammar.explain("nearest 60 3 a car") is None
    assert grammar.explain("show nearest") is None


UNKNOWN = [
    ("update v1 feul = 3", "feul", 10, "attribute of van", ("fuel",)),
    ("insert Van a", "Van", 7, "class", ("van",)),
    ("update v11 fuel = 3", "v11", 7, "object", ("v1",)),
    ("remove zzz", "zzz", 7, "object", ()),
    ("ask 0 RETRIEVE p FROM van o WHERE o.feul < 3", "p", 15, "variable of FROM", ()),
    ("ask 0 RETRIEVE o FROM vans o WHERE o.feul < 3", "vans", 22, "class", ("van",)),
    ("ask 0 RETRIEVE o FROM van o WHERE INSIDE(o,center)", "center", 43, "region", ("centre",)),
    ("ask 0 RETRIEVE o FROM van o WHERE DIST(o,n) <= 3", "n", 41, "variable of FROM", ()),
    ("ask 0 RETRIEVE o FROM van o WHERE fuel < 3", "fuel", 34, "variable of FROM", ("o.fuel",)),
    ("ask 0 RETRIEVE o FROM van o WHERE [v <- o.x] v < 3 AND v > 2", "v", 55, "variable of FROM", ()),
    ("show lowest", "lowest", 5, "registered query", ("low",)),
    ("drop lwo", "lwo", 5, "registered query", ("low",)),
    ("export vn \"f\"", "vn", 7, "class", ("van",)),
    ("index van feul 1", "feul", 10, "attribute of van", ("fuel",)),
    ("range 5 van feul 0 1", "feul", 12, "attribute of van", ("fuel",)),
    ("range 5 van fuel 0 1", "fuel", 12, "attribute of van that has an index", ()),
    ("nearest 1 1 v2 van", "v2", 12, "object", ()),
]


@pytest.mark.parametrize(("line", "word", "place", "kind", "near"), UNKNOWN)
def test_names_what_isnt_known(line: str, word: str, place: int, kind: str, near: tuple[str, ...]) -> None:
    schema = Schema.of_lines(
        [
            "class van 9 point (fuel dyn,plate text,heat dyn)",
            "index van heat 1",
            "region centre (0,0) (4,0) (4,4)",
            "insert van v1",
            "watch low 10 RETRIEVE o FROM van o WHERE o.fuel < 3",
        ]
    )
    first = unknown_names(grammar.read(line), schema)[0]
    assert (first.word, first.place, first.kind, first.near) == (word, place, kind, near)


def test_names_all_that_isnt_known_in_order() -> None:
    tree = grammar.read("ask 0 RETRIEVE p FROM a o,b n WHERE [v <- q.x] INSIDE(v,r) OR o.y = v")
    assert [each.word for each in unknown_names(tree, Schema())] == ["p", "a", "b", "q", "r", "v"]


def test_finds_names_among_very_many() -> None:
    schema = Schema.of_lines(["class van 100000", *(f"insert van v{number}" for number in range(50_000))])
    (unknown,) = unknown_names(grammar.read("remove v4999x"), schema)
    assert "v4999" in unknown.near
