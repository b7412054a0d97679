"""`fleet check`: its verdicts against the program, its warnings, and its exit statuses."""

import random
import subprocess
from collections import Counter
from pathlib import Path

import pytest

from conftest import SEED, TOP
from fleet import cli, grammar, manual
from fleet.client import Client
from fleet.judge import first_refusal
from fleet.lint import Check, Finding
from fleet.schema import Schema
from fleet.traps import BOUND, EXPIRY, OBJECT, PAIRS
from lines import Statements

DATABASES = 5
LINES = 400


def verdict(line: str, schema: Schema) -> int | None:
    """The number of the first refusal of 1 to 18, None where the line is accepted; then its names are recorded."""
    fault = grammar.explain(line) or first_refusal(grammar.read(line), schema)
    if fault is None:
        schema.record(line)
    return fault.number if fault else None


def test_foretells_the_refusals_of_the_program(program: Path, tmp_path: Path) -> None:
    statements = Statements(random.Random(SEED))
    seen: Counter[int | None] = Counter()
    for _ in range(DATABASES):
        schema = Schema()
        lines = [*Statements.SETUP, *(statements.line() for _ in range(LINES))]
        mine = [verdict(line, schema) for line in lines]
        with Client(program, directory=tmp_path, patience=60) as client:
            for line, number, reply in zip(lines, mine, client.send_many(lines), strict=True):
                assert number == (reply.refusal.number if reply.refusal else None), (line, reply.text[-1])
                seen[number] += 1
    assert all(seen[number] for number in (None, 7, 8, 9, 10, 11, 12, 13, 14, 15, 17)), seen


def test_foretells_the_examples(program: Path, tmp_path: Path) -> None:
    for example in sorted((TOP / "examples").glob("*.domino")):
        lines = example.read_bytes().splitlines()
        refused = {finding.line for finding in Check(Schema(), tmp_path).lines(lines) if finding.is_fault}
        with Client(program, directory=tmp_path, patience=60) as client:
            replies = [(number, client.send(line)) for number, line in enumerate(lines, 1)]
        assert refused == {number for number, reply in replies if reply and reply.refusal}, example


def test_foretells_full_stores(client: Client) -> None:
    lines = [f"class c{n} 1 point" for n in range(65)] + [f"region r{n} (0,0) (1,0) (1,1)" for n in range(1025)]
    lines += [f"watch w{n} 1 RETRIEVE o FROM c1 o WHERE TRUE" for n in range(257)] + ["class d 1", "class c0 2"]
    schema = Schema()
    mine = [verdict(line, schema) for line in lines]
    assert mine == [reply.refusal.number if reply.refusal else None for reply in client.send_many(lines)]
    assert mine.count(16) == 4


def test_foretells_limits_of_queries(client: Client) -> None:
    lines = [
        "class a 1000 point (t text)", "class b 1001", "insert a p",
        "ask 0 RETRIEVE o FROM a o,a n WHERE TRUE", "ask 0 RETRIEVE o FROM a o,b n WHERE TRUE",
        *(f"watch w{n} 1 RETRIEVE o,n FROM a o,a n WHERE TRUE" for n in range(5)),
        "watch x 1 RETRIEVE o FROM b o WHERE TRUE", "drop w1", "watch x 1 RETRIEVE o FROM b o WHERE TRUE",
        *(f"ask {n} RETRIEVE o FROM a o WHERE TRUE" for n in (100_000_000, 100_000_001)),
        *(f"ask {n} RETRIEVE o FROM a o WHERE [v <- 1] TRUE" for n in (10_000, 10_001)),
        *(f"ask {n} RETRIEVE o FROM a o WHERE WITHIN_SPHERE(1,o,o,o)" for n in (100_000, 100_001)),
        *(f"ask {n} RETRIEVE o FROM a o WHERE WITHIN_SPHERE(1,o,o)" for n in (100_000, 100_001)),
        *(f"ask 1 RETRIEVE o FROM a o WHERE {n} * o.x < 1" for n in (998, 999, 1000)),
        *(f"ask 1 RETRIEVE o FROM a o WHERE {n} * TIME < 1" for n in (999_999, 1_000_000)),
        *(f"ask 1 RETRIEVE o FROM a o WHERE 1000000 * TIME {more} < 1" for more in ("+ 0.001", "- 0", "- 1")),
        "class e 1001 point", "insert b q",
        *(f"nearest {n} 1 {words}" for n in (1_000_000, 1_000_001) for words in ("p a", "p b", "p e", "q a", "z a", "p z")),
        "class f 100 point", "class g 101 point",
        *(
            f"{command} 1 {span} RETRIEVE o FROM f o,{other} n WHERE {formula}"
            for command, span in (("must", 10_000), ("may", 10_001))
            for other in ("f", "g", "z")
            for formula in ("TRUE", "NOT TRUE", "WITHIN_SPHERE(1,o)", "1000 * o.x < 1", "NOT 1000 * o.x < 1", "o.z < 1")
        ),
        "tick 999999990", *(f"ask {n} RETRIEVE o FROM a o WHERE TRUE" for n in (10, 11)),
        *(f"nearest {n} 1 p a" for n in (10, 11)),
        *(f"must 0 {n} RETRIEVE o FROM f o WHERE TRUE" for n in (10, 11)),
        "tick 11", "tick 10", "tick 1",
    ]
    schema = Schema()
    mine = [verdict(line, schema) for line in lines]
    assert mine == [reply.refusal.number if reply.refusal else None for reply in client.send_many(lines)]


def test_foretells_indexes(client: Client) -> None:
    rack = [f"a{place}" for place in range(15)]
    lines = [
        "range 1 van fuel 0 1", "class van 9 point (fuel dyn,plate text,load num)", "insert van v fuel = 1",
        *(f"index {words} 1" for words in ("bus fuel", "van oil", "van plate", "van load", "van fuel", "van fuel", "van x")),
        *(f"range {words} 5 0" for words in ("63999 van fuel", "64000 van fuel", "1 van y", "1 van plate", "1 bus x")),
        "tick 63999", "index van fuel 1", "range 0 van fuel 0 1", "range 1 van fuel 0 1",
        "tick 1", "range 0 van fuel 0 1", "index van fuel 1", "range 63999 van fuel 0 1",
        f"class rack 1 point ({','.join(f'{name} dyn' for name in rack)})", *(f"index rack {name} 1" for name in (*rack, "x", "y")),
        "tick 999872000", "index van fuel 1", "tick 1", "index van x 1", "tick 1", "index van x 1", "index rack a0 1",
    ]
    schema = Schema()
    mine = [verdict(line, schema) for line in lines]
    assert mine == [reply.refusal.number if reply.refusal else None for reply in client.send_many(lines)]
    assert {number: mine.count(number) for number in (8, 9, 12, 16)} == {8: 3, 9: 2, 12: 4, 16: 3}


def test_foretells_regions(client: Client) -> None:
    chance = random.Random(SEED)
    lines = []
    for number in range(600):
        points = [(chance.randrange(4), chance.randrange(4)) for _ in range(chance.randrange(3, 7))]
        points *= chance.choice((1, 1, 2))
        lines.append(f"region r{number} " + " ".join(f"({x},{y})" for x, y in points))
    schema = Schema()
    mine = [verdict(line, schema) for line in lines]
    assert mine == [reply.refusal.number if reply.refusal else None for reply in client.send_many(lines)]
    assert 20 < mine.count(None) < 580


# ---- Warnings

BEGIN = [
    "class van 20 point (id num,fuel dyn,plate text)",
    "class bus 20 point (id num)",
    "region zone (0,0) (4,0) (4,4)",
    "insert van a",
]


def warned(*lines: str) -> list[tuple[str, int]]:
    """The headings and columns of the warnings about the last line, where all lines are accepted."""
    findings = list(Check(Schema(), Path("/")).lines([line.encode() for line in (*BEGIN, *lines)]))
    assert not [finding for finding in findings if finding.is_fault], findings
    last = [finding for finding in findings if finding.line == len(BEGIN) + len(lines)]
    return [(finding.message.rpartition("(")[2].rstrip(")"), finding.column) for finding in last]


@pytest.mark.parametrize(
    ("line", "headings"),
    [
        ("ask 0 RETRIEVE o FROM van o WHERE ALWAYS_FOR 120 o.fuel > 0", [(BOUND, 46)]),
        ("ask 119 RETRIEVE o FROM van o WHERE NOT EVENTUALLY_WITHIN 120 o.fuel <= 0", [(BOUND, 59)]),
        ("ask 120 RETRIEVE o FROM van o WHERE ALWAYS_FOR 120 o.fuel > 0", []),
        ("ask 120 RETRIEVE o FROM van o WHERE ALWAYS_FOR 60 EVENTUALLY_AFTER 61 o.fuel > 0", [(BOUND, 48)]),
        ("ask 120 RETRIEVE o FROM van o WHERE ALWAYS_FOR 60 TRUE AND EVENTUALLY_WITHIN 61 TRUE", []),
        ("ask 5 RETRIEVE o FROM van o WHERE TRUE UNTIL_WITHIN 6 TRUE", [(BOUND, 53)]),
        ("ask 3 RETRIEVE o FROM van o WHERE TRUE UNTIL_AFTER 1 (TRUE UNTIL_WITHIN 2 NEXTTIME TRUE)", [(BOUND, 52)]),
        ("ask 5 RETRIEVE o FROM van o WHERE TRUE UNTIL_AFTER 3 (TRUE UNTIL_WITHIN 2 TRUE)", []),
        ("ask 0 RETRIEVE o FROM van o WHERE EVENTUALLY ALWAYS TRUE", []),
        ("ask 5 RETRIEVE a FROM van a WHERE a.x >= 0", [(OBJECT, 27)]),
        ("ask 5 RETRIEVE o FROM van o,bus a WHERE DIST(o,a) < 3", [(OBJECT, 33)]),
        ("ask 5 RETRIEVE o,n FROM van o,van n WHERE DIST(o,n) <= 200", [(PAIRS, 31)]),
        ("ask 5 RETRIEVE o FROM van o,van n WHERE DIST(o,n) <= 200", [(PAIRS, 29)]),
        ("ask 5 RETRIEVE o,n FROM van o,van n WHERE DIST(o,n) <= 200 AND o.id < n.id", []),
        ("ask 5 RETRIEVE o,n FROM van o,van n WHERE DIST(o,n) <= 200 AND n.id > o.id", []),
        ("ask 5 RETRIEVE o,n FROM van o,van n WHERE DIST(o,n) <= 200 AND o.id != n.id", [(PAIRS, 31)]),
        ("ask 5 RETRIEVE o FROM van o,van n WHERE DIST(o,n) <= 200 AND o.id != n.id", []),
        ("ask 5 RETRIEVE o,n FROM van o,van n WHERE o.id < n.x", [(PAIRS, 31)]),
        ("ask 5 RETRIEVE o,n FROM van o,van n WHERE o.id <= n.id", [(PAIRS, 31)]),
        ("ask 5 RETRIEVE o,n FROM van o,bus n WHERE DIST(o,n) <= 200", []),
        ("ask 5 RETRIEVE o,n,m FROM van o,van n,van m WHERE o.id < n.id AND n.id < m.id", [(PAIRS, 39)]),
        ("watch w 40 RETRIEVE o FROM van o WHERE INSIDE(o,zone)", [(EXPIRY, 9)]),
        ("watch w 100000000 RETRIEVE o FROM van o WHERE INSIDE(o,zone)", []),
        ("watch w 10000 RETRIEVE o FROM van o WHERE [v <- o.x] o.x > v", []),
        ("watch w 100000 RETRIEVE o FROM van o WHERE WITHIN_SPHERE(1,o,o,o)", []),
        ("keep w 40 RETRIEVE o FROM van o WHERE INSIDE(o,zone)", []),
    ],
)
def test_warns_of_traps(line: str, headings: list[tuple[str, int]]) -> None:
    assert warned(line) == headings


def test_a_watch_that_lasts_to_the_end_of_the_clock_isnt_warned_of() -> None:
    assert warned("tick 999999990", "watch w 10 RETRIEVE o FROM van o WHERE TRUE") == []
    assert warned("tick 999999990", "watch w 9 RETRIEVE o FROM van o WHERE TRUE") == [(EXPIRY, 9)]


def test_the_manual_has_each_trap() -> None:
    assert {BOUND, EXPIRY, OBJECT, PAIRS} <= manual.traps().keys()


# ---- Files that commands name


def findings_in(folder: Path, *lines: str) -> list[Finding]:
    return list(Check(Schema(), folder).lines([line.encode() for line in lines]))


def test_file_names_that_end_the_program_are_faults(tmp_path: Path) -> None:
    (tmp_path / "folder").mkdir()
    lines = ["class van 2", 'save "a/b"', 'export van ""', 'import van ".."', 'save "folder"', 'save "fine"']
    found = findings_in(tmp_path, *lines)
    assert [(finding.line, finding.is_fault) for finding in found] == [(2, True), (3, True), (4, True), (5, True)]
    assert "ends the program" in found[0].message and "slash" in found[0].message


def test_imports_are_followed(tmp_path: Path) -> None:
    (tmp_path / "f.csv").write_text("name,x\nv1,1\nv2,2\n")
    (tmp_path / "g.csv").write_text("name,x\nv3,NaN\n")
    found = findings_in(
        tmp_path, "class van 2 point", 'import van "f.csv"', "update v1 x = 3", "insert van v3", 'import van "g.csv"'
    )
    assert [(finding.line, finding.column, finding.is_fault) for finding in found] == [(4, 12, True), (5, 12, True)]
    assert "refused 15" in found[0].message and "g.csv:2:1" in found[1].message


def test_after_an_unknown_import_objects_arent_judged(tmp_path: Path) -> None:
    (tmp_path / "f.csv").write_text("name\nv1\n")
    begin = ["class van 2 point (id num)", "insert van a"]
    end = ["update v9 x = 3", "insert van a", "remove v8", "insert van b", "insert van c"]
    end += ["insert van d zz = 3", "show w"]
    for lines in ([*begin, 'import van "nosuch.csv"', *end], [*begin, 'save "f.csv"', 'import van "f.csv"', *end]):
        found = findings_in(tmp_path, *lines)
        assert [finding.is_fault for finding in found] == [False, True, True]
        assert [finding.line - len(lines) for finding in found[1:]] == [-1, 0]


def test_lines_after_quit_arent_judged(tmp_path: Path) -> None:
    found = findings_in(tmp_path, "list", "quit", "bogus", "bogus")
    assert [(finding.line, finding.is_fault) for finding in found] == [(3, False)]
    assert findings_in(tmp_path, "list", "quit") == []


# ---- The command


class Checker:
    """Runs `fleet check` in a folder."""

    def __init__(self, folder: Path, captured: pytest.CaptureFixture[str]) -> None:
        self.folder = folder
        self._captured = captured

    def __call__(self, *words: str) -> tuple[int, list[str], list[str]]:
        """The exit status, and what is written to standard output and to standard error."""
        status = cli.main(["check", *words])
        told, counted = self._captured.readouterr()
        return status, told.splitlines(), counted.splitlines()


@pytest.fixture
def check(tmp_path: Path, monkeypatch: pytest.MonkeyPatch, capsys: pytest.CaptureFixture[str]) -> Checker:
    monkeypatch.chdir(tmp_path)
    monkeypatch.setenv("COLUMNS", "100")
    return Checker(tmp_path, capsys)


def test_runs_no_program(fleet_command: list[str], tmp_path: Path) -> None:
    (tmp_path / "f.domino").write_text("class van 2\nrange 1 van x 0 1\nlist\n")
    words = [*fleet_command, "check", "f.domino"]
    done = subprocess.run(words, capture_output=True, cwd=tmp_path, env={"DOMINO": "/nosuch"}, timeout=60, text=True)
    assert done.stdout.splitlines()[0] == (
        "f.domino:2:13: fault: refused 7 UnknownName: x: no attribute of van"
    )
    assert (done.returncode, done.stderr) == (1, "f.domino: 1 fault, 0 warnings\n")


def test_tells_faults_with_status_1_and_warnings_with_0(check: Checker) -> None:
    good = check.folder / "good.domino"
    good.write_text("class van 2\nwatch w 5 RETRIEVE o FROM van o WHERE TRUE\n")
    assert check("good.domino")[0] == 0
    bad = check.folder / "bad.domino"
    bad.write_text("class van 2\n\tshow  lwo\n")
    status, told, counted = check("bad.domino")
    assert (status, counted) == (1, ["bad.domino: 1 fault, 0 warnings"])
    assert told == [
        "bad.domino:2:8: fault: refused 7 UnknownName: lwo: no registered query",
        "     show  lwo",
        "           ^~~",
    ]
    assert check("nosuch.domino")[0] == 2


def test_goes_on_from_a_session_or_from_commands(check: Checker, client: Client) -> None:
    lines = ["class van 3 point (fuel dyn)", "insert van v1", "tick 5"]
    for line in [*lines, 'save "s"']:
        client.send(line)
    (check.folder / "before.domino").write_text("\n".join(lines))
    (check.folder / "f.domino").write_text("update v1 fuel = 3\nupdate v2 fuel = 3\nclass van 3\n")
    for option, name in (("--session", "s"), ("--schema", "before.domino")):
        status, told, _ = check("f.domino", option, name)
        assert status == 1 and [line.split(":")[1] for line in told if "fault" in line] == ["2", "3"]
    assert check("f.domino", "--session", "nosuch")[0] == 2
    assert check("f.domino", "--session", "f.domino")[0] == 2
    assert check("f.domino", "--session", "s", "--schema", "before.domino")[0] == 2


def test_checks_a_saved_session(check: Checker, client: Client) -> None:
    for line in ("class van 3 point (fuel dyn)", "insert van v1", "watch w 5 RETRIEVE o FROM van o WHERE TRUE"):
        client.send(line)
    client.send('save "s"')
    assert check("s") == (0, [], ["s: 0 faults, 0 warnings"])
    text = (check.folder / "s").read_text()
    for changed, line in (
        (text.replace("insert van v1", "insert van v1 feul = 3"), 4),
        (text.replace("insert van v1", "ask 3 RETRIEVE o FROM van o WHERE TRUE"), 4),
        (text.removesuffix("end\n"), 6),
        (text + "list\n", 7),
        (text.replace("entries 3", "entries 4"), 6),
    ):
        (check.folder / "t").write_text(changed)
        status, told, _ = check("t")
        assert status == 1 and told[0].startswith(f"t:{line}:"), told
        with pytest.raises(Exception, match=f"bad session {line}"), Client(session="t", directory=check.folder):
            pass


def test_checks_and_fixes_csv(check: Checker, client: Client) -> None:
    (check.folder / "s.domino").write_text("class van 3 point (fuel dyn)\nclass bus 2\ninsert van v1\n")
    (check.folder / "f.csv").write_text("name,x\nv1,0.30000000000000004\nAB-12,\n")
    status, told, _ = check("f.csv", "--class", "van", "--schema", "s.domino")
    assert status == 1 and told == [
        "f.csv:2:2: fault: 0.30000000000000004 has more than three decimals",
        "f.csv:3:1: fault: AB-12 is no name: a name has letters, digits and _ alone",
        "f.csv:3:2: fault: the number is missing",
    ]
    status, told, _ = check("f.csv", "--class", "van", "--schema", "s.domino", "--fix")
    assert status == 0 and "f.fixed.csv is written" in told[-1] and "f.fixed.names.csv" in told[-1]
    assert (check.folder / "f.fixed.csv").read_text() == "name,x\nv1,0.3\nAB_12,0\n"
    assert check("f.csv", "--class", "van", "--schema", "s.domino", "--fix")[0] == 1
    assert check("f.csv", "--class", "van", "--schema", "s.domino", "--fix", "out.csv")[0] == 0
    for line in ("class van 3 point (fuel dyn)", "class bus 2", "insert van v1", 'import van "out.csv"'):
        assert client.send(line).ok
    assert check("f.csv", "--schema", "s.domino")[0] == 2
    assert check("f.csv", "--schema", "s.domino", "--class", "car")[0] == 2
    assert check("f.csv")[0] == 2
    assert check("s.domino", "--fix")[0] == 2
    (check.folder / "f.txt").write_text("name,x\nv1,1\n")
    assert check("f.txt", "--class", "van", "--schema", "s.domino")[0] == 0
    assert check("nosuch.csv", "--class", "van", "--schema", "s.domino")[0] == 2


def test_tells_a_hundred_findings_and_counts_the_others(check: Checker) -> None:
    (check.folder / "many.domino").write_text("bogus\n" * 250)
    status, told, counted = check("many.domino")
    assert status == 1 and len([line for line in told if "fault" in line]) == 100
    assert counted == ["many.domino: 250 faults, 0 warnings, of which 150 aren't told"]
