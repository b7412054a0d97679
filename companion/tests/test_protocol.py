"""docs/PROTOCOL.md against the program: its grammar takes each real reply, and each of its rules is used by one."""

import json
import re
import subprocess
from collections.abc import Iterable, Iterator
from pathlib import Path

import pytest
from lark import Lark, Tree
from lark.exceptions import UnexpectedInput

from fleet.client import Client
from fleet.replies import Reply
from fleet.words import COMMANDS, JOURNAL_ENTRIES, LATER_COMMANDS, REFUSALS

TOP = Path(__file__).resolve().parents[2]
DOCUMENT = (TOP / "docs" / "PROTOCOL.md").read_text()

ALL_COMMANDS = {*COMMANDS, *LATER_COMMANDS}
STARTS = ("reply", "rows", "changes", "moves", "things", "done", "refused", "start", "summary", "session")

CLASSES_ENOUGH = [f"class many{number} 1" for number in range(64)]

SCRIPT = [
    "class car 3 point (fuel dyn,plate text)",
    "class depot 101",
    "region yard (0,0) (20,0) (20,10) (0,10)",
    "insert car a at (0,5) move (2,0) fuel = 40 rate -0.5",
    "insert car b_1 at (30,-3)",
    "ask 30 RETRIEVE o,n FROM car o,car n WHERE DIST(o,n) > 5 AND OUTSIDE(n,yard)",
    "ask 0 RETRIEVE o FROM car o WHERE FALSE",
    "nearest 30 1 a car",
    "must 1 30 RETRIEVE o FROM car o WHERE INSIDE(o,yard)",
    "may 1 30 RETRIEVE o FROM car o WHERE INSIDE(o,yard)",
    "index car fuel 10",
    "range 30 car fuel 30 35",
    "ask 30 RETRIEVE o FROM car o WHERE TIME < 3 OR TIME > 9 AND TIME < 12",
    "watch low 100 RETRIEVE o FROM car o WHERE o.fuel <= 30",
    "keep home 100 RETRIEVE o FROM car o WHERE INSIDE(o,yard)",
    "keep pairs 100 RETRIEVE n,o FROM car o,car n WHERE DIST(o,n) <= 25",
    "tick 20",
    "update a fuel = 35",
    "update a fuel = 3 rate 1",
    "update b_1 at (1,1) move (1,0)",
    "show home",
    "list",
    "tick 100",
    "show home",
    "show low",
    'export car "cars.csv"',
    "remove b_1",
    'import car "cars.csv"',
    'save "evening"',
    "drop low",
    "show low",
    "x" * 4_097,
    "é",
    "?",
    "show",
    "tick 0",
    "show " + "x" * 33,
    "class car 5",
    "update a plate = 1",
    "region bow (0,0) (4,4) (4,0) (0,4)",
    "ask 1 RETRIEVE o FROM car o WHERE 1000 * o.x <= 5",
    "ask 1000000000 RETRIEVE o FROM car o WHERE TRUE",
    "tick 1000000000",
    "insert car a",
    "insert car c",
    "insert car d",
    "ask 0 RETRIEVE a FROM depot a,depot b,depot c WHERE TRUE",
    'import car "none"',
    'import car "evening"',
    *CLASSES_ENOUGH,
    "list",
    "quit",
]


def blocks(language: str) -> list[str]:
    return re.findall(rf"^```{language}\n(.*?)^```$", DOCUMENT, re.MULTILINE | re.DOTALL)


def table_under(heading: str) -> dict[str, str]:
    """The rows of the first table with such a heading, each of two cells."""
    text = DOCUMENT[DOCUMENT.index(heading) :].split("\n\n")[0]
    rows = [[cell.strip() for cell in line.strip("|").split("|")] for line in text.splitlines()[2:]]
    return {first: second for first, second in rows}


def in_code(cell: str) -> list[str]:
    return re.findall(r"`([^`]+)`", cell)


def rules() -> dict[str, str]:
    """The rules of the document by their names."""
    found = {}
    for block in blocks("ebnf"):
        for rule in re.split(r"\n(?=\w+ *:=)", block.strip()):
            name, _, body = rule.partition(":=")
            found[name.strip()] = " ".join(body.split())
    return found


def as_lark(body: str) -> str:
    """The same rule in the notation of lark."""
    body = re.sub(r"'([^']*)'", lambda quoted: json.dumps(quoted[1]), body)
    body = re.sub(r"\bSP\b", '" "', body)
    body = re.sub(r"\bTAB\b", r'"\\t"', body)
    return re.sub(r"\bLF\b", r'"\\n"', body)


@pytest.fixture(scope="module")
def grammar() -> Lark:
    """The grammar of the document. Its rules take single bytes, so that nothing but the rules decides."""
    text = "\n".join(f"{name}: {as_lark(body)}" for name, body in rules().items())
    return Lark(text, parser="earley", lexer="dynamic", start=list(STARTS), ambiguity="resolve")


@pytest.fixture(scope="module")
def replies(program: Path, tmp_path_factory: pytest.TempPathFactory) -> list[Reply]:
    """Replies of every kind to the lines of the script, and JournalFull by a session that is full."""
    folder = tmp_path_factory.mktemp("files")
    with Client(program, directory=folder, patience=60) as client:
        found = list(client.send_many(SCRIPT))
    (folder / "full").write_text("domino-session 1\n" + "tick 1\n" * JOURNAL_ENTRIES + "end\n")
    with Client(program, session="full", directory=folder, patience=120) as client:
        found += client.send_many(["tick 1", "list"])
    return found


def text_of(reply: Reply) -> str:
    return "".join(line + "\n" for line in reply.text)


def rules_used(trees: Iterable[Tree]) -> Iterator[str]:
    for tree in trees:
        for below in tree.iter_subtrees():
            yield str(below.data)


def other_outputs(program: Path, folder: Path) -> Iterator[tuple[str, str]]:
    """What is no reply: a rule and a text that it has to take."""
    for words in (["bogus"], ["--session", "none"], ["--gen", "1"]):
        said = subprocess.run([program, *words], capture_output=True, text=True, cwd=folder, timeout=60, check=False)
        yield ("summary" if words[0] == "--gen" else "start"), said.stdout
    lines = "class car 3\ninsert car a\nwatch w 3 RETRIEVE o FROM car o WHERE TRUE\n"
    subprocess.run([program], input=lines + 'save "s"\n', capture_output=True, text=True, cwd=folder, timeout=60, check=True)
    yield "session", (folder / "s").read_text()
    yield "session", "domino-session 1\n" + lines + "end\n"


def test_the_grammar_takes_each_reply_and_no_rule_is_idle(
    grammar: Lark, replies: list[Reply], program: Path, tmp_path: Path
) -> None:
    forms = {word: form for cell, form in table_under("| The line | Its reply |").items() for word in in_code(cell)}
    assert set(forms) == ALL_COMMANDS
    trees = []
    for reply in replies:
        form = in_code(forms[reply.line.split()[0]])[0] if reply.ok else "refused"
        trees += [grammar.parse(text_of(reply), start=start) for start in (form, "reply")]
    others = list(other_outputs(program, tmp_path))
    trees += [grammar.parse(text, start=form) for form, text in others]
    assert set(rules_used(trees)) == set(rules())
    output = "".join([*map(text_of, replies), *(text for _, text in others)])
    words = {word for body in rules().values() for word in re.findall(r"'([^']*)'", body) if len(word) > 1}
    assert {word for word in words if word not in output} == set()
    assert {reply.line.split()[0] for reply in replies if reply.ok} == ALL_COMMANDS


def test_each_refusal_is_met_and_named(replies: list[Reply]) -> None:
    met = {reply.refusal.number: reply.refusal.name for reply in replies if reply.refusal}
    assert met == REFUSALS
    named = re.findall(r"'(\d+) (\w+)'", rules()["refusal"])
    assert {int(number): name for number, name in named} == REFUSALS


@pytest.mark.parametrize(
    ("form", "text"),
    [
        ("reply", ""),
        ("reply", "ok"),
        ("reply", "ok\nok\n"),
        ("reply", "now a : 1..2\n"),
        ("reply", "now a: 1..2\nok\n"),
        ("reply", "now a : 01..2\nok\n"),
        ("reply", "refused 4 BadToken\n"),
        ("reply", "now a : 1..2\ngain w a : 1..2\nok\n"),
        ("moves", "gain w a : 1..2\nok\n"),
        ("things", "class car 1/2\nok\n"),
        ("done", "refused 4 BadSyntax\n"),
        ("start", "bad session\n"),
        ("session", "domino-session 3\nend\n"),
    ],
)
def test_the_grammar_takes_nothing_else(grammar: Lark, form: str, text: str) -> None:
    with pytest.raises(UnexpectedInput):
        grammar.parse(text, start=form)


def test_replies_end_where_the_document_says(replies: list[Reply]) -> None:
    for reply in replies:
        *before, last = reply.text
        assert last == "ok" or last.startswith("refused ")
        assert not any(line == "ok" or line.startswith(("refused ", "bad ")) for line in before)


# Lines of JSON


def run_json(fleet_command: list[str], program: Path, folder: Path, lines: bytes, *words: str) -> tuple[list[dict], int]:
    command = [*fleet_command, "json", "--program", str(program), "--directory", str(folder), *words]
    said = subprocess.run(command, input=lines, capture_output=True, timeout=60, check=False)
    assert said.stderr == b""
    return [json.loads(line) for line in said.stdout.splitlines()], said.returncode


def test_json_has_the_members_that_the_document_tells(fleet_command: list[str], program: Path, tmp_path: Path) -> None:
    lines = "\n".join([*SCRIPT[:-1], 'save "a/b"', "quit", "list"])
    told, status = run_json(fleet_command, program, tmp_path, lines.encode())
    assert status == 1
    script = tmp_path / "elsewhere.sh"
    script.write_text(f'#!/bin/sh\nmkdir below below/x\ncd below\nexec "{program}"\n')
    script.chmod(0o755)
    ended, status = run_json(fleet_command, script, tmp_path, b'list\nsave "x"\nlist')
    assert status == 5
    bad_session, status = run_json(fleet_command, program, tmp_path, b"list", "--session", "none")
    assert status == 2
    members = {
        kind: set(in_code(cell)) for kinds, cell in table_under("| `kind` | Other members |").items() for kind in in_code(kinds)
    }
    found: dict[str, set[str]] = {}
    for record in told + ended + bad_session:
        kind = record.pop("kind")
        assert found.setdefault(kind, set(record)) == set(record)
    assert found == members


def test_json_tells_ticks_lines_and_columns(fleet_command: list[str], program: Path, tmp_path: Path) -> None:
    lines = ["class car 3 (fuel dyn)", "# none", "insert car a fuel = 40 rate -1", "", "tick 5"]
    lines += ["watch low 9 RETRIEVE o FROM car o WHERE o.fuel <= 30", "update a fuel = 31", "show high", "insert car zoë"]
    told, status = run_json(fleet_command, program, tmp_path, "\r\n".join(lines).encode())
    assert status == 1 and told == [
        {"kind": "ok", "line": 1, "tick": 0},
        {"kind": "ok", "line": 3, "tick": 0},
        {"kind": "ok", "line": 5, "tick": 5},
        {"kind": "row", "when": "later", "columns": ["o"], "objects": ["a"], "spans": [[10, 14]], "tick": 5},
        {"kind": "ok", "line": 6, "tick": 5},
        {"kind": "gain", "query": "low", "objects": ["a"], "spans": [[6, 9]], "tick": 5},
        {"kind": "ok", "line": 7, "tick": 5},
        {"kind": "refused", "number": 7, "name": "UnknownName", "line": 8, "text": "show high", "tick": 5},
        {"kind": "refused", "number": 2, "name": "NotAscii", "line": 9, "text": "insert car zoë", "tick": 5},
    ]


def test_json_answers_a_line_before_the_next(fleet_command: list[str], program: Path, tmp_path: Path) -> None:
    command = [*fleet_command, "json", "--program", str(program), "--directory", str(tmp_path)]
    with subprocess.Popen(command, stdin=subprocess.PIPE, stdout=subprocess.PIPE, bufsize=0) as process:
        assert process.stdin is not None and process.stdout is not None
        for number in range(1, 4):
            process.stdin.write(b"tick 1\n")
            assert json.loads(process.stdout.readline()) == {"kind": "ok", "line": number, "tick": number}
        process.stdin.write(b"quit\n")
        assert json.loads(process.stdout.readline())["kind"] == "ok"
        assert process.wait(timeout=60) == 0


def test_json_example_is_what_the_document_shows(fleet_command: list[str], program: Path, tmp_path: Path) -> None:
    lines = ["class car 3 (fuel dyn)", "insert car a fuel = 40 rate -1", "tick 5", *["# none"] * 3]
    lines += ["watch low 2 RETRIEVE o FROM car o WHERE o.fuel <= 30", "# none", "update a fuel = 31"]
    command = [*fleet_command, "json", "--program", str(program), "--directory", str(tmp_path)]
    said = subprocess.run(command, input="\n".join(lines), capture_output=True, text=True, timeout=60, check=True)
    (shown,) = [block for block in blocks("") if block.startswith('{"kind"')]
    assert said.stdout.endswith(shown)


def test_python_example_is_what_the_document_shows(
    program: Path, tmp_path: Path, monkeypatch: pytest.MonkeyPatch, capsys: pytest.CaptureFixture[str]
) -> None:
    monkeypatch.setenv("DOMINO", str(program))
    (block,) = blocks("python")
    exec(block.replace("/srv/fleet", str(tmp_path)), {})  # noqa: S102  (the text is ours)
    assert capsys.readouterr().out.strip() == block.rpartition("# ")[2].strip()
