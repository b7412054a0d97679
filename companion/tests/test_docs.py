"""The examples of the documents, run on the program, and their figures worked out again."""

import os
import re
import shutil
import subprocess
import sys
from collections.abc import Iterator
from dataclasses import dataclass
from fractions import Fraction
from pathlib import Path

import pytest

from documents import SHELL, TOP, Document, Session, Step, code_spans, document, is_example, only_code, steps_of
from fleet import __version__
from fleet.tokens import is_silent
from fleet.words import (
    COMMANDS,
    INPUT_LIMIT,
    JOURNAL_BYTES,
    JOURNAL_ENTRIES,
    REFUSALS,
    RESERVED,
    STATUSES,
)

README = document("README.md")
GUIDE = document("docs/GUIDE.md")
LANGUAGE = document("docs/LANGUAGE.md")
PROTOCOL = document("docs/PROTOCOL.md")
CHANGELOG = document("CHANGELOG.md")
DOCUMENTS = (README, GUIDE, LANGUAGE, PROTOCOL)
SESSIONS = [session for each in DOCUMENTS for session in each.sessions()]
SECONDS = 60
"""How long one run may take: far more than it does."""
MOST_QUERIES = 256
MOST_PRODUCT = 1_000_000
MOST_PRODUCTS = 4_000_000
INDEX_CSV = ",name,x\n0,v1,3\n"
"""A file as it is often exported: with a column of line numbers, which an import refuses."""


@dataclass(frozen=True)
class Run:
    """What a run of the program gave: for each line its reply, None where there is none; and the exit status."""

    replies: list[tuple[str, ...] | None]
    status: int


def answered(program: Path, folder: Path, lines: list[str], *words: str) -> Run:
    """Runs the program in a folder on the lines."""
    text = "".join(f"{line}\n" for line in lines)
    ended = subprocess.run(
        [program, *words], cwd=folder, input=text, capture_output=True, encoding="utf-8", timeout=SECONDS, check=False
    )
    output = iter(ended.stdout.splitlines())
    replies = [() if is_silent(line) else _next_reply(output) for line in lines]
    assert not list(output), "the program wrote more than the replies to the lines"
    return Run(replies, ended.returncode)


def _next_reply(output: Iterator[str]) -> tuple[str, ...] | None:
    reply: list[str] = []
    for line in output:
        reply.append(line)
        if line == "ok" or line.startswith("refused "):
            return tuple(reply)
    return tuple(reply) or None


@pytest.fixture
def room(program: Path, tmp_path: Path) -> Path:
    """A folder in which lines for a shell run as at the top of the repository, with files of its own."""
    (tmp_path / "domino").symlink_to(program)
    (tmp_path / "companion").symlink_to(TOP / "companion")
    shutil.copytree(TOP / "examples", tmp_path / "examples")
    return tmp_path


def session_id(session: Session) -> str:
    return f"{session.document}:{session.at}"


def document_name(of: Document) -> str:
    return of.name


@pytest.mark.parametrize("session", SESSIONS, ids=session_id)
def test_examples_are_answered_as_shown(session: Session, program: Path, room: Path) -> None:
    run = answered(program, room, [step.line for step in session.steps])
    for step, reply in zip(session.steps, run.replies):
        if step.reply is None:
            assert reply is not None and reply[-1] == "ok", f"{session.document}:{step.at}: {step.line}"
        else:
            assert reply == step.reply, f"{session.document}:{step.at}: {step.line}"
    assert run.status == 0
    for step in session.shell:
        assert shell_lines(step, program, room) == step.reply, f"{session.document}:{step.at}: {step.line}"
    for name, shown in session.files.items():
        assert (room / name).read_text() == shown, f"the file {name} of {session.document}"


def shell_lines(step: Step, program: Path, folder: Path) -> tuple[str, ...]:
    """What a line for a shell writes. Its `domino` is the program."""
    environment = {**os.environ, "DOMINO": str(program), "PATH": f"{folder}:{os.environ['PATH']}"}
    ended = subprocess.run(
        ["bash", "-c", step.line.removeprefix(SHELL)],
        cwd=folder, env=environment, stdin=subprocess.DEVNULL, capture_output=True, encoding="utf-8", timeout=SECONDS,
        check=False,
    )
    return tuple((ended.stdout + ended.stderr).splitlines())


@pytest.mark.parametrize(("of", "others"), [(README, 5), (GUIDE, 0), (LANGUAGE, 1)], ids=str)
def test_no_example_is_overlooked(of: Document, others: int) -> None:
    """All indented blocks are run, but for a few that were counted."""
    assert sum(not code.is_fenced and not is_example(code) for code in of.codes) == others


def test_first_screen_is_the_first_example() -> None:
    session = README.sessions()[0]
    assert [step.line for step in session.steps] == _lines("examples/first.domino")
    assert _replies(session.steps) == (TOP / "examples/first.out").read_text()


def test_guide_has_the_lines_of_its_example() -> None:
    session, = GUIDE.sessions()
    steps = [step for step in session.steps if step.line.split()[0] not in ("save", "export", "import")]
    assert [step.line for step in steps] + ["quit"] == [line for line in _lines("examples/fleet.domino")]
    assert _replies(steps) + "ok\n" == (TOP / "examples/fleet.out").read_text()


def _lines(name: str) -> list[str]:
    """The lines of a file that have replies."""
    return [line for line in (TOP / name).read_text().splitlines() if not is_silent(line)]


def _replies(steps: list[Step]) -> str:
    return "".join(f"{line}\n" for step in steps for line in step.reply or ())


# The manual.


def lines_before(heading: str) -> list[str]:
    """The commands of the first block of code under a heading."""
    return [step.line for step in steps_of(LANGUAGE.under(heading)[0])]


def test_formulas_are_answered_as_shown(program: Path, tmp_path: Path) -> None:
    begin = lines_before("Examples")
    for formula, shown in LANGUAGE.table("Formula", "Examples"):
        text = only_code(formula)
        assert text is not None
        post = ",post n" if re.search(r"\bn\b", text) else ""
        run = answered(program, tmp_path, [*begin, f"ask 30 RETRIEVE o FROM car o{post} WHERE {text}"])
        assert run.replies[-1] == (*code_spans(shown), "ok"), text


def test_what_was_typed_is_refused_and_what_to_type_is_not(program: Path, tmp_path: Path) -> None:
    heading = "What was typed, what it means, what to type"
    begin = lines_before(heading)
    (tmp_path / "index.csv").write_text(INDEX_CSV)
    (tmp_path / "out").mkdir()
    told, run_rows = set(), 0
    for reply, typed, _, better in LANGUAGE.table("Reply", heading):
        refusal = None if reply.startswith("none") else f"refused {reply}"
        told.add(refusal)
        if (line := only_code(typed)) is not None:
            run_rows += 1
            run = answered(program, tmp_path, [*begin, _whole(line)])
            assert run.replies[-1] == ((refusal,) if refusal else None), line
            assert run.status == (0 if refusal else 5)
        for line in code_spans(better) if re.fullmatch(r"`[^`]*`( and `[^`]*`)*", better) else []:
            reply_now = answered(program, tmp_path, [*begin, _whole(line)]).replies[-1]
            if line.split()[0] in (*COMMANDS, "WHERE"):
                assert reply_now is not None and reply_now[-1] == "ok", line
    assert told == {f"refused {number} {name}" for number, name in REFUSALS.items()} | {None}
    assert run_rows >= 50


def _whole(line: str) -> str:
    return f"ask 60 RETRIEVE o FROM van o {line}" if line.startswith("WHERE") else line


def test_examples_of_the_grammar_are_read(program: Path, tmp_path: Path) -> None:
    """A line whose names aren't known is UnknownName where it is of the grammar, its numbers and sizes in their limits."""
    examples = [
        example
        for title in ("Formula of two parts", "`unary`", "`atom`", "Part of a term")
        for _, example in LANGUAGE.table(title, "The grammar of queries")
    ]
    for example in examples:
        text = only_code(example)
        assert text is not None
        run = answered(program, tmp_path, [f"ask 30 RETRIEVE o FROM car o WHERE {text}"])
        assert run.replies == [("refused 7 UnknownName",)], text


def test_saved_session_of_the_manual_is_loaded_and_saved_as_it_is(program: Path, tmp_path: Path) -> None:
    shown, = [code for code in LANGUAGE.under("save") if code.is_fenced and code.lines[0].startswith("domino-session")]
    text = "".join(f"{line}\n" for line in shown.lines)
    (tmp_path / "shown").write_text(text)
    assert answered(program, tmp_path, ['save "again"'], "--session", "shown").status == 0
    assert (tmp_path / "again").read_text() == text


def test_canonical_line_of_the_manual(program: Path, tmp_path: Path) -> None:
    written, canonical = LANGUAGE.under("Canonical lines")[0].lines
    answered(program, tmp_path, ["class car 3 (fuel dyn)", "insert car a", written, 'save "s"'])
    assert (tmp_path / "s").read_text().splitlines()[-2] == canonical


def test_words_refusals_and_statuses_are_those_of_the_manual() -> None:
    words = re.search(r"^Reserved words[^`]*`([^`]*)`", LANGUAGE.text, re.MULTILINE)
    assert words is not None and set(words[1].split()) == RESERVED
    rows = [only_code(reply) for reply, _ in LANGUAGE.table("Reply", "Refusals")]
    assert rows == [f"refused {number} {name}" for number, name in REFUSALS.items()]
    assert [int(status) for status, _ in LANGUAGE.table("Status", "The program")] == list(STATUSES)


def test_ends_of_the_program(program: Path, tmp_path: Path) -> None:
    for words, status, said in [
        (["--help"], 1, "bad words\n"),
        (["--session", "none"], 2, "bad session 0\n"),
        (["--session", "out/none"], 5, ""),
    ]:
        ended = subprocess.run(
            [program, *words], cwd=tmp_path, stdin=subprocess.DEVNULL, capture_output=True, encoding="utf-8",
            timeout=SECONDS, check=False,
        )
        assert (ended.returncode, ended.stdout) == (status, said), words


@pytest.mark.parametrize("line", ['save "{}"', 'export van "{}"', 'import van "{}"'])
@pytest.mark.parametrize("name", ["a/b", "/tmp/b", "", ".", "..", "folder"])
def test_names_that_end_the_run(line: str, name: str, program: Path, tmp_path: Path) -> None:
    (tmp_path / "folder").mkdir()
    run = answered(program, tmp_path, ["class van 20", line.format(name), "list"])
    assert run == Run([("ok",), None, None], 5)


def test_client_of_the_protocol_prints_what_its_comment_says(program: Path, tmp_path: Path) -> None:
    shown, = [code for code in PROTOCOL.codes if code.is_fenced and "fleet.client" in code.lines[0]]
    text = "\n".join(shown.lines)
    ended = subprocess.run(
        [sys.executable, "-c", text.replace("/srv/fleet", str(tmp_path))],
        env={**os.environ, "DOMINO": str(program), "PYTHONPATH": str(TOP / "companion")},
        capture_output=True, encoding="utf-8", timeout=SECONDS, check=False,
    )
    assert (ended.stdout, ended.stderr) == (text.partition("    # ")[2] + "\n", "")


# The figures of the guide.


def test_capacities_of_the_guide(program: Path, tmp_path: Path) -> None:
    for capacity_text, watches, can_ask in GUIDE.table("Capacity", "Classes and capacities"):
        capacity = _number(capacity_text)
        fits = capacity**2 <= MOST_PRODUCT
        assert _number(watches) == (min(MOST_QUERIES, MOST_PRODUCTS // capacity**2) if fits else 0)
        assert can_ask == ("yes" if capacity**3 <= MOST_PRODUCT else "no")
        pair = "RETRIEVE o,n FROM van o,van n WHERE DIST(o,n) <= 5"
        lines = [f"class van {capacity} point", "ask 0 RETRIEVE a FROM van a,van b,van c WHERE TRUE"]
        lines += [f"watch w{i} 10 {pair}" for i in range(_number(watches) + 1)]
        run = answered(program, tmp_path, lines)
        accepted = [reply == ("ok",) for reply in run.replies]
        assert accepted == [True, can_ask == "yes", *[True] * _number(watches), False]


def test_how_long_a_session_lasts() -> None:
    for row in GUIDE.table("Vehicles", "How long a session lasts"):
        vehicles, report, tick = (_number(cell.removesuffix(" s")) for cell in row[:3])
        each_second = Fraction(vehicles, report) + Fraction(1, tick)
        assert row[3] == f"{float(each_second):.2f}".rstrip("0").rstrip(".")
        assert row[4] == _duration(int(JOURNAL_ENTRIES / each_second))
    assert f"{JOURNAL_ENTRIES:,} entries" in GUIDE.text
    assert f"{JOURNAL_BYTES:,} bytes of entries, {JOURNAL_BYTES // JOURNAL_ENTRIES} a line" in GUIDE.text
    assert f"{INPUT_LIMIT:,} bytes of input" in GUIDE.text


def test_how_long_a_session_lasts_in_the_protocol() -> None:
    for fleet, entries, after in PROTOCOL.table("Fleet, with a tick a second", "How long a session lasts"):
        vehicles, seconds = re.findall("[0-9][0-9,]*", fleet)
        each_second = Fraction(_number(vehicles), _number(seconds)) + 1
        lasts, unit = after.split()
        assert _number(entries) == each_second
        tenths = JOURNAL_ENTRIES * 10 / each_second / {"days": 86_400, "hours": 3_600}[unit]
        assert Fraction(lasts) * 10 == int(tenths)


def _number(text: str) -> int:
    return int(text.replace(",", ""))


def _duration(seconds: int) -> str:
    """Days and hours, or hours and minutes within a day, rounded down."""
    hours, minutes = seconds // 3600, seconds // 60 % 60
    if hours >= 24:
        return f"{_count(hours // 24, 'day')} {_count(hours % 24, 'hour')}"
    return f"{_count(hours, 'hour')} {_count(minutes, 'minute')}"


def _count(number: int, what: str) -> str:
    return f"{number} {what}" if number == 1 else f"{number} {what}s"


# What is said of versions, and where links lead.


def test_version_is_that_of_the_change_log(fleet_command: list[str]) -> None:
    told = subprocess.run(
        [*fleet_command, "--version"], capture_output=True, encoding="utf-8", timeout=SECONDS, check=True
    ).stdout
    newest = re.search(r"^## \[([^\]]*)\]", CHANGELOG.text, re.MULTILINE)
    assert newest is not None and newest[1] == __version__
    assert told == f"fleet {__version__}\n"


@pytest.mark.parametrize("of", [*DOCUMENTS, CHANGELOG, document("companion/README.md"), document("docs/SCALE.md")], ids=document_name)
def test_links_lead_to_files(of: Document) -> None:
    folder = (TOP / of.name).parent
    links = [target.partition("#")[0] for target in re.findall(r"\]\(([^)\s]+)\)", of.text) if "://" not in target]
    assert [link for link in links if link and not (folder / link).exists()] == []
