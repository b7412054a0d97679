"""Reads the documents of the repository: their headings, their tables, and the examples in their blocks of code.

An example stands in an indented block: commands, each with the lines of its reply after it. The replies are indented once
more, or they aren't and each ends with its `ok` or its `refused`; a block without replies has commands alone. A line that
begins with `$ ` is one of a shell, and what it writes is indented after it.
"""

import re
from dataclasses import dataclass, field
from functools import cache
from pathlib import Path

from markdown_it import MarkdownIt
from markdown_it.token import Token

from fleet.tokens import is_silent
from fleet.words import COMMANDS, LATER_COMMANDS

TOP = Path(__file__).resolve().parents[2]
INDENT = "    "
SHELL = "$ "

_CODE_SPAN = re.compile(r"`([^`]*)`")
_LAST_OF_REPLY = re.compile(r"ok|refused [0-9]+ [A-Za-z]+")


@dataclass(frozen=True)
class Code:
    """A block of code: where it stands, the paragraph before it and the headings above it, the outermost first."""

    lines: tuple[str, ...]
    at: int
    is_fenced: bool
    before: str
    headings: tuple[str, ...]


@dataclass(frozen=True)
class Table:
    """A table: the text of each cell of its rows, the row of titles among them."""

    rows: tuple[tuple[str, ...], ...]
    headings: tuple[str, ...]


@dataclass(frozen=True)
class Step:
    """A line of an example, and the lines of its reply; None where they aren't shown."""

    line: str
    reply: tuple[str, ...] | None
    at: int


@dataclass
class Session:
    """Steps from an empty database on, with the lines for a shell after them, and what files have at the end."""

    document: str
    steps: list[Step] = field(default_factory=list)
    shell: list[Step] = field(default_factory=list)
    files: dict[str, str] = field(default_factory=dict)

    @property
    def at(self) -> int:
        """The line of the document at which it begins."""
        return [*self.steps, *self.shell][0].at

    @property
    def has_ended(self) -> bool:
        return bool(self.steps) and self.steps[-1].line.split() == ["quit"]


class Document:
    """A document by its name from the top of the repository."""

    def __init__(self, name: str) -> None:
        self.name = name
        self.text = (TOP / name).read_text(encoding="utf-8")
        self.codes: list[Code] = []
        self.tables: list[Table] = []
        self._read(MarkdownIt("commonmark").enable("table").parse(self.text))

    def __str__(self) -> str:
        return self.name

    def _read(self, tokens: list[Token]) -> None:
        headings: list[str] = []
        cells: list[list[str]] = []
        before = ""
        for token, following in zip(tokens, [*tokens[1:], None]):
            if token.type == "heading_open":
                assert following is not None
                headings = [*headings[: int(token.tag[1]) - 1], following.content]
            elif token.type == "table_open":
                cells = []
            elif token.type == "tr_open":
                cells.append([])
            elif token.type == "table_close":
                self.tables.append(Table(tuple(map(tuple, cells)), tuple(headings)))
            elif token.type in ("td_open", "th_open"):
                assert following is not None
                cells[-1].append(following.content)
            elif token.type == "inline":
                before = token.content
            elif token.type in ("code_block", "fence"):
                self.codes.append(_code(token, before, tuple(headings)))

    def under(self, heading: str) -> list[Code]:
        """The blocks of code under a heading of any level."""
        return [code for code in self.codes if heading in code.headings]

    def table(self, first_title: str, heading: str) -> list[tuple[str, ...]]:
        """The rows, without the titles, of the only table directly under a heading that has this first title."""
        found = [table for table in self.tables if table.rows[0][0] == first_title and table.headings[-1] == heading]
        assert len(found) == 1, f"{self.name} has {len(found)} tables under {heading} that begin with {first_title}"
        return list(found[0].rows[1:])

    def sessions(self) -> list[Session]:
        """Its examples. A block that begins with a `class` line begins a session, and so does one after a `quit`."""
        found = [Session(self.name)]
        for code in self.codes:
            if code.is_fenced:
                found[-1].files |= _file_shown(code)
            elif is_example(code):
                if code.lines[0].startswith("class ") or found[-1].has_ended:
                    found.append(Session(self.name))
                for step in steps_of(code):
                    (found[-1].shell if step.line.startswith(SHELL) else found[-1].steps).append(step)
        return [session for session in found if session.steps or session.shell]


def _code(token: Token, before: str, headings: tuple[str, ...]) -> Code:
    assert token.map is not None
    is_fenced = token.type == "fence"
    at = token.map[0] + (2 if is_fenced else 1)
    return Code(tuple(token.content.splitlines()), at, is_fenced, before, headings)


@cache
def document(name: str) -> Document:
    return Document(name)


def is_example(code: Code) -> bool:
    """Whether a block has lines to run; the two lines that show a canonical one are another's."""
    first = code.lines[0]
    is_canonical = "Canonical lines" in code.headings
    return not is_canonical and (first.startswith((SHELL, "#")) or first.split()[0] in COMMANDS + LATER_COMMANDS)


def _file_shown(code: Code) -> dict[str, str]:
    """What a file has, where the paragraph before the block says so: After this `NAME`, .. has."""
    shown = re.match(r"After this `([^`]*)`[^`]* has$", code.before, re.DOTALL)
    return {shown[1]: "".join(f"{line}\n" for line in code.lines)} if shown else {}


def steps_of(code: Code) -> list[Step]:
    """The lines of a block with their replies."""
    if any(line.startswith(INDENT) for line in code.lines):
        return _indented_steps(code)
    if any(_LAST_OF_REPLY.fullmatch(line) for line in code.lines):
        return _flat_steps(code)
    return [Step(line, () if is_silent(line) else None, at) for at, line in enumerate(code.lines, code.at)]


def _indented_steps(code: Code) -> list[Step]:
    steps: list[Step] = []
    for at, line in enumerate(code.lines, code.at):
        if line.startswith(INDENT):
            last = steps.pop()
            steps.append(Step(last.line, (*(last.reply or ()), line.removeprefix(INDENT)), last.at))
        else:
            steps.append(Step(line, (), at))
    return steps


def _flat_steps(code: Code) -> list[Step]:
    steps: list[Step] = []
    open_reply: list[str] | None = None
    for at, line in enumerate(code.lines, code.at):
        if open_reply is None:
            steps.append(Step(line, (), at))
            open_reply = None if is_silent(line) else []
            continue
        open_reply.append(line)
        if _LAST_OF_REPLY.fullmatch(line):
            last = steps.pop()
            steps.append(Step(last.line, tuple(open_reply), last.at))
            open_reply = None
    assert open_reply is None, f"line {code.at}: the last reply of the block has no end"
    return steps


def code_spans(cell: str) -> list[str]:
    """The pieces of code in the text of a cell."""
    return _CODE_SPAN.findall(cell)


def only_code(cell: str) -> str | None:
    """The piece of code that is all of a cell, if there is one."""
    return cell[1:-1] if re.fullmatch(r"`[^`]*`", cell) else None
