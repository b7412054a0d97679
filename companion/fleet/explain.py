"""Why the program refused a line, in words, and where in the line: as a caret under it."""

import functools
import os
import shutil
from dataclasses import dataclass
from pathlib import Path

from lark import Tree

from fleet import grammar, manual
from fleet.client import Client
from fleet.csvs import check_file
from fleet.judge import Verdict, first_refusal
from fleet.schema import Schema
from fleet.trees import name_in, place_of
from fleet.words import COMMANDS, LATER_COMMANDS

LEAST_WIDTH = 40


@dataclass(frozen=True, slots=True)
class Explanation:
    """What is known of a fault in a line: in words, and its place from 0 and length in bytes, where it has one."""

    message: str
    place: int | None = None
    length: int = 0


def answered_commands(program: str | os.PathLike[str] | None = None) -> frozenset[str]:
    """The commands that the program answers. A process of its own, of an empty database, is asked.

    Of the commands that may not be built yet a line of right syntax with unknown names is sent: the program refuses it
    by 4 BadSyntax where the command isn't built, and by a later refusal where it is. Raises as a client does.
    """
    with Client(program) as client:
        replies = zip(_QUESTIONS, client.send_many(_QUESTIONS.values()), strict=True)
        built = {command for command, reply in replies if reply.refusal is None or reply.refusal.number != 4}
    return frozenset(COMMANDS) | built


_QUESTIONS: dict[str, str] = {
    "nearest": "nearest 0 1 a a",
    "must": "must 0 0 RETRIEVE o FROM a o WHERE TRUE",
    "may": "may 0 0 RETRIEVE o FROM a o WHERE TRUE",
    "index": "index a a 1",
    "range": "range 0 a a 0 0",
}
assert _QUESTIONS.keys() == set(LATER_COMMANDS)


class Explainer:
    """Explains refusals by the grammar, by the names that are there, by the files that are imported, and by the manual.

    `directory` is the folder in which the program reads and writes files.
    """

    def __init__(
        self, schema: Schema, program: str | os.PathLike[str] | None = None, directory: Path = Path(".")
    ) -> None:
        self._schema = schema
        self._program = program
        self._directory = directory

    @functools.cached_property
    def answered(self) -> frozenset[str]:
        """The commands that the program answers; it is asked once."""
        return answered_commands(self._program)

    def explain(self, line: str | bytes, number: int) -> Explanation:
        """Why the program refused the line by the refusal of this number, before anything else was accepted."""
        fault = grammar.explain(line)
        if fault is None and number == 4:
            fault = grammar.explain(line, self.answered)
        why: grammar.Fault | Verdict | None = fault
        if fault is None:
            tree = grammar.read(line)
            why = first_refusal(tree, self._schema) if tree else None
            if number == 20 and tree:
                return self._explain_file(tree)
        if why and why.number == number:
            return Explanation(why.message, why.place, why.length)
        return Explanation(manual.refusal_cause(number))

    def _explain_file(self, tree: Tree) -> Explanation:
        """Why the file of an import is refused."""
        token = name_in(tree, "file_name")
        its_class = self._schema.classes.get(name_in(tree, "class_name"))
        path = self._directory / token[1:-1]
        try:
            causes = check_file(path, its_class, self._schema) if its_class else iter(())
            first = next((cause for cause in causes if not cause.is_warning), None)
        except OSError:
            first = None
        if first is None:
            return Explanation(manual.refusal_cause(20))
        return Explanation(f"{token[1:-1]}:{first.row}:{first.column}: {first.message}", *place_of(token))


def pointed(line: str | bytes, place: int, length: int, width: int | None = None) -> list[str]:
    """The line, and under it a caret at the place, as two lines of at most the width, else of that of the terminal.

    Of a long line the part round the place is shown. What can't be printed is shown as a question mark.
    """
    text = _printable(line)
    width = max(width or shutil.get_terminal_size().columns - 1, LEAST_WIDTH)
    place = min(place, len(text))
    first = 0 if len(text) <= width else max(0, min(place - width // 2, len(text) - width))
    shown = text[first : first + width]
    if first:
        shown = "..." + shown[3:]
    if first + width < len(text):
        shown = shown[:-3] + "..."
    column = place - first
    mark = "^" + "~" * (min(length, len(shown) - column) - 1)
    return [shown, " " * column + mark]


def _printable(line: str | bytes) -> str:
    """A character for each byte of ASCII before the first other one, so that places in it are columns."""
    text = line.decode("utf-8", "replace") if isinstance(line, bytes) else line
    return "".join(each if each.isprintable() else " " if each == "\t" else "?" for each in text.removesuffix("\r"))
