"""`fleet check`: what the program would refuse of a file of commands, a saved session or csv, without running it."""

import argparse
import sys
from collections.abc import Iterable, Iterator
from dataclasses import dataclass, field
from pathlib import Path

from lark import Tree

from fleet import grammar, manual
from fleet.csv_fix import fix_file
from fleet.csvs import check_file, object_names
from fleet.errors import FleetError
from fleet.explain import pointed
from fleet.filenames import BadName, check_name
from fleet.judge import Verdict, first_refusal
from fleet.schema import ObjectClass, Schema
from fleet.session_text import FIRST_LINES, BadSessionText, entries
from fleet.tokens import read_lines
from fleet.traps import traps
from fleet.trees import name_in, optional_part, place_of
from fleet.words import LINE_LIMIT, REFUSALS, SESSION_LINE_LIMIT

DESCRIPTION = """
Checks FILE without running the program. A file of commands is judged line by line, each after those before it, from an
empty database or from a saved session on: syntax, numbers, sizes, names and all that the program would refuse; and what
it would take but most likely means something else, as a warning. A saved session is known by its first line. A file
whose name ends with .csv, and any with --class, is judged as an import into a class, row by row.
The status is 1 where there is a fault, 0 where there are warnings alone or nothing, and 2 where a file can't be read.
"""
MOST_TOLD = 100
"""So many findings are told; further ones are counted."""


class Unreadable(FleetError):
    """What is to be checked, or checked against, can't be read, or it isn't said against what."""

    exit_status = 2


def add_arguments(parser: argparse.ArgumentParser) -> None:
    """Adds the options of the word."""
    parser.description = DESCRIPTION
    parser.add_argument("file", metavar="FILE", help="commands, a saved session, or csv")
    parser.add_argument("--session", metavar="SESSION", help="the saved session, a file, that FILE goes on from")
    parser.add_argument("--schema", metavar="COMMANDS", help="a file of commands that FILE goes on from")
    parser.add_argument("--class", dest="class_name", metavar="CLASS", help="of csv: the class of its objects")
    parser.add_argument("--directory", metavar="FOLDER", default=".", help="the folder of imported files")
    parser.add_argument(
        "--fix",
        metavar="OUT",
        nargs="?",
        const="",
        help="of csv: write a file that can be imported, OUT or else FILE with .fixed.csv at its end: numbers are"
        " rounded and filled, names are made of what is none (their ids stand in a file beside), columns are renamed"
        " and left out",
    )


def main(arguments: argparse.Namespace) -> int:
    """Checks the file, tells what was found, and gives the exit status."""
    path = Path(arguments.file)
    try:
        schema = _schema(arguments)
        if path.suffix.casefold() == ".csv" or arguments.class_name is not None:
            return _check_csv(path, arguments, schema)
        if arguments.fix is not None:
            raise Unreadable("--fix is for csv alone")
        return _tell(arguments.file, _check_commands(path, schema, Path(arguments.directory)))
    except OSError as error:
        raise Unreadable(f"{error.filename}: {error.strerror}") from None


# ---- What is told


@dataclass(frozen=True, slots=True)
class Finding:
    """A fault, or a warning, at a line and a column, from 1; the column is 0 where it is about the whole line."""

    line: int
    column: int
    message: str
    is_fault: bool = True
    under: tuple[str, ...] = ()


def _tell(file: str, findings: Iterable[Finding]) -> int:
    """Writes the findings and their number, and gives the exit status."""
    faults = warnings = 0
    for finding in findings:
        faults += finding.is_fault
        warnings += not finding.is_fault
        if faults + warnings <= MOST_TOLD:
            column = f":{finding.column}" if finding.column else ""
            print(f"{file}:{finding.line}{column}: {'fault' if finding.is_fault else 'warning'}: {finding.message}")
            for line in finding.under:
                print(f"    {line}")
    sys.stdout.flush()
    more = faults + warnings - MOST_TOLD
    untold = f", of which {more:,} aren't told" if more > 0 else ""
    print(f"{file}: {_counted(faults, 'fault')}, {_counted(warnings, 'warning')}{untold}", file=sys.stderr)
    return 1 if faults else 0


def _counted(count: int, what: str) -> str:
    return f"{count:,} {what}" + ("" if count == 1 else "s")


# ---- Against what is checked


def _schema(arguments: argparse.Namespace) -> Schema:
    """The names that are there before the file: those of a session, of a file of commands, or none."""
    if arguments.session and arguments.schema:
        raise Unreadable("--session and --schema exclude each other")
    if arguments.session:
        return _session_schema(Path(arguments.session))
    if arguments.schema:
        check = Check(Schema(), Path(arguments.directory))
        with Path(arguments.schema).open("rb") as stream:
            for _ in check.lines(read_lines(stream)):
                pass
        return check.schema
    return Schema()


def _session_schema(path: Path) -> Schema:
    check = Check(Schema(), path.parent)
    fault = next((finding for finding in check.session(path) if finding.is_fault), None)
    if fault:
        raise Unreadable(f"{path}:{fault.line}: {fault.message}")
    return check.schema


# ---- Commands


def _check_commands(path: Path, schema: Schema, directory: Path) -> Iterator[Finding]:
    with path.open("rb") as stream:
        first = stream.readline(SESSION_LINE_LIMIT).rstrip(b"\r\n")
        if first in FIRST_LINES.values():
            yield from Check(Schema(), directory).session(path)
            return
        stream.seek(0)
        yield from Check(schema, directory).lines(read_lines(stream))


@dataclass(slots=True)
class Check:
    """Judges lines one after the other, and keeps the names that are there after them.

    After an import of a file that isn't known it isn't known which objects there are. Then what depends on them isn't
    told.
    """

    schema: Schema
    directory: Path
    knows_objects: bool = True
    _written: set[str] = field(default_factory=set)

    def lines(self, lines: Iterable[bytes]) -> Iterator[Finding]:
        """The findings about lines of an input, up to a `quit`."""
        has_quit = False
        for number, line in enumerate(lines, 1):
            if has_quit:
                yield Finding(number, 0, "this line and those after it aren't answered: the line before is quit", False)
                return
            tree, findings = self._line(number, line.removesuffix(b"\r"), LINE_LIMIT)
            yield from findings
            has_quit = tree is not None and tree.data == "quit"

    def session(self, path: Path) -> Iterator[Finding]:
        """The findings about a saved session, from an empty database on."""
        with path.open("rb") as stream:
            try:
                for entry in entries(stream):
                    tree, findings = self._line(entry.line, entry.text, SESSION_LINE_LIMIT)
                    yield from (finding for finding in findings if finding.is_fault)
            except BadSessionText as bad:
                yield Finding(bad.line, 0, f"the line {bad.cause}")

    def _line(self, number: int, line: bytes, limit: int) -> tuple[Tree | None, list[Finding]]:
        """The command of the line where it is accepted, and the findings about it."""
        try:
            tree = grammar.read(line, limit)
        except grammar.Refused as refused:
            return None, [_refused(number, line, refused.fault)]
        if tree is None:
            return None, []
        unbuilt = grammar.unbuilt(tree, grammar.ALL_COMMANDS - manual.unanswered())
        why = unbuilt or first_refusal(tree, self.schema, self.knows_objects)
        if why:
            return None, [_refused(number, line, why)]
        found = [
            _at(number, line, trap.place, trap.length, f"{trap.message} ({trap.heading})", False)
            for trap in traps(tree, self.schema)
        ]
        found += self._file(number, line, tree)
        if not any(finding.is_fault for finding in found):
            self._record(line, tree)
        return tree, found

    def _record(self, line: bytes, tree: Tree) -> None:
        if self.knows_objects or tree.data not in ("insert", "remove"):
            self.schema.record(line)

    def _file(self, number: int, line: bytes, tree: Tree) -> Iterator[Finding]:
        """The findings about the file that the command names, if it names one."""
        if optional_part(tree, "file_name") is None:
            return
        token = name_in(tree, "file_name")
        name = str(token[1:-1])
        try:
            check_name(name, self.directory, writes=tree.data != "import")
        except BadName as bad:
            message = f"the file name {bad.cause}: it ends the program, and all that isn't saved is lost"
            yield _at(number, line, *place_of(token), message)
            return
        if tree.data != "import":
            self._written.add(name)
            return
        told = self._import(self.schema.classes[name_in(tree, "class_name")], name)
        if told:
            yield _at(number, line, *place_of(token), told.message, told.is_fault)

    def _import(self, its_class: ObjectClass, name: str) -> Finding | None:
        """Follows an import, and gives what there is to say of it."""
        path = self.directory / name
        if name in self._written or not path.exists():
            self.knows_objects = False
            state = "is written by a line before" if name in self._written else "isn't there now"
            return Finding(0, 0, f"the file {state}, so its rows aren't checked", False)
        first = next((cause for cause in check_file(path, its_class, self.schema) if not cause.is_warning), None)
        if first:
            return Finding(0, 0, f"refused 20 {REFUSALS[20]}: {path}:{first.row}:{first.column}: {first.message}")
        self.schema.record_rows(its_class.name, object_names(path))
        return None


def _refused(number: int, line: bytes, why: grammar.Fault | Verdict) -> Finding:
    message = f"refused {why.number} {REFUSALS[why.number]}: {why.message}"
    return _at(number, line, why.place, why.length, message)


def _at(number: int, line: bytes, place: int, length: int, message: str, is_fault: bool = True) -> Finding:
    return Finding(number, place + 1, message, is_fault, tuple(pointed(line, place, length)))


# ---- csv


def _check_csv(path: Path, arguments: argparse.Namespace, schema: Schema) -> int:
    its_class = _chosen_class(arguments.class_name, schema)
    if arguments.fix is not None:
        out = Path(arguments.fix) if arguments.fix else path.with_suffix(".fixed.csv")
        names_out = out.with_suffix(".names.csv")
        changes = fix_file(path, out, names_out, its_class, schema)
        print(*changes.told(), sep="\n", end="\n" if changes.counts else "")
        print(f"{out} is written" + (f", and the ids of renamed objects in {names_out}" if changes.names else ""))
        path = out
    causes = check_file(path, its_class, schema)
    return _tell(str(path), (Finding(cause.row, cause.column, cause.message, not cause.is_warning) for cause in causes))


def _chosen_class(name: str | None, schema: Schema) -> ObjectClass:
    if name is None and len(schema.classes) == 1:
        return next(iter(schema.classes.values()))
    if name in schema.classes:
        return schema.classes[name]
    known = ", ".join(schema.classes) or "none, see --session and --schema"
    fault = "--class says into which class a csv is imported" if name is None else f"there is no class {name}"
    raise Unreadable(f"{fault}; the classes are: {known}")
