"""`fleet roll`: makes of a saved session a short one of its present state."""

import argparse
import re
from collections.abc import Iterable
from dataclasses import asdict, dataclass, field
from pathlib import Path
from typing import TypeVar

from fleet.client import BadSession, Client
from fleet.errors import FleetError
from fleet.present import ClassOf, Present
from fleet.program import add_program_argument, find_program
from fleet.session_text import entries, saved, sync_folder, write_whole
from fleet.ways.planes import add_plane_arguments, comment, plane_of_file, settled, wanted_plane
from fleet.words import CAPACITY_LIMIT, NAME_LIMIT, RESERVED

DESCRIPTION = """
Reads the saved session NAME and writes NEW, a session of the same present state in as few commands as it takes:
classes, regions, the objects that are present with their values, functions and update times, and the queries that
haven't expired. From the present tick on every answer, change and export is the same, but for what is lost: the names
of removed objects (they are free again, and count no more against the capacity), queries that have expired, the past of
kept queries, and the first tick of all queries, which is now. What is lost is told. With the options the classes,
regions and queries change on the way. The comment that names the plane of the places, as `fleet from` writes it, is
carried on; --zone or --local writes one. The program loads both, and NEW before it gets its name.
"""

_NAME = re.compile(r"[A-Za-z_][A-Za-z0-9_]*")
KINDS = ("num", "text", "dyn")
Named = TypeVar("Named")


class CannotRoll(FleetError):
    """What was asked for can't be had of this session."""


@dataclass(slots=True)
class Rolled:
    """What was made, and what was lost: of each class how many names were forgotten, and the queries that are no more,
    and those that have lost their past."""

    clock: int
    entries_before: int
    entries_after: int
    forgotten_names: dict[str, int] = field(default_factory=dict)
    expired_queries: list[str] = field(default_factory=list)
    lost_pasts: list[str] = field(default_factory=list)

    def lines(self) -> list[str]:
        """What a user is told, a line for each."""
        told = [f"{self.entries_before} entries became {self.entries_after}, at tick {self.clock}"]
        for name, count in self.forgotten_names.items():
            told.append(f"class {name}: {count} removed {'name is' if count == 1 else 'names are'} forgotten")
        if self.expired_queries:
            told.append(f"expired queries are gone: {' '.join(self.expired_queries)}")
        if self.lost_pasts:
            told.append(f"kept queries have lost their past: {' '.join(self.lost_pasts)}")
        return told

    def json(self) -> dict[str, object]:
        return asdict(self)


@dataclass(slots=True)
class Changes:
    """What changes on the way, by names of classes, regions and queries."""

    capacities: dict[str, int] = field(default_factory=dict)
    added_attributes: list[tuple[str, str, str]] = field(default_factory=list)
    dropped_attributes: list[tuple[str, str]] = field(default_factory=list)
    dropped_classes: list[str] = field(default_factory=list)
    dropped_regions: list[str] = field(default_factory=list)
    dropped_queries: list[str] = field(default_factory=list)

    def make(self, present: Present) -> None:
        """Changes the state. Raises CannotRoll where a name isn't there, or is needed by a query."""
        for query in self.dropped_queries:
            _take(present.queries, query, "registered query")
        for region in self.dropped_regions:
            _take(present.regions, region, "region")
        for name in self.dropped_classes:
            _take(present.classes, name, "class")
            present.objects = {each.name: each for each in present.objects.values() if each.of != name}
        for name, attribute in self.dropped_attributes:
            _drop_attribute(present, _get(present.classes, name, "class"), attribute)
        for name, attribute, kind in self.added_attributes:
            _add_attribute(present, _get(present.classes, name, "class"), attribute, kind)
        for name, capacity in self.capacities.items():
            _set_capacity(present, _get(present.classes, name, "class"), capacity)
        _check_queries(present)


def rolled(commands: Iterable[bytes], changes: Changes) -> tuple[Rolled, list[str]]:
    """What becomes of the commands of a session, and the commands of the rolled one."""
    present = Present.after(commands)
    told = Rolled(present.clock, present.count, 0)
    changes.make(present)
    for each in present.objects.values():
        if not each.is_present:
            told.forgotten_names[each.of] = told.forgotten_names.get(each.of, 0) + 1
    for query in present.queries.values():
        if query.expiry < present.clock:
            told.expired_queries.append(query.name)
        elif query.kind == "keep" and query.entry < present.clock:
            told.lost_pasts.append(query.name)
    made = list(present.commands())
    told.entries_after = len(made)
    return told, made


def add_arguments(parser: argparse.ArgumentParser) -> None:
    """Adds the options of the word."""
    parser.description = DESCRIPTION
    parser.add_argument("name", metavar="NAME", type=Path, help="the saved session")
    parser.add_argument("new", metavar="NEW", type=Path, help="the file of the rolled session")
    parser.add_argument(
        "--capacity", metavar="CLASS=NUMBER", type=_capacity, action="append", default=[],
        help="gives a class another capacity",
    )
    parser.add_argument(
        "--add-attribute", metavar="CLASS.NAME=KIND", type=_added, action="append", default=[],
        help="gives a class one attribute more, of the kind num, text or dyn: 0, empty, or 0 and at rest from now on",
    )
    parser.add_argument(
        "--drop-attribute", metavar="CLASS.NAME", type=_attribute, action="append", default=[],
        help="takes an attribute away",
    )
    parser.add_argument(
        "--drop-class", metavar="CLASS", action="append", default=[], help="takes a class and its objects away"
    )
    parser.add_argument("--drop-region", metavar="REGION", action="append", default=[], help="takes a region away")
    parser.add_argument("--drop-query", metavar="QUERY", action="append", default=[], help="takes a query away")
    add_plane_arguments(parser, can_choose=False)
    parser.add_argument("--force", action="store_true", help="writes NEW where there is such a file already")
    add_program_argument(parser)


def main(arguments: argparse.Namespace) -> int:
    """Rolls and gives the exit status."""
    if arguments.new.exists() and not arguments.force:
        raise CannotRoll(f"{arguments.new} is there already; --force writes in its place")
    program = find_program(arguments.program)
    loaded_clock(arguments.name, program)
    plane = settled(wanted_plane(arguments), plane_of_file(arguments.name), arguments.name)
    with arguments.name.open("rb") as text:
        told, made = rolled((entry.text for entry in entries(text)), _changes(arguments))
    comments = [] if plane is None else [comment(plane)]
    _write_checked(arguments.new, made, comments, told.clock, program)
    for line in told.lines():
        print(line)
    return 0


def _changes(arguments: argparse.Namespace) -> Changes:
    return Changes(
        dict(arguments.capacity),
        arguments.add_attribute,
        arguments.drop_attribute,
        arguments.drop_class,
        arguments.drop_region,
        arguments.drop_query,
    )


def _write_checked(new: Path, made: list[str], comments: list[str], clock: int, program: Path) -> None:
    """Writes the session under another name, and gives it its own where the program loads it."""
    unchecked = new.with_name(".fleet-rolled")
    try:
        write_whole(unchecked, saved(made, comments))
        _check(unchecked, made, clock, program)
        unchecked.replace(new)
    finally:
        unchecked.unlink(missing_ok=True)
    sync_folder(new.parent)


def _check(path: Path, made: list[str], clock: int, program: Path) -> None:
    try:
        loaded = loaded_clock(path, program)
    except BadSession as error:
        refused = made[error.number - 3] if 3 <= error.number < len(made) + 3 else f"line {error.number}"
        raise CannotRoll(f"the program refuses a command of the rolled session: {refused}") from None
    if loaded != clock:
        raise CannotRoll(f"the program loads the rolled session with the clock {loaded}, not {clock}")


def loaded_clock(path: Path, program: Path) -> int:
    """The clock of a session that the program loads. Raises BadSession where it doesn't."""
    with Client(program, path.name, path.parent) as client:
        return client.clock


def _get(there: dict[str, Named], name: str, what: str) -> Named:
    if name not in there:
        raise CannotRoll(f"there is no {what} of the name {name}")
    return there[name]


def _take(there: dict[str, Named], name: str, what: str) -> None:
    _get(there, name, what)
    del there[name]


def _drop_attribute(present: Present, of: ClassOf, attribute: str) -> None:
    _take(of.attributes, attribute, f"attribute of {of.name}")
    for each in present.objects.values():
        if each.of == of.name:
            del each.cells[attribute]


def _add_attribute(present: Present, of: ClassOf, attribute: str, kind: str) -> None:
    if attribute in of.kinds():
        raise CannotRoll(f"the class {of.name} has an attribute {attribute} already")
    of.attributes[attribute] = kind
    fresh = present.fresh(kind)
    for each in present.objects.values():
        if each.of == of.name:
            each.cells[attribute] = fresh


def _set_capacity(present: Present, of: ClassOf, capacity: int) -> None:
    count = sum(each.is_present and each.of == of.name for each in present.objects.values())
    if capacity < count:
        raise CannotRoll(f"the class {of.name} has {count} objects, more than {capacity}")
    of.capacity = capacity


def _check_queries(present: Present) -> None:
    """Raises CannotRoll where a query that is kept names what is no longer there."""
    for query in present.queries.values():
        if query.expiry < present.clock:
            continue
        of = set(query.variables().values())
        missing = [f"class {name}" for name in sorted(of - present.classes.keys())]
        missing += [f"region {name}" for name in sorted(query.regions() - present.regions.keys())]
        missing += [
            f"attribute {name}.{attribute}"
            for name, attribute in sorted(query.attributes())
            if name in present.classes and attribute not in present.classes[name].kinds()
        ]
        if missing:
            raise CannotRoll(f"the query {query.name} needs the {missing[0]}; --drop-query {query.name} takes it away")


def _capacity(text: str) -> tuple[str, int]:
    name, _, number = text.partition("=")
    if not _is_name(name) or not number.isdecimal() or not 1 <= int(number) <= CAPACITY_LIMIT:
        raise argparse.ArgumentTypeError(f"{text} isn't CLASS=NUMBER with a number from 1 to {CAPACITY_LIMIT:,}")
    return name, int(number)


def _attribute(text: str) -> tuple[str, str]:
    name, _, attribute = text.partition(".")
    if not _is_name(name) or not _is_name(attribute):
        raise argparse.ArgumentTypeError(f"{text} isn't CLASS.NAME")
    return name, attribute


def _added(text: str) -> tuple[str, str, str]:
    written, _, kind = text.partition("=")
    if kind not in KINDS:
        raise argparse.ArgumentTypeError(f"{text} isn't CLASS.NAME=KIND with the kind num, text or dyn")
    return *_attribute(written), kind


def _is_name(text: str) -> bool:
    return bool(_NAME.fullmatch(text)) and len(text) <= NAME_LIMIT and text not in RESERVED
