"""Makes of a csv file one that `import` takes, as far as that can be done without a guess at what was meant.

Numbers are rounded to thousandths and written without exponents, missing ones are filled with 0, names of objects are
made of what is no name, and columns are renamed, moved and left out. Each of these is counted and told.
"""

import csv
import re
import unicodedata
from collections import Counter
from collections.abc import Iterable, Iterator
from dataclasses import dataclass, field
from decimal import Decimal, InvalidOperation
from pathlib import Path

from fleet.csvs import LIMITS, NAME, NOTHING, Form, Row, columns_of, name_fault, rate_meant, read_rows, shown
from fleet.errors import FleetError
from fleet.schema import ObjectClass, Schema
from fleet.words import NAME_LIMIT

_NAME_TITLES = ("name", "id", "object", "vehicle", "vehicle_id")
"""The titles of a column of names, where none is `name` itself."""
_THOUSANDTH = Decimal("0.001")


class NotFixed(FleetError):
    """The file can't be fixed, or a file to be written is there already."""


@dataclass(slots=True)
class Changes:
    """What was changed: of each sort how often, and the first of it; and the name of each renamed object by its id."""

    counts: Counter[str] = field(default_factory=Counter)
    firsts: dict[str, str] = field(default_factory=dict)
    names: dict[str, str] = field(default_factory=dict)

    def add(self, sort: str, row: int, column: int, before: str, after: str | None = None) -> None:
        """Counts a change of a field, of which nothing is left where there is no `after`."""
        self.counts[sort] += 1
        what = "" if after is None else f" became {after}"
        self.firsts.setdefault(sort, f'{row}:{column}: "{shown(before)}"{what}')

    def told(self) -> Iterator[str]:
        """A line for each sort of change."""
        for sort, count in self.counts.items():
            yield f"{sort}: {count:,}, the first at {self.firsts[sort]}"


@dataclass(frozen=True, slots=True)
class Column:
    """A column that is kept: its place in the file, and its title and form in the new one."""

    place: int
    title: str
    form: Form | None


def fix_file(path: Path, out: Path, names_out: Path, its_class: ObjectClass, schema: Schema) -> Changes:
    """Writes the fixed file, and beside it the ids and names of renamed objects where there are any.

    Raises NotFixed where no column has the names or where a file to be written is there already, and OSError.
    """
    for each in (out, names_out):
        if each.exists():
            raise NotFixed(f"{each} is there already, and nothing was written")
    rows = _decoded_rows(path)
    if not rows:
        raise NotFixed(f"{path} is empty")
    changes = Changes()
    columns = _columns(rows[0], its_class, changes)
    titles = [column.title for column in columns]
    of_others = {each.name for each in schema.objects.values() if each.class_name != its_class.name}
    fixed = [titles, *_fixed_rows(rows[1:], columns, len(rows[0].fields), changes, of_others)]
    _write(out, fixed)
    if changes.names:
        _write(names_out, [("id", "name"), *changes.names.items()])
    return changes


def _decoded_rows(path: Path) -> list[Row]:
    """The rows as UTF-8 where they are that, else with a character for each byte."""
    for encoding in ("utf-8", "latin-1"):
        try:
            with path.open("rb") as stream:
                return list(read_rows(stream, encoding))
        except UnicodeDecodeError:
            continue
    return []


def _write(path: Path, rows: Iterable[Iterable[str]]) -> None:
    """Writes a new file; nothing is left of it where that fails."""
    with path.open("x", encoding="utf-8", newline="") as stream:
        try:
            csv.writer(stream, lineterminator="\n").writerows(rows)
            stream.flush()
        except BaseException:
            path.unlink()
            raise


# ---- Columns


def _columns(header: Row, its_class: ObjectClass, changes: Changes) -> list[Column]:
    """The columns that are kept, that of the names first."""
    forms = columns_of(its_class)
    titles = [title.strip() for title in header.fields]
    names_at = _names_place(titles, forms)
    columns = [Column(names_at, NAME, None)]
    _tell_title(changes, header, names_at, NAME)
    for place, title in enumerate(titles):
        if place == names_at:
            continue
        meant = _column_meant(title, forms)
        if meant and meant not in (column.title for column in columns):
            columns.append(Column(place, meant, forms[meant]))
            _tell_title(changes, header, place, meant)
        else:
            changes.add("columns left out", header.line, place + 1, header.fields[place])
    if names_at:
        changes.add("columns put first", header.line, names_at + 1, header.fields[names_at])
    return columns


def _tell_title(changes: Changes, header: Row, place: int, title: str) -> None:
    if header.fields[place] != title:
        changes.add("columns renamed", header.line, place + 1, header.fields[place], title)


def _names_place(titles: list[str], forms: dict[str, Form]) -> int:
    """The place of the column of names: that of `name`, else of a usual title that no attribute has."""
    folded = [title.casefold() for title in titles]
    for wanted in _NAME_TITLES:
        if wanted in folded and (wanted == NAME or wanted not in forms):
            return folded.index(wanted)
    usual = ", ".join(_NAME_TITLES)
    raise NotFixed(f"no column is known to have the names of the objects; its title is one of {usual}")


def _column_meant(title: str, forms: dict[str, Form]) -> str:
    """The column of the class that a title means, empty where it means none."""
    if title in forms:
        return title
    by_case = [column for column in forms if column.casefold() == title.casefold()]
    return by_case[0] if len(by_case) == 1 else rate_meant(title, forms)


# ---- Rows


def _fixed_rows(
    rows: list[Row], columns: list[Column], width: int, changes: Changes, taken: set[str]
) -> Iterator[list[str]]:
    names = _Renamer(rows, columns[0].place, changes, taken)
    for row in rows:
        fields = row.fields + [""] * (width - len(row.fields))
        if len(row.fields) < width:
            changes.add("short rows filled", row.line, len(row.fields), row.fields[-1])
        name = names.name(row.line, fields[columns[0].place])
        values = [_value(row.line, column, fields[column.place], changes) for column in columns[1:]]
        yield [name, *values, *fields[width:]]


def _value(line: int, column: Column, before: str, changes: Changes) -> str:
    if column.form == "text":
        after, sort = _text(before), "texts changed"
    else:
        after, sort = _number(before, column.form or "number")
    if after != before:
        changes.add(sort, line, column.place + 1, before, after)
    return after


def _number(before: str, form: Form) -> tuple[str, str]:
    """The number as it is written in a command, and what was done to it; itself where it is none or out of range."""
    text = before.strip()
    if text.casefold() in NOTHING:
        return "0", "missing numbers filled with 0"
    try:
        exact = Decimal(text)
        if not exact.is_finite() or abs(exact) * 1000 > LIMITS[form] + 1:
            return before, ""
        rounded = exact.quantize(_THOUSANDTH)
    except InvalidOperation:
        return before, ""
    after = f"{rounded:f}".rstrip("0").rstrip(".")
    return ("0" if after == "-0" else after), ("numbers rounded" if rounded != exact else "numbers written anew")


def _text(before: str) -> str:
    """The text without accents, quotes and control characters, cut at its limit."""
    plain = _ascii(before).replace('"', "'")
    return "".join(each if " " <= each <= "~" else " " for each in plain)[:NAME_LIMIT]


def _ascii(text: str) -> str:
    """The text with letters without accents, and `?` for what has no such letter."""
    parts = unicodedata.normalize("NFKD", text.replace("ß", "ss"))
    return "".join(each for each in parts if not unicodedata.combining(each)).encode("ascii", "replace").decode("ascii")


class _Renamer:
    """Gives each id a name of its own: the id itself where that is one.

    The names go by the file alone, so that a later file of the same ids gives the same names; none is one of `taken`.
    """

    def __init__(self, rows: list[Row], place: int, changes: Changes, taken: set[str]) -> None:
        ids = {row.fields[place] for row in rows if place < len(row.fields)}
        self._taken = taken | {each for each in ids if not name_fault(each)}
        self._changes = changes

    def name(self, line: int, before: str) -> str:
        """The name of the object of an id; an empty id is left as it is, since nothing says which object is meant."""
        if not before.strip() or not name_fault(before):
            return before
        known = self._changes.names
        if before not in known:
            known[before] = self._new(before)
            self._taken.add(known[before])
        self._changes.add("objects renamed", line, 1, before, known[before])
        return known[before]

    def _new(self, before: str) -> str:
        base = re.sub(r"[^A-Za-z0-9_]", "_", _ascii(before.strip()))
        if name_fault(base[:NAME_LIMIT]):
            base = f"v_{base}"
        name, number = base[:NAME_LIMIT], 1
        while name in self._taken:
            number += 1
            ending = f"_{number}"
            name = base[: NAME_LIMIT - len(ending)] + ending
        return name
