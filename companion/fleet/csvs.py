"""Checks a csv file for `import`: where, and why, the program would refuse it by 20 BadFile.

The program reads csv by the common rules, as Python's own reader does: fields in quotes, any end of a line, blank lines
passed over, a byte order mark at the front dropped. Each byte counts as one character.
"""

import csv
import io
import re
import sys
from collections.abc import Iterable, Iterator, Sequence
from dataclasses import dataclass
from itertools import islice
from pathlib import Path
from typing import Literal

from fleet.hints import near
from fleet.schema import Object, ObjectClass, Schema
from fleet.tokens import thousandths
from fleet.words import FILE_LIMIT, JOURNAL_ENTRIES, NAME_LIMIT, RESERVED

Form = Literal["number", "rate", "text"]
NAME = "name"
RATE = ".rate"
LIMITS: dict[str, int] = {"number": 10**12, "rate": 10**6}
"""The largest number of each form, in thousandths."""
BYTE_ORDER_MARK = b"\xef\xbb\xbf"
NOTHING = frozenset(("", "nan", "na", "n/a", "null", "none"))
"""What other programs write where there is no number."""

_PLAIN_NAME = re.compile(r"[A-Za-z_][A-Za-z0-9_]*")
_SCIENTIFIC = re.compile(r"[-+]?[0-9]*\.?[0-9]*[eE][-+]?[0-9]+")
_DECIMAL = re.compile(r"-?([0-9]+)(?:\.([0-9]+))?")


@dataclass(frozen=True, slots=True)
class Cause:
    """Why a file is refused: the line at which a row begins and the field in it, from 1; 0 where it is the whole.

    What is a warning alone doesn't keep the program from taking the file.
    """

    row: int
    column: int
    message: str
    is_warning: bool = False


@dataclass(frozen=True, slots=True)
class Row:
    """A row and the line at which it begins, from 1."""

    line: int
    fields: list[str]


def columns_of(its_class: ObjectClass) -> dict[str, Form]:
    """The columns that a class may have in a file beside `name`, and what their fields are."""
    forms: dict[str, Form] = {}
    for name, kind in its_class.attributes.items():
        forms[name] = "text" if kind == "text" else "number"
        if kind == "dyn":
            forms[name + RATE] = "rate"
    return forms


def read_rows(stream: io.BufferedReader, encoding: str = "latin-1") -> Iterator[Row]:
    """The rows of a file, as the program reads them where the encoding gives a character for each byte."""
    csv.field_size_limit(sys.maxsize)
    if stream.peek(3)[:3] == BYTE_ORDER_MARK:
        stream.read(3)
    reader = csv.reader(io.TextIOWrapper(stream, encoding, newline=""))
    line = 1
    for fields in reader:
        if fields:
            yield Row(line, fields)
        line = reader.line_num + 1


def check_file(path: Path, its_class: ObjectClass, schema: Schema) -> Iterator[Cause]:
    """The faults of a file that is to be imported into the class; none where the program takes it. Raises OSError."""
    if path.stat().st_size > FILE_LIMIT:
        yield Cause(1, 0, f"the file has more than {FILE_LIMIT:,} bytes")
        return
    with path.open("rb") as stream:
        yield from check_rows(read_rows(stream), its_class, schema)


def object_names(path: Path) -> Iterator[str]:
    """The names of the objects in a file that the program takes. Raises OSError."""
    with path.open("rb") as stream:
        for row in islice(read_rows(stream), 1, None):
            yield row.fields[0]


def check_rows(rows: Iterator[Row], its_class: ObjectClass, schema: Schema) -> Iterator[Cause]:
    """The faults of rows, the first of which has the columns."""
    header = next(rows, None)
    if header is None:
        yield Cause(1, 0, "the file is empty: its first row has the columns, `name` and then attributes")
        return
    forms = columns_of(its_class)
    yield from _header_causes(header, its_class, forms)
    names = _Names(its_class, schema, header.fields[1:])
    for row in rows:
        if len(row.fields) != len(header.fields):
            count = len(header.fields)
            yield Cause(row.line, 0, f"the row has {len(row.fields)} fields, and the first row has {count}")
            continue
        yield from names.causes(row)
        for column, (title, field) in enumerate(zip(header.fields[1:], row.fields[1:]), 2):
            message = field_fault(forms.get(title), field)
            if message:
                yield Cause(row.line, column, message)


# ---- The first row


def _header_causes(header: Row, its_class: ObjectClass, forms: dict[str, Form]) -> Iterator[Cause]:
    fields = header.fields
    if fields[0] != NAME:
        yield Cause(header.line, 1, _first_column_fault(fields))
    for column, title in enumerate(fields[1:], 2):
        if title in fields[1 : column - 1]:
            yield Cause(header.line, column, f"the column {title} is given twice")
        elif title not in forms and (title != NAME or fields[0] == NAME):
            yield Cause(header.line, column, _column_fault(title, its_class, forms))


def _first_column_fault(fields: Sequence[str]) -> str:
    if len(fields) == 1 and re.search(r"[;\t|]", fields[0]):
        return "this is one field: fields are separated by commas"
    if is_index(fields[0]):
        return "this column has no name, as one of row numbers: the first column is `name`"
    if NAME in fields:
        return f"the first column is `name`, which stands in column {fields.index(NAME) + 1}"
    return f"the first column is `name`, and this is {shown(fields[0])}"


def is_index(title: str) -> bool:
    """Whether a column is one of row numbers, as a data frame writes it."""
    return title.strip() in ("", "index") or title.startswith("Unnamed")


def _column_fault(title: str, its_class: ObjectClass, forms: dict[str, Form]) -> str:
    rate = rate_meant(title, forms)
    if rate:
        return f"there is no attribute {title}; the slope of {rate.removesuffix(RATE)} is the column {rate}"
    if title.endswith(RATE) and title.removesuffix(RATE) in forms:
        return f"{title.removesuffix(RATE)} isn't dynamic, so it has no column {title}"
    if title == NAME:
        return "the column name is given twice"
    meant = near(title, forms)
    likely = f"; {' or '.join(meant)}?" if meant else ""
    return f"{its_class.name} has no attribute {shown(title)}{likely}"


def rate_meant(title: str, forms: Iterable[str]) -> str:
    """The column of a slope that a title such as `vx` or `fuel_rate` means, empty where it means none."""
    wanted = title.strip().casefold()
    for column in forms:
        name = column.removesuffix(RATE).casefold()
        titles = (f"v{name}", f"v_{name}", f"{name}_rate", f"{name} rate", f"{name}.rate")
        if column.endswith(RATE) and wanted in titles:
            return column
    return ""


# ---- Fields


class _Names:
    """Judges the names of rows, each after those before it: their form, their class, and whether there is room."""

    def __init__(self, its_class: ObjectClass, schema: Schema, titles: Sequence[str]) -> None:
        self._class = its_class
        self._schema = schema
        self._titles = titles
        self._left = JOURNAL_ENTRIES - schema.entries
        self._new: set[str] = set()

    def causes(self, row: Row) -> Iterator[Cause]:
        """What there is to say of the name of a row."""
        name = row.fields[0]
        known = self._schema.objects.get(name)
        message = name_fault(name) or self._room_fault(name, known)
        if message:
            yield Cause(row.line, 1, message)
        elif known and known.class_name != self._class.name:
            yield self._of_another_class(row, known)

    def _room_fault(self, name: str, known: Object | None) -> str:
        self._left -= 1
        if self._left < 0:
            return f"the journal has no room for more than {JOURNAL_ENTRIES:,} commands"
        if not known:
            self._new.add(name)
        if self._class.names + len(self._new) <= self._class.capacity:
            return ""
        self._new.discard(name)
        return f"{name} is one name more than the capacity of {self._class.name}, {self._class.capacity:,}"

    def _of_another_class(self, row: Row, known: Object) -> Cause:
        """A present object is updated whatever its class is, where that one has the attributes as well."""
        forms = columns_of(self._schema.classes[known.class_name])
        mine = columns_of(self._class)
        is_taken = known.is_present and all(mine.get(title) == forms.get(title) for title in self._titles)
        what = "the row is an update of it" if is_taken else f"not of {self._class.name}"
        return Cause(row.line, 1, f"{known.name} is an object of {known.class_name}, {what}", is_taken)


def name_fault(field: str) -> str:
    """Why a field is no name of an object, empty where it is one."""
    if not field:
        return "the name is empty"
    if field in RESERVED:
        return f"{field} is a reserved word, which is no name"
    if len(field) > NAME_LIMIT:
        return f"the name has {len(field)} bytes, and at most {NAME_LIMIT} are allowed"
    if _PLAIN_NAME.fullmatch(field):
        return ""
    if field[0].isdigit() and field.isascii():
        return f"{shown(field)} is no name: a name begins with a letter or _"
    return f"{shown(field)} is no name: a name has letters, digits and _ alone"


def field_fault(form: Form | None, field: str) -> str:
    """Why a field isn't of the form, empty where it is, and where the column isn't known."""
    if form is None:
        return ""
    return _text_fault(field) if form == "text" else _number_fault(form, field)


def _text_fault(field: str) -> str:
    if len(field) > NAME_LIMIT:
        return f"the text has {len(field)} bytes, and at most {NAME_LIMIT} are allowed"
    if '"' in field:
        return "a text has no quotes in it"
    other = re.search(r"[^ -~]", field)
    return f"the byte 0x{ord(other.group()):02X} is no printable ASCII" if other else ""


def _number_fault(form: Form, field: str) -> str:
    size = thousandths(field.removeprefix("-"))
    if size is not None and size <= LIMITS[form]:
        return ""
    limit = f"at most {LIMITS[form] // 1000:,} is allowed"
    if size is not None:
        return f"{field} is out of range: {limit}"
    if field.strip().casefold() in NOTHING:
        return f"{shown(field)} is no number" if field else "the number is missing"
    if _SCIENTIFIC.fullmatch(field):
        return f"{field} is no number without an exponent"
    if field.startswith("+"):
        return f"{shown(field)} has a + before it"
    parts = _DECIMAL.fullmatch(field)
    if parts and len(parts[2] or "") > 3:
        return f"{shown(field)} has more than three decimals"
    if parts:
        return f"{shown(field)} has more than ten digits before the point"
    return f"{shown(field)} is no number"


def shown(field: str) -> str:
    """A field as it is told: short, on one line, and as text where its bytes are UTF-8."""
    try:
        text = field.encode("latin-1").decode("utf-8")
    except UnicodeError:
        text = field
    text = "".join(each if each.isprintable() else "?" for each in text)
    return text if len(text) <= 60 else text[:57] + "..."
