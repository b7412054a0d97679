"""The names of objects and regions for ids that are no names, by a map that is kept in a file beside the data.

The file is csv with the columns `id` and `name`. It is read first, so an id has the same name in each run that uses it.
"""

import csv
import io
import re
import unicodedata
from collections.abc import Callable, Iterator
from pathlib import Path

from fleet.csvs import name_fault, read_rows, shown
from fleet.errors import FleetError
from fleet.session_text import write_whole
from fleet.ways.faults import Unfit
from fleet.words import NAME_LIMIT

COLUMNS = ["id", "name"]
MOST_ENDING = 5
"""The bytes that a name leaves free, for what distinguishes the parts of one region."""


class BadMap(FleetError):
    """The file of names isn't of its form."""


class Names:
    """Gives each id a name of its own: that of the map, else the id where it is a name, else a new one.

    `is_taken` says of a name whether something else has it already. Without a file an id that is no name is refused.
    Raises BadMap and OSError.
    """

    def __init__(self, path: Path | None, is_taken: Callable[[str], bool] = lambda name: False) -> None:
        self.path = path
        self.added = 0
        """How many names were added."""
        self._is_taken = is_taken
        self._names = _read(path) if path is not None and path.exists() else {}
        self._used = set(self._names.values())
        self._numbers: dict[str, int] = {}
        self._is_unwritten = False

    def name(self, identifier: str) -> str:
        """The name of an id. Raises Unfit where it has none and can't be given one."""
        if identifier in self._names:
            return self._names[identifier]
        fault = name_fault(identifier)
        if not fault and identifier not in self._used:
            return identifier
        _check(identifier)
        if self.path is None:
            raise Unfit(f"{fault or f'{identifier} is the name of another id'}; --names FILE keeps names for ids", "id")
        name = self._new(plain_name(identifier))
        self._names[identifier] = name
        self._used.add(name)
        self.added += 1
        self._is_unwritten = True
        return name

    def has(self, identifier: str) -> bool:
        """Whether an id has a name already, or is one."""
        return identifier in self._names or (not name_fault(identifier) and identifier not in self._used)

    def identifiers(self) -> dict[str, str]:
        """The ids of the names of the map, by name."""
        return {name: identifier for identifier, name in self._names.items()}

    def unwritten(self) -> bytes:
        """The text of the map where it has names that aren't written, which counts as written then; else nothing."""
        if self.path is None or not self._is_unwritten:
            return b""
        self._is_unwritten = False
        text = io.StringIO()
        csv.writer(text, lineterminator="\n").writerows([COLUMNS, *self._names.items()])
        return text.getvalue().encode("utf-8")

    def set_unwritten(self) -> None:
        """Takes over that what `unwritten` gave wasn't written."""
        self._is_unwritten = True

    def write(self) -> None:
        """Writes the map where it has names that aren't written. Raises OSError."""
        if self.path is not None and (text := self.unwritten()):
            write_whole(self.path, [text])

    def _new(self, base: str) -> str:
        """The base, or the first of the base with a number that is free."""
        number = self._numbers.get(base, 1)
        name = base if number == 1 else with_ending(base, f"_{number}")
        while name in self._used or self._is_taken(name):
            number += 1
            name = with_ending(base, f"_{number}")
        self._numbers[base] = number
        return name


def _check(identifier: str) -> None:
    """Raises Unfit where an id can't be kept."""
    if not identifier.strip():
        raise Unfit("the id is empty", "id")
    try:
        identifier.encode("utf-8")
    except UnicodeEncodeError:
        raise Unfit("the id has half a character, which UTF-8 doesn't write", "id") from None


def plain_name(text: str) -> str:
    """A name that is most like a text: letters without accents, `_` for other signs, and `v_` before what begins with
    none of both. It leaves some bytes free."""
    parts = unicodedata.normalize("NFKD", text.strip().replace("ß", "ss"))
    ascii_text = "".join(each for each in parts if not unicodedata.combining(each)).encode("ascii", "replace").decode()
    base = re.sub(r"[^A-Za-z0-9_]", "_", ascii_text)[: NAME_LIMIT - MOST_ENDING]
    return f"v_{base}"[: NAME_LIMIT - MOST_ENDING] if name_fault(base) else base


def with_ending(base: str, ending: str) -> str:
    """The base, cut off where it must be, and the ending."""
    return base[: NAME_LIMIT - len(ending)] + ending


def _read(path: Path) -> dict[str, str]:
    names: dict[str, str] = {}
    used: set[str] = set()
    for line, identifier, name in _rows(path):
        if name_fault(name):
            raise BadMap(f"{path}:{line}:2: {name_fault(name)}")
        if identifier in names or name in used:
            raise BadMap(f"{path}:{line}: the id or the name stands in a row before")
        names[identifier] = name
        used.add(name)
    return names


def _rows(path: Path) -> Iterator[tuple[int, str, str]]:
    with path.open("rb") as stream:
        try:
            rows = read_rows(stream, "utf-8")
            header = next(rows, None)
            if header is None or header.fields != COLUMNS:
                raise BadMap(f"{path}:1: the first row of a file of names is id,name")
            for row in rows:
                if len(row.fields) != len(COLUMNS):
                    raise BadMap(f"{path}:{row.line}: {shown(','.join(row.fields))} isn't an id and a name")
                yield row.line, row.fields[0], row.fields[1]
        except UnicodeDecodeError:
            raise BadMap(f"{path}: the file isn't UTF-8") from None
