"""The names that a database has, by a record of the lines that it accepted.

The program's `list` tells neither attributes nor corners nor the text of a query, so they are kept here. What is
recorded must have been accepted: nothing is judged. Values and motions of objects aren't kept.
"""

import math
import re
from collections.abc import Iterable, Iterator
from dataclasses import dataclass, field
from pathlib import Path
from typing import Literal, Self, cast

from fleet.present import thousandths
from fleet.tokens import Token, tokens
from fleet.words import INDEX_TICKS, KEPT_COMMANDS

AttributeKind = Literal["num", "text", "dyn"]
QueryKind = Literal["watch", "keep"]

_FIRST_WORD = re.compile(rb"[ \t]*([a-z]+)")


@dataclass(slots=True)
class ObjectClass:
    """A class: its capacity, and its attributes with their kinds, of a point class `x` and `y` before the others.

    `names` counts the names that its objects have ever had.
    """

    name: str
    capacity: int
    is_point: bool
    attributes: dict[str, AttributeKind]
    names: int = 0

    @property
    def columns(self) -> tuple[str, ...]:
        """The columns of its csv, but for `name`: a dynamic attribute has two."""
        pairs = ((name, f"{name}.rate") if kind == "dyn" else (name,) for name, kind in self.attributes.items())
        return tuple(column for pair in pairs for column in pair)


@dataclass(slots=True)
class Object:
    """An object of a class; one that was removed keeps its name and isn't present."""

    name: str
    class_name: str
    is_present: bool = True


@dataclass(frozen=True, slots=True)
class Region:
    """A region and its corners, in thousandths."""

    name: str
    corners: tuple[tuple[int, int], ...]


@dataclass(frozen=True, slots=True)
class Query:
    """A registered query: its text from RETRIEVE on, the first and last tick of its window, targets and variables.

    `product` is the product of the capacities of its classes, by which it counts towards the limit of bindings.
    """

    name: str
    kind: QueryKind
    entry: int
    expiry: int
    text: str
    targets: tuple[str, ...]
    variables: tuple[tuple[str, str], ...]
    product: int


@dataclass(slots=True)
class Schema:
    """The clock and the names: classes, objects, regions and registered queries, each in the order of their making.

    `entries` counts the commands that the journal has. `indexes` has the last tick of the index of a class and an attribute;
    a saved session has none. What a line says of a name that isn't known here is passed over.
    """

    clock: int = 0
    entries: int = 0
    classes: dict[str, ObjectClass] = field(default_factory=dict)
    objects: dict[str, Object] = field(default_factory=dict)
    regions: dict[str, Region] = field(default_factory=dict)
    queries: dict[str, Query] = field(default_factory=dict)
    indexes: dict[tuple[str, str], int] = field(default_factory=dict)

    @classmethod
    def of_session(cls, path: Path) -> Self:
        """The names of a saved session, which must be one that the program loads. Raises OSError."""
        with path.open("rb") as text:
            return cls.of_lines(line.rstrip(b"\r\n") for line in text)

    @classmethod
    def of_lines(cls, lines: Iterable[str | bytes]) -> Self:
        """The names after lines that are accepted, one after the other, from an empty database on."""
        schema = cls()
        for line in lines:
            schema.record(line)
        return schema

    @property
    def product(self) -> int:
        """The sum of the products of the capacities of all registered queries."""
        return sum(query.product for query in self.queries.values())

    def record(self, line: str | bytes) -> None:
        """Takes a line that was accepted. The objects of an import are taken by `record_present`."""
        sent = line.encode("utf-8", "surrogateescape") if isinstance(line, str) else line
        match = _FIRST_WORD.match(sent)
        word = match.group(1).decode("ascii") if match else ""
        if word in KEPT_COMMANDS:
            self.entries += 1
        recorder = _RECORDERS.get(word)
        if recorder:
            recorder(self, tokens(sent.decode("ascii")), sent.decode("ascii"))

    def record_present(self, class_name: str, names: Iterable[str]) -> None:
        """Takes names of objects of the class that are present."""
        for name in names:
            self._insert(class_name, name)

    def record_rows(self, class_name: str, names: Iterable[str]) -> None:
        """Takes the names of the rows of an import into the class that was accepted, each an entry of the journal."""
        for name in names:
            self.entries += 1
            self._insert(class_name, name)

    def present(self, class_name: str | None = None) -> Iterator[Object]:
        """The objects that are present, of one class or of all."""
        for each in self.objects.values():
            if each.is_present and class_name in (None, each.class_name):
                yield each

    def attributes_of(self, name: str) -> dict[str, AttributeKind]:
        """The attributes of the class of the object, none where it isn't known."""
        known = self.objects.get(name)
        return self.classes[known.class_name].attributes if known else {}

    def product_of(self, class_names: Iterable[str]) -> int:
        """The product of the capacities of the classes."""
        return math.prod(self.classes[name].capacity for name in class_names if name in self.classes)

    def _insert(self, class_name: str, name: str) -> None:
        known = self.objects.get(name)
        if known:
            known.is_present = True
        elif class_name in self.classes:
            self.objects[name] = Object(name, class_name)
            self.classes[class_name].names += 1

    def _record_class(self, line: list[Token], text: str) -> None:
        texts = [token.text for token in line]
        is_point = texts[3:4] == ["point"]
        attributes: dict[str, AttributeKind] = {"x": "dyn", "y": "dyn"} if is_point else {}
        for name, kind in zip(texts[4:], texts[5:]):
            if kind in ("num", "text", "dyn"):
                attributes[name] = cast(AttributeKind, kind)
        self.classes[texts[1]] = ObjectClass(texts[1], int(texts[2]), is_point, attributes)

    def _record_region(self, line: list[Token], text: str) -> None:
        numbers = [
            thousandths(token.text) * (-1 if line[index - 1].text == "-" else 1)
            for index, token in enumerate(line)
            if token.kind == "number"
        ]
        corners = tuple(zip(numbers[::2], numbers[1::2], strict=True))
        self.regions[line[1].text] = Region(line[1].text, corners)

    def _record_insert(self, line: list[Token], text: str) -> None:
        self._insert(line[1].text, line[2].text)

    def _record_remove(self, line: list[Token], text: str) -> None:
        known = self.objects.get(line[1].text)
        if known:
            known.is_present = False

    def _record_tick(self, line: list[Token], text: str) -> None:
        self.clock += int(line[1].text)

    def _record_query(self, line: list[Token], text: str) -> None:
        kind, name, span = (token.text for token in line[:3])
        words = [token.text for token in line]
        first_from, first_where = words.index("FROM"), words.index("WHERE")
        targets = tuple(token.text for token in line[4:first_from] if token.kind == "name")
        names = [token.text for token in line[first_from:first_where] if token.kind == "name"]
        variables = tuple(zip(names[::2], names[1::2], strict=True))
        self.queries[name] = Query(
            name=name,
            kind=cast(QueryKind, kind),
            entry=self.clock,
            expiry=self.clock + int(span),
            text=text[line[3].at :].strip(),
            targets=targets,
            variables=variables,
            product=self.product_of(class_name for class_name, _ in variables),
        )

    def _record_drop(self, line: list[Token], text: str) -> None:
        self.queries.pop(line[1].text, None)

    def _record_index(self, line: list[Token], text: str) -> None:
        self.indexes[line[1].text, line[2].text] = self.clock + INDEX_TICKS - 1


_RECORDERS = {
    "class": Schema._record_class,
    "region": Schema._record_region,
    "insert": Schema._record_insert,
    "remove": Schema._record_remove,
    "tick": Schema._record_tick,
    "watch": Schema._record_query,
    "keep": Schema._record_query,
    "drop": Schema._record_drop,
    "index": Schema._record_index,
}


def listing(class_name: str) -> str:
    """The line that asks which objects of the class are present; it changes nothing."""
    return f"ask 0 RETRIEVE o FROM {class_name} o WHERE TRUE"
