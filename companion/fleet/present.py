"""The present state of a session, worked out from its commands, and the commands that make that state anew.

All numbers are whole thousandths, and times are ticks, as in the program. The commands are those of a journal: each was
accepted, so nothing is judged here again.
"""

import re
from collections.abc import Iterable, Iterator
from dataclasses import dataclass, field
from typing import NamedTuple

VALUE_LIMIT = 1_000_000_000_000
"""The largest value that a command can write, in thousandths."""

_PIECE = re.compile(r'"[^"]*"|[A-Za-z_][A-Za-z0-9_]*|[0-9]+(?:\.[0-9]+)?|<-|<=|>=|!=|[^ \t]')
_QUERY = re.compile(r"[ \t]*(watch|keep)[ \t]+([A-Za-z_][A-Za-z0-9_]*)[ \t]+([0-9]+)[ \t]*(RETRIEVE.*)", re.DOTALL)
_PLACE = ("x", "y")


class Function(NamedTuple):
    """Linear legs: the slopes of all but the last with their numbers of ticks, and the slope of the last, which never
    ends. Slopes are thousandths a tick."""

    legs: tuple[tuple[int, int], ...] = ()
    last: int = 0

    def rise(self, ticks: int) -> int:
        """How much it changes in its first ticks."""
        risen = 0
        for slope, length in self.legs:
            if ticks <= length:
                return risen + slope * ticks
            risen += slope * length
            ticks -= length
        return risen + self.last * ticks

    def after(self, ticks: int) -> "Function":
        """What is left of it after its first ticks."""
        for i, (slope, length) in enumerate(self.legs):
            if ticks < length:
                return Function(((slope, length - ticks), *self.legs[i + 1 :]), self.last)
            ticks -= length
        return Function((), self.last)


class Vector(NamedTuple):
    """A dynamic attribute: the value that was written at a tick, and the function that goes on from there."""

    value: int
    updatetime: int
    function: Function

    def at(self, tick: int) -> int:
        """The implied value at a tick that isn't before the update."""
        return self.value + self.function.rise(tick - self.updatetime)


Cell = int | str | Vector
"""An attribute of an object: a number, a text without its quotes, or a dynamic attribute."""


class Given(NamedTuple):
    """What a command writes of one attribute; None is what it doesn't name."""

    value: int | str | None = None
    function: Function | None = None


@dataclass(slots=True)
class ClassOf:
    """A class; `attributes` has the kinds of those that are written, `num`, `text` or `dyn`, in their order."""

    name: str
    capacity: int
    is_point: bool
    attributes: dict[str, str]

    def kinds(self) -> dict[str, str]:
        """The kinds of all attributes, the coordinates before the others."""
        return (dict.fromkeys(_PLACE, "dyn") if self.is_point else {}) | self.attributes

    def command(self) -> str:
        point = " point" if self.is_point else ""
        attributes = ",".join(f"{name} {kind}" for name, kind in self.attributes.items())
        return f"class {self.name} {self.capacity}{point}" + (f" ({attributes})" if attributes else "")


@dataclass(slots=True)
class ObjectOf:
    """An object; where it isn't present, its cells are those that it had last."""

    name: str
    of: str
    is_present: bool = True
    cells: dict[str, Cell] = field(default_factory=dict)


@dataclass(slots=True)
class QueryOf:
    """A registered query; `text` begins with RETRIEVE."""

    kind: str
    name: str
    entry: int
    expiry: int
    text: str

    def variables(self) -> dict[str, str]:
        """The class of each variable of FROM."""
        words = pieces(self.text)
        parts = words[words.index("FROM") + 1 : words.index("WHERE")]
        return {variable: name for name, variable in zip(parts[::3], parts[1::3])}

    def regions(self) -> set[str]:
        """The regions that it names."""
        words = pieces(self.text)
        return {words[i + 4] for i, word in enumerate(words) if word in ("INSIDE", "OUTSIDE")}

    def attributes(self) -> set[tuple[str, str]]:
        """The attributes that it names, each with its class."""
        words, variables = pieces(self.text), self.variables()
        places = [i for i, word in enumerate(words) if word == "." and words[i - 1] in variables]
        return {(variables[words[i - 1]], words[i + 1]) for i in places}


@dataclass(slots=True)
class Present:
    """Classes, regions, objects and registered queries, each in the order in which they were made; the clock; and how
    many commands led there.

    Removed objects are among the objects, since their names are still known. A region is kept as the text of its
    points.
    """

    classes: dict[str, ClassOf] = field(default_factory=dict)
    regions: dict[str, str] = field(default_factory=dict)
    objects: dict[str, ObjectOf] = field(default_factory=dict)
    queries: dict[str, QueryOf] = field(default_factory=dict)
    clock: int = 0
    count: int = 0

    @classmethod
    def after(cls, commands: Iterable[bytes]) -> "Present":
        """The state after accepted commands of a journal."""
        present = cls()
        for command in commands:
            present.take(command.decode("ascii"))
        return present

    def take(self, command: str) -> None:
        """Takes the next accepted command of the journal."""
        self.count += 1
        words = pieces(command)
        match words[0]:
            case "tick":
                self.clock += int(words[1])
            case "update":
                self._write(self.objects[words[1]], words[2:])
            case "insert":
                self._insert(words)
            case "remove":
                self.objects[words[1]].is_present = False
            case "class":
                self._add_class(words)
            case "region":
                self.regions[words[1]] = "".join(_point_texts(words[2:]))
            case "watch" | "keep":
                self._register(command)
            case "drop":
                del self.queries[words[1]]

    def _add_class(self, words: list[str]) -> None:
        is_point = words[3:4] == ["point"]
        attributes = words[5 if is_point else 4 : -1]
        kinds = dict(zip(attributes[::3], attributes[1::3]))
        self.classes[words[1]] = ClassOf(words[1], int(words[2]), is_point, kinds)

    def _insert(self, words: list[str]) -> None:
        there = self.objects.setdefault(words[2], ObjectOf(words[2], words[1]))
        there.is_present = True
        there.cells = {name: self.fresh(kind) for name, kind in self.classes[words[1]].kinds().items()}
        self._write(there, words[3:])

    def fresh(self, kind: str) -> Cell:
        """What an attribute of the kind is that was never written, in an object that is inserted now."""
        if kind == "dyn":
            return Vector(0, self.clock, Function())
        return "" if kind == "text" else 0

    def _write(self, there: ObjectOf, words: list[str]) -> None:
        for name, given in _settings(words):
            there.cells[name] = self._written(there.cells[name], given)

    def _written(self, cell: Cell, given: Given) -> Cell:
        if not isinstance(cell, Vector):
            assert given.value is not None
            return given.value
        value = cell.at(self.clock) if given.value is None else given.value
        function = given.function or cell.function.after(self.clock - cell.updatetime)
        assert isinstance(value, int)
        return Vector(value, self.clock, function)

    def _register(self, command: str) -> None:
        match = _QUERY.fullmatch(command)
        assert match is not None
        kind, name, span, text = match.groups()
        self.queries[name] = QueryOf(kind, name, self.clock, self.clock + int(span), text)

    def present_objects(self) -> list[ObjectOf]:
        """The objects that are present, in the order of first insertion."""
        return [there for there in self.objects.values() if there.is_present]

    def commands(self) -> Iterator[str]:
        """The commands, each by its canonical line, that make this state anew from nothing.

        The classes and regions, the present objects with the values, the functions and the update times that they have,
        the clock, and the queries that haven't expired. Names of removed objects are left out. A query is registered at
        the clock, for the ticks that are left of its span, so it has no past.
        """
        yield from (each.command() for each in self.classes.values())
        yield from (f"region {name} {points}" for name, points in self.regions.items())
        yield from _writes(self)
        for query in self.queries.values():
            if query.expiry >= self.clock:
                yield f"{query.kind} {query.name} {query.expiry - self.clock} {query.text}"


def pieces(text: str) -> list[str]:
    """The tokens of a command that the program has accepted."""
    return _PIECE.findall(text)


def thousandths(text: str) -> int:
    """The thousandths of a number without a sign."""
    whole, point, part = text.partition(".")
    return int(whole) * 1000 + int(part.ljust(3, "0")) if point else int(whole) * 1000


def number_text(number: int) -> str:
    """The canonical text of a number of thousandths."""
    whole, part = divmod(abs(number), 1000)
    sign = "-" if number < 0 else ""
    return f"{sign}{whole}.{part:03}".rstrip("0") if part else f"{sign}{whole}"


class _Reader:
    """Reads the settings of a command from its words."""

    def __init__(self, words: list[str]) -> None:
        self._words = [*words, ""]
        self._at = 0

    def take(self) -> str:
        self._at += 1
        return self._words[self._at - 1]

    def takes(self, wanted: str) -> bool:
        """Takes the next word where it is the wanted one."""
        if self._words[self._at] != wanted:
            return False
        self._at += 1
        return True

    def has_more(self) -> bool:
        return self._words[self._at] != ""

    def value(self) -> int | str:
        """A number, or a text without its quotes."""
        return self.take()[1:-1] if self._words[self._at].startswith('"') else self.number()

    def number(self) -> int:
        word = self.take()
        return -thousandths(self.take()) if word == "-" else thousandths(word)

    def point(self) -> tuple[int, int]:
        self._at += 1  # the bracket
        x = self.number()
        self._at += 1  # the comma
        y = self.number()
        self._at += 1  # the bracket
        return x, y

    def rates(self) -> Function:
        legs = []
        while self.takes("["):
            slope = self.number()
            self._at += 1  # the comma
            legs.append((slope, int(self.take())))
            self._at += 1  # the bracket
        return Function(tuple(legs), self.number())

    def moves(self) -> tuple[Function, Function]:
        legs = []
        while self.takes("["):
            slopes = self.point()
            self._at += 1  # the comma
            legs.append((slopes, int(self.take())))
            self._at += 1  # the bracket
        last = self.point()
        along_x = Function(tuple((slopes[0], ticks) for slopes, ticks in legs), last[0])
        along_y = Function(tuple((slopes[1], ticks) for slopes, ticks in legs), last[1])
        return along_x, along_y


def _settings(words: list[str]) -> Iterator[tuple[str, Given]]:
    """What the words after the object's name write, attribute by attribute."""
    if not words:
        return
    reader = _Reader(words)
    at = reader.point() if reader.takes("at") else (None, None)
    move = reader.moves() if reader.takes("move") else (None, None)
    for name, value, function in zip(_PLACE, at, move):
        if value is not None or function is not None:
            yield name, Given(value, function)
    while reader.has_more():
        name = reader.take()
        written = reader.value() if reader.takes("=") else None
        yield name, Given(written, reader.rates() if reader.takes("rate") else None)


def _point_texts(words: list[str]) -> Iterator[str]:
    reader = _Reader(words)
    separator = ""
    while reader.has_more():
        yield separator + _pair(reader.point())
        separator = " "


def _pair(point: tuple[int, int]) -> str:
    return f"({number_text(point[0])},{number_text(point[1])})"


def _writes(present: Present) -> Iterator[str]:
    """The commands that make the objects, with the ticks between them, up to the clock."""
    at_ticks: dict[int, list[str]] = {}
    objects = present.present_objects()
    for there, tick in zip(objects, _insert_ticks(objects, present.clock)):
        for when, command in _writes_of(there, present.classes[there.of], tick):
            at_ticks.setdefault(when, []).append(command)
    clock = 0
    for tick in sorted({*at_ticks, present.clock}):
        if tick > clock:
            yield f"tick {tick - clock}"
            clock = tick
        yield from at_ticks.get(tick, ())


def _insert_ticks(objects: list[ObjectOf], clock: int) -> list[int]:
    """The tick at which each object is inserted: the latest that is before none of its updates and keeps the order of
    first insertion of its class."""
    least: dict[str, int] = {}
    ticks = []
    for there in reversed(objects):
        least[there.of] = min(least.get(there.of, clock), _first_tick(there, clock))
        ticks.append(least[there.of])
    return ticks[::-1]


def _first_tick(there: ObjectOf, clock: int) -> int:
    vectors = [cell for cell in there.cells.values() if isinstance(cell, Vector)]
    if any(abs(vector.value) > VALUE_LIMIT for vector in vectors):
        return 0
    return min((vector.updatetime for vector in vectors), default=clock)


def _writes_of(there: ObjectOf, of: ClassOf, inserted: int) -> Iterator[tuple[int, str]]:
    """The commands that insert one object and write its attributes, each with its tick."""
    at_ticks: dict[int, dict[str, Given]] = {inserted: {}}
    for name in of.kinds():
        cell = there.cells[name]
        if not isinstance(cell, Vector):
            at_ticks[inserted][name] = Given(cell)
        elif abs(cell.value) <= VALUE_LIMIT:
            at_ticks.setdefault(cell.updatetime, {})[name] = Given(cell.value, cell.function)
        else:
            at_ticks[inserted][name] = _way_to(cell)
            at_ticks.setdefault(cell.updatetime, {})[name] = Given(None, cell.function)
    first = {name: given for name, given in at_ticks.pop(inserted).items() if not _is_fresh(given)}
    yield inserted, f"insert {of.name} {there.name}" + _settings_text(first, of, is_insert=True)
    for tick, givens in at_ticks.items():
        yield tick, f"update {there.name}" + _settings_text(givens, of, is_insert=False)


def _way_to(vector: Vector) -> Given:
    """What is written at tick 0 so that the value, which no command can write, is implied at its update.

    A value passes the limit by at most the largest slope for each tick up to its update, so at most two slopes that
    differ by one thousandth lead there.
    """
    sign = -1 if vector.value < 0 else 1
    slope, more = divmod(abs(vector.value) - VALUE_LIMIT, vector.updatetime)
    legs = ((sign * (slope + 1), more),) if more else ()
    return Given(sign * VALUE_LIMIT, Function(legs, sign * slope))


def _is_fresh(given: Given) -> bool:
    """Whether it is what an insert sets of an attribute that it doesn't name."""
    return given.value in (0, "") and given.function in (None, Function())


def _settings_text(givens: dict[str, Given], of: ClassOf, *, is_insert: bool) -> str:
    """The text of what is written, with a space before each part."""
    parts: list[str] = []
    left = dict(givens)
    if of.is_point:
        x, y = (left.get(name, Given(0, Function()) if is_insert else Given()) for name in _PLACE)
        if (left.keys() & set(_PLACE)) and _go_together(x, y):
            parts += _place_text(x, y, is_insert)
            left = {name: given for name, given in left.items() if name not in _PLACE}
    parts += [_setting_text(name, given) for name, given in left.items()]
    return "".join(f" {part}" for part in parts)


def _go_together(x: Given, y: Given) -> bool:
    """Whether `at` and `move` can write both coordinates."""
    if x.function is None or y.function is None or (x.value is None) != (y.value is None):
        return False
    return [ticks for _, ticks in x.function.legs] == [ticks for _, ticks in y.function.legs]


def _place_text(x: Given, y: Given, is_insert: bool) -> Iterator[str]:
    if isinstance(x.value, int) and isinstance(y.value, int) and (not is_insert or x.value or y.value):
        yield f"at {_pair((x.value, y.value))}"
    assert x.function is not None and y.function is not None
    if is_insert and x.function == y.function == Function():
        return
    legs = [
        f"[{_pair((slope_x, slope_y))},{ticks}] "
        for (slope_x, ticks), (slope_y, _) in zip(x.function.legs, y.function.legs)
    ]
    yield f"move {''.join(legs)}{_pair((x.function.last, y.function.last))}"


def _setting_text(name: str, given: Given) -> str:
    text = name
    if given.value is not None:
        text += f' = "{given.value}"' if isinstance(given.value, str) else f" = {number_text(given.value)}"
    if given.function is not None:
        legs = [f"[{number_text(slope)},{ticks}] " for slope, ticks in given.function.legs]
        text += f" rate {''.join(legs)}{number_text(given.function.last)}"
    return text
