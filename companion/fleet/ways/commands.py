"""The commands that make or change an object, and the ticks between them."""

from collections.abc import Iterable, Sequence
from typing import NamedTuple

from fleet.errors import FleetError
from fleet.present import number_text
from fleet.schema import ObjectClass, Schema
from fleet.ways.faults import Unfit
from fleet.ways.identifiers import Names
from fleet.ways.measures import SLOPE_LIMIT
from fleet.words import JOURNAL_ENTRIES, TICK_LIMIT

LEG_LIMIT = 8
"""The most legs of a function, the one that never ends among them."""

Place = tuple[int, int]


class NoClass(FleetError):
    """It isn't known of which class the objects are."""


class Leg(NamedTuple):
    """Slopes along x and y, in thousandths a tick, and for how many ticks they hold."""

    along_x: int
    along_y: int
    ticks: int


class Move(NamedTuple):
    """Legs, and the slopes of the last one, which never ends."""

    legs: tuple[Leg, ...] = ()
    last: Place = (0, 0)

    def text(self) -> str:
        """It as a part of a command."""
        legs = [f"[{point_text((leg.along_x, leg.along_y))},{leg.ticks}]" for leg in self.legs]
        return " ".join(["move", *legs, point_text(self.last)])


REST = Move()


def point_text(place: Place) -> str:
    """A pair of thousandths as it is written in a command."""
    return f"({number_text(place[0])},{number_text(place[1])})"


def slope(size: float, field: str = "speed") -> int:
    """A slope rounded to thousandths a tick. Raises Unfit where it is larger than a slope may be."""
    whole = round(size)
    if abs(whole) > SLOPE_LIMIT:
        metres = abs(size) / 1000
        raise Unfit(f"it goes {metres:,.0f} metres a tick along one axis, and at most 1,000 are allowed", field)
    return whole


def class_of(name: str | None, schema: Schema) -> ObjectClass:
    """The class of that name, or the only one with a place. Raises NoClass."""
    point_classes = [each for each in schema.classes.values() if each.is_point]
    if name is None and len(point_classes) == 1:
        return point_classes[0]
    known = ", ".join(each.name for each in point_classes) or "none; --session or --schema tells them"
    if name is None:
        raise NoClass(f"--class says of which class the objects are; the classes with a place are: {known}")
    if name not in schema.classes or not schema.classes[name].is_point:
        raise NoClass(f"there is no class {name} with a place; these are: {known}")
    return schema.classes[name]


def written(beginning: str, place: Place | None, move: Move | None, settings: Iterable[str]) -> str:
    """The insert or update that begins so, and writes a place, a motion and settings."""
    parts = [beginning]
    if place is not None:
        parts.append(f"at {point_text(place)}")
    if move is not None and not (move == REST and beginning.startswith("insert")):
        parts.append(move.text())
    return " ".join([*parts, *settings])


class Writer:
    """Makes the commands of objects of a class, each after those before it: an insert where the object isn't present,
    else an update. The schema takes what is made."""

    def __init__(self, schema: Schema, its_class: ObjectClass, names: Names) -> None:
        self._schema = schema
        self._class = its_class
        self._names = names
        self._first = schema.clock

    def command(
        self, identifier: str, place: Place | None, move: Move | None = None, settings: Iterable[str] = ()
    ) -> str:
        """The command that writes a place, a motion and settings. Raises Unfit."""
        command = written(self._beginning(identifier), place, move, settings)
        self._schema.record(command)
        return command

    def ticks_to(self, tick: int) -> Sequence[str]:
        """The command that brings the clock to so many ticks after the first, none where it is there. Raises Unfit."""
        missing = self._first + tick - self._schema.clock
        if missing <= 0:
            return ()
        if self._first + tick > TICK_LIMIT:
            raise Unfit(f"the clock ends at {TICK_LIMIT:,}, and the time is {tick:,} ticks after the first", "time")
        self._check_journal()
        self._schema.record(f"tick {missing}")
        return (f"tick {missing}",)

    def _beginning(self, identifier: str) -> str:
        name = self._names.name(identifier)
        known = self._schema.objects.get(name)
        if known and known.class_name != self._class.name:
            raise Unfit(f"{name} is an object of {known.class_name}, and not of {self._class.name}", "id")
        if not known and self._class.names >= self._class.capacity:
            most = f"the capacity of {self._class.name}, {self._class.capacity:,}"
            raise Unfit(f"{name} is one name more than {most}", "id")
        self._check_journal()
        return f"update {name}" if known and known.is_present else f"insert {self._class.name} {name}"

    def _check_journal(self) -> None:
        if self._schema.entries >= JOURNAL_ENTRIES:
            raise Unfit(f"the journal has no room for more than {JOURNAL_ENTRIES:,} commands")
