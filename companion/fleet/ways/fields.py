"""Which column of a file, or which property of a feature, says what."""

import argparse
import re
from collections.abc import Collection, Iterable, Mapping
from dataclasses import dataclass
from decimal import Decimal
from typing import NamedTuple

from fleet.csvs import RATE, columns_of, field_fault, shown
from fleet.errors import FleetError
from fleet.hints import near
from fleet.present import number_text
from fleet.schema import ObjectClass
from fleet.ways.faults import Unfit
from fleet.ways.measures import SLOPE_LIMIT, SPEED_UNITS, TIME_UNITS, moment, number, thousandths

PARTS = ("id", "lon", "lat", "time", "speed", "course")
"""What is read of each object, besides its attributes."""
MOTION = ("speed", "course")
OTHER_TITLES = {"id": "name"}
"""A second title by which a part is known where no column has the first."""
PLACE = ("x", "y")
UNITS: Mapping[str, Decimal] = {**SPEED_UNITS, **TIME_UNITS}


class BadColumns(FleetError):
    """A column that is needed or named isn't there."""


class Told(NamedTuple):
    """A time in microseconds, a speed in metres a second and a course in degrees, where they are told."""

    time: int | None = None
    speed: float | None = None
    course: float | None = None


@dataclass(frozen=True, slots=True)
class Columns:
    """The titles that options give to parts and to attributes, and the units of columns by their titles."""

    parts: Mapping[str, str]
    attributes: Mapping[str, str]
    units: Mapping[str, Decimal]

    @classmethod
    def of(cls, arguments: argparse.Namespace) -> "Columns":
        """That of the options of `add_column_arguments`."""
        return cls(dict(arguments.column), dict(arguments.attribute), dict(arguments.unit))

    def check(self, titles: Collection[str]) -> None:
        """Raises BadColumns where an option names a title that isn't there, or a speed without a course."""
        for title in (*self.parts.values(), *self.attributes.values(), *self.units):
            if title not in titles:
                meant = near(title, titles)
                likely = f"; {' or '.join(meant)}?" if meant else ""
                raise BadColumns(f"there is no column {shown(title)}{likely}")
        for part, other in (MOTION, MOTION[::-1]):
            if part in self.parts and self._title(other, titles) is None:
                raise BadColumns(f"there is a {part} and no {other}: a motion is both")

    def part_titles(self, titles: Collection[str]) -> dict[str, str]:
        """The titles of the parts that are there: that of the option, else the part's own, in any case of letters.

        A speed counts only where there is a course, and the other way round.
        """
        found = {part: title for part in PARTS if (title := self._title(part, titles)) is not None}
        motion = [part for part in MOTION if part in found]
        if len(motion) == 1:
            del found[motion[0]]
        return found

    def _title(self, part: str, titles: Iterable[str]) -> str | None:
        if part in self.parts:
            return self.parts[part]
        by_case = {title.strip().casefold(): title for title in titles}
        return by_case.get(part) or by_case.get(OTHER_TITLES.get(part, part))

    def attribute_titles(
        self, its_class: ObjectClass, titles: Iterable[str], used: Iterable[str] = ()
    ) -> dict[str, str]:
        """The title of each attribute, and each slope, that the data says: that of the option, else its name where that
        isn't `used` for a part, else its name after that of the class and a point. The place and its motion aren't
        among them. Raises BadColumns."""
        wanted = [name for name in columns_of(its_class) if name.removesuffix(RATE) not in PLACE]
        unknown = [name for name in self.attributes if name not in wanted]
        if unknown:
            raise BadColumns(f"{its_class.name} has no attribute {unknown[0]} besides its place")
        left = set(titles) - set(used)
        found = {name: title for name in wanted for title in (f"{its_class.name}.{name}", name) if title in left}
        return found | dict(self.attributes)

    def number(self, title: str, text: str, part: str) -> Decimal:
        """The number of a column, in the unit that is calculated with. Raises Unfit."""
        return number(text, part) * self.units.get(title, Decimal(1))

    def told(self, parts: Mapping[str, str], texts: Mapping[str, str]) -> Told:
        """When and how fast, by the titles of parts and the texts of columns. Raises Unfit."""
        time = speed = course = None
        if "time" in parts:
            time = moment(texts[parts["time"]], self.units.get(parts["time"], Decimal(1)))
        if "speed" in parts and texts[parts["speed"]].strip():
            speed = float(self.number(parts["speed"], texts[parts["speed"]], "speed"))
            if speed < 0:
                raise Unfit("the speed is below 0", "speed")
            course = float(self.number(parts["course"], texts[parts["course"]], "course")) if speed else 0.0
        return Told(time, speed, course)

    def settings(
        self, its_class: ObjectClass, titles: Mapping[str, str], texts: Mapping[str, str]
    ) -> list[str]:
        """What is set of each attribute, as parts of a command, by the titles of attributes and the texts of columns.
        An empty one sets nothing. Raises Unfit, whose field is the title."""
        written: dict[str, list[str]] = {}
        for name, form in columns_of(its_class).items():
            title = titles.get(name, "")
            text = texts.get(title, "")
            if title and text.strip():
                attribute = name.removesuffix(RATE) if form == "rate" else name
                written.setdefault(attribute, []).append(self._setting(form, title, text))
        return [" ".join([attribute, *parts]) for attribute, parts in written.items()]

    def _setting(self, form: str, title: str, text: str) -> str:
        if form == "text":
            fault = field_fault("text", text)
            if fault:
                raise Unfit(fault, title)
            return f'= "{text}"'
        value = self.number(title, text, title)
        if form == "rate":
            return f"rate {number_text(thousandths(value, title, SLOPE_LIMIT))}"
        return f"= {number_text(thousandths(value, title))}"


def add_column_arguments(parser: argparse._ActionsContainer, column: str) -> None:
    """Adds the options that say which column, or property, says what."""
    upper = column.upper()
    parser.add_argument(
        "--column", metavar=f"PART={upper}", type=_part, action="append", default=[],
        help=f"the {column} that says a part, which is one of {', '.join(PARTS)} (else the one of that name)",
    )  # fmt: skip
    parser.add_argument(
        "--attribute", metavar=f"NAME={upper}", type=_pair, action="append", default=[],
        help=f"the {column} that says an attribute of the class, or A.rate for the slope of a dynamic attribute A "
        "(else the one of that name)",
    )  # fmt: skip
    parser.add_argument(
        "--unit", metavar=f"{upper}=UNIT", type=_unit, action="append", default=[],
        help=f"in what a {column} is written: a speed in m/s (else), km/h, kn or mph; a time, where it is a number, in "
        "s (else) or ms since 1970; and any number by what it is to be multiplied with",
    )  # fmt: skip


def _pair(text: str) -> tuple[str, str]:
    name, _, title = text.partition("=")
    if not name or not title:
        raise argparse.ArgumentTypeError(f"{text} has no = between two names")
    return name, title


def _part(text: str) -> tuple[str, str]:
    name, title = _pair(text)
    if name not in PARTS:
        raise argparse.ArgumentTypeError(f"{name} is none of {', '.join(PARTS)}; attributes are named by --attribute")
    return name, title


def _unit(text: str) -> tuple[str, Decimal]:
    title, _, unit = text.rpartition("=")
    if not title:
        raise argparse.ArgumentTypeError(f"{text} has no = between a name and a unit")
    if unit in UNITS:
        return title, UNITS[unit]
    if not re.fullmatch(r"[0-9]+(?:\.[0-9]+)?(?:[eE][-+]?[0-9]{1,2})?", unit):
        raise argparse.ArgumentTypeError(f"{unit} is neither one of {', '.join(UNITS)} nor a number")
    return title, Decimal(unit)
