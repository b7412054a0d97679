"""Numbers, units and times, from texts to the whole numbers that are calculated with."""

import argparse
import re
from collections.abc import Mapping
from datetime import UTC, datetime, timedelta
from decimal import Decimal, InvalidOperation

from fleet.csvs import NOTHING, shown
from fleet.present import VALUE_LIMIT
from fleet.ways.faults import Unfit

SECOND = 1_000_000
"""The microseconds of a second. Times are whole microseconds since the beginning of 1970, in UTC."""
SLOPE_LIMIT = 1_000_000
"""The largest slope of a command, in thousandths a tick."""
SPEED_UNITS: Mapping[str, Decimal] = {
    "m/s": Decimal(1),
    "km/h": 1 / Decimal("3.6"),
    "kn": Decimal(1852) / 3600,
    "mph": Decimal("0.44704"),
}
"""How many metres a second each unit of speed is."""
TIME_UNITS: Mapping[str, Decimal] = {"s": Decimal(1), "ms": Decimal("0.001")}
"""How many seconds each unit of a time is that is written as a number."""

_EPOCH = datetime(1970, 1, 1, tzinfo=UTC)
_DIGITS = re.compile(r"[-+]?[0-9]+(?:\.[0-9]*)?")


def number(text: str, field: str) -> Decimal:
    """The number that a text is. Raises Unfit."""
    if text.strip().casefold() in NOTHING:
        raise Unfit("the number is missing", field)
    try:
        found = Decimal(text.strip())
    except InvalidOperation:
        found = Decimal("NaN")
    if not found.is_finite() or abs(found.adjusted()) > 30:
        raise Unfit(f"{shown(text)} is no number", field)
    return found


def thousandths(value: Decimal, field: str, most: int = VALUE_LIMIT) -> int:
    """A number in thousandths, rounded. Raises Unfit where it is more than `most` of them."""
    whole = round(value * 1000)
    if abs(whole) > most:
        raise Unfit(f"{value:f} is out of range: at most {most // 1000:,} is allowed", field)
    return whole


def moment(text: str, unit: Decimal = Decimal(1), field: str = "time") -> int:
    """The time that a text is: a number of the unit in seconds since 1970, or as ISO 8601 writes it, where one without
    an offset is UTC. Raises Unfit."""
    stripped = text.strip()
    try:
        if _DIGITS.fullmatch(stripped):
            return micros(_EPOCH + timedelta(microseconds=round(Decimal(stripped) * unit * SECOND)))
        return micros(datetime.fromisoformat(stripped))
    except (ValueError, OverflowError, InvalidOperation):
        fault = f"{shown(text)} is no time, as 2024-06-07T08:00:00Z is" if stripped else "the time is missing"
        raise Unfit(fault, field) from None


def micros(time: datetime) -> int:
    """The microseconds since 1970 of a time; of one without an offset as UTC."""
    aware = time if time.tzinfo else time.replace(tzinfo=UTC)
    return (aware - _EPOCH) // timedelta(microseconds=1)


def moment_text(time: int) -> str:
    """A time as ISO 8601 writes it, in UTC. Raises OverflowError past the year 9999."""
    return (_EPOCH + timedelta(microseconds=time)).isoformat().replace("+00:00", "Z")


def moment_in(text: str) -> int:
    """A time that an option gives."""
    try:
        return moment(text)
    except Unfit as unfit:
        raise argparse.ArgumentTypeError(str(unfit)) from None


def tick_length(text: str) -> int:
    """The microseconds of a tick, of a number of seconds that an option gives."""
    try:
        length = round(number(text, "") * SECOND)
    except Unfit as unfit:
        raise argparse.ArgumentTypeError(str(unfit)) from None
    if not 1000 <= length <= 86_400 * SECOND:
        raise argparse.ArgumentTypeError(f"a tick has from 0.001 to 86400 seconds, and not {text}")
    return length
