"""How the ways out write degrees, speeds and courses."""

from fleet.ways.commands import Place
from fleet.ways.measures import SECOND
from fleet.ways.projection import Projection

DECIMALS = 9
"""The decimals of degrees: a tenth of a millimetre."""
_MOTION_DECIMALS = 6


def degrees(point: tuple[float, float]) -> tuple[float, float]:
    """A longitude and latitude, rounded."""
    return round(point[0], DECIMALS), round(point[1], DECIMALS)


def motion_texts(projection: Projection, place: Place, along: Place, length: int) -> tuple[str, str]:
    """The speed in metres a second and the course in degrees, of slopes at a place and a tick of so many microseconds.
    Raises Unfit."""
    speed, course = projection.speed_and_course(*place, along[0] / 1000, along[1] / 1000)
    return decimal_text(speed * SECOND / length), decimal_text(course)


def decimal_text(number: float, decimals: int = _MOTION_DECIMALS) -> str:
    """A number with some decimals at most, and without an exponent."""
    text = f"{number:.{decimals}f}".rstrip("0").rstrip(".")
    return "0" if text in ("-0", "") else text
