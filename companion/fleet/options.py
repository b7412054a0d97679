"""What options of several commands take."""

import argparse
from collections.abc import Callable

from fleet.words import TICK_LIMIT


def whole(least: int, most: int, unit: str = "") -> Callable[[str], int]:
    """What makes a whole number between two others of the text of an option; `unit` names what it counts, if given."""
    counted = f"number of {unit}" if unit else "number"

    def number(text: str) -> int:
        if not (text.isascii() and text.isdecimal() and least <= int(text) <= most):
            raise argparse.ArgumentTypeError(f"{text} isn't a {counted} from {least:,} to {most:,}")
        return int(text)

    return number


port = whole(0, 65_535)
"""A port, as an option gives it; 0 stands for a free one."""
some_ticks = whole(1, TICK_LIMIT, "ticks")
"""How many ticks, as an option gives it."""
