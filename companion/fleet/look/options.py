"""The options that several kinds of pictures have, what they read, and where they are written."""

import argparse
import shutil
import sys
from pathlib import Path

from fleet.look import chart
from fleet.look.chart import MOST_ROWS, Chart
from fleet.options import whole
from fleet.serve.closed import open_session
from fleet.words import FILE_LIMIT, TICK_LIMIT

SVG_WIDTH, LEAST_WIDTH, MOST_WIDTH = 900, 300, 10_000
"""The pixels of a picture that isn't given its width, and the least and the most that may be given."""
TEXT_WIDTH = 100
"""The characters of a line where no terminal is written to."""
STANDARD = "-"
MOST_TICKS = 1_000_000
"""How many ticks before or after the one that is drawn may be drawn with it."""

tick = whole(0, TICK_LIMIT)
"""A tick, as an option gives it."""


def add_session(parser: argparse.ArgumentParser) -> None:
    """Adds the name of the session that is drawn."""
    parser.add_argument(
        "session", metavar="SESSION",
        help="the file of the saved session, the folder of a server's log, or `-` for standard input",
    )  # fmt: skip


def add_ways(parser: argparse.ArgumentParser, *, ahead: int, back: int) -> None:
    """Adds the options of how far ways and trails go, and how far they go without them."""
    parser.add_argument(
        "--ahead", metavar="TICKS", type=whole(0, MOST_TICKS), default=ahead,
        help=f"the ticks for which it is drawn where the objects go ({ahead})",
    )  # fmt: skip
    parser.add_argument(
        "--back", metavar="TICKS", type=whole(0, MOST_TICKS), default=back,
        help=f"the ticks for which it is drawn where they were ({back})",
    )  # fmt: skip


def add_output(parser: argparse.ArgumentParser) -> None:
    """Adds the option that names the file that is written."""
    parser.add_argument("-o", "--output", metavar="FILE", default=STANDARD, help="the file to write (standard output)")


def add_width(parser: argparse.ArgumentParser, more: str = "") -> None:
    """Adds the option of the width; `more` tells what it is where no SVG is written."""
    parser.add_argument(
        "--width", metavar="NUMBER", type=whole(20, MOST_WIDTH),
        help=f"pixels of the SVG ({SVG_WIDTH}){more}",
    )  # fmt: skip


def add_form(parser: argparse.ArgumentParser) -> None:
    """Adds the options that say how a chart is drawn."""
    forms = parser.add_mutually_exclusive_group()
    forms.add_argument("--svg", action="store_true", help="write an SVG file (the default for a file of that name)")
    forms.add_argument("--text", action="store_true", help="write characters (the default otherwise)")
    parser.add_argument("--from", metavar="TICK", type=tick, dest="first", help="the first tick of the axis")
    parser.add_argument("--to", metavar="TICK", type=tick, dest="last", help="the last tick of the axis")
    parser.add_argument(
        "--rows", metavar="NUMBER", type=whole(1, 100_000), default=MOST_ROWS,
        help=f"the most rows of an answer that are drawn ({MOST_ROWS})",
    )  # fmt: skip
    add_width(parser, f", or characters of a line (as the terminal has, or {TEXT_WIDTH})")


def svg_width(arguments: argparse.Namespace) -> int:
    """The pixels of a picture."""
    return max(arguments.width or SVG_WIDTH, LEAST_WIDTH)


def read_input(name: str) -> tuple[bytes, str]:
    """The bytes of a file or of standard input, and the name that is told of it. Raises OSError."""
    if name == STANDARD:
        return sys.stdin.buffer.read(FILE_LIMIT), "standard input"
    with open_session(Path(name)) as text:
        return text.read(), Path(name).name


def write_output(text: str, name: str) -> None:
    """Writes a file, or to standard output. Raises OSError."""
    sent = text.encode("utf-8", "replace")
    if name == STANDARD:
        sys.stdout.buffer.write(sent)
        sys.stdout.buffer.flush()
    else:
        Path(name).write_bytes(sent)


def write_chart(made: Chart, arguments: argparse.Namespace) -> None:
    """Writes a chart in the form that is asked for."""
    if arguments.svg or (arguments.output.endswith(".svg") and not arguments.text):
        text = chart.svg_of(made, svg_width(arguments))
    else:
        columns = shutil.get_terminal_size().columns if sys.stdout.isatty() else TEXT_WIDTH
        text = chart.text_of(made, arguments.width or columns)
    write_output(text, arguments.output)
