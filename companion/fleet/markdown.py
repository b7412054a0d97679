"""Markdown on a terminal."""

import itertools
import re

from rich import box
from rich.console import Console
from rich.markdown import Markdown
from rich.table import Table

_CELL_END = re.compile(r"(?<!\\)\|")


def print_markdown(text: str) -> None:
    """Writes markdown to the terminal. Tables are laid out here, since the library's markdown has none."""
    console = Console(markup=False, highlight=False)
    for is_table, lines in itertools.groupby(text.splitlines(), lambda line: line.startswith("|")):
        if is_table:
            console.print(_table([_CELL_END.split(line.strip("|")) for line in lines]))
        else:
            console.print(Markdown("\n".join(lines)))


def _table(rows: list[list[str]]) -> Table:
    head, _, *others = [[cell.strip().replace("`", "").replace("\\|", "|") for cell in row] for row in rows]
    table = Table(*head, show_header=any(head), box=box.SIMPLE)
    for row in others:
        table.add_row(*row)
    return table
