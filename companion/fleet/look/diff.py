"""`fleet look diff`: what of one answer another one has gained and lost."""

import argparse
from collections.abc import Iterator

from fleet.errors import FleetError
from fleet.look.answers import Spans, Targets, common, difference, union
from fleet.look.chart import Bar, Group, Kind, Line
from fleet.look.options import add_form, add_output, read_input, write_chart
from fleet.look.reading import Answer, answers_in
from fleet.look.timeline import chart_of, spans_text

DESCRIPTION = """
Draws two answers over each other: what only A has is lost, and drawn by a dashed outline; what only B has is gained, and
drawn full; what both have is a low bar. A word stands beside each row. A and B are texts of replies, as for `timeline`;
where they have several answers, the first is compared with the first, and so on.
"""


class NotAlike(FleetError):
    """The texts have not as many answers."""


def add_arguments(parser: argparse.ArgumentParser) -> None:
    """Adds the options of the word."""
    parser.description = DESCRIPTION
    parser.add_argument("a", metavar="A", help="the file of the first answer, `-` for standard input")
    parser.add_argument("b", metavar="B", help="that of the second")
    parser.add_argument("--all", action="store_true", help="draw the rows too that are alike in both")
    add_form(parser)
    add_output(parser)


def main(arguments: argparse.Namespace) -> int:
    """Draws, and gives the exit status: 0 whether they differ or not."""
    (one, one_name), (other, other_name) = read_input(arguments.a), read_input(arguments.b)
    pairs = _paired(answers_in(one, one_name), answers_in(other, other_name), one_name, other_name)
    groups = [_group(before, after, arguments) for before, after in pairs]
    made = chart_of(f"From {one_name} to {other_name}", groups, arguments.first, arguments.last)
    write_chart(made, arguments)
    return 0


def _paired(one: list[Answer], other: list[Answer], one_name: str, other_name: str) -> Iterator[tuple[Answer, Answer]]:
    if len(one) != len(other):
        raise NotAlike(f"{one_name} has {_count(len(one))}, and {other_name} {_count(len(other))}")
    yield from zip(one, other)


def _count(answers: int) -> str:
    return "1 answer" if answers == 1 else f"{answers} answers"


def _group(before: Answer, after: Answer, arguments: argparse.Namespace) -> Group:
    one, other = _spans(before), _spans(after)
    lines = [_line(targets, one.get(targets, ()), other.get(targets, ())) for targets in {**one, **other}]
    shown = [line for line in lines if arguments.all or line.word != "same"]
    alike = len(lines) - len(shown)
    title = before.title if before.title == after.title else f"{before.title}, {after.title}"
    note = f"{alike} {'row' if alike == 1 else 'rows'} alike" if alike else ""
    return Group(title, note, tuple(shown[: arguments.rows]), after.clock, max(len(shown) - arguments.rows, 0))


def _spans(answer: Answer) -> dict[Targets, Spans]:
    return {row.objects: row.spans for row in answer.rows}


def _line(targets: Targets, one: Spans, other: Spans) -> Line:
    gained, lost = difference(other, one), difference(one, other)
    parts: list[tuple[Kind, Spans]] = [("kept", common(one, other)), ("lost", lost), ("gained", gained)]
    bars = tuple(Bar(first, last, kind) for kind, spans in parts for first, last in spans)
    told = [f"{kind} {spans_text(spans)}" for kind, spans in parts if spans]
    word = "gained" if not lost else "lost" if not gained else "changed"
    return Line(" ".join(targets), word if gained or lost else "same", bars, f"{' '.join(targets)} : {', '.join(told)}")
