"""`fleet look timeline`: the rows of answers as bars over the ticks."""

import argparse
from collections.abc import Iterable, Iterator
from io import BytesIO

from fleet.look.answers import Query, Spans, Targets, queries_of
from fleet.look.chart import Bar, Chart, Group, Line, ticks_of_axis
from fleet.look.history import NotThere, commands_in
from fleet.look.options import add_form, add_output, read_input, tick, write_chart
from fleet.look.reading import Answer, answers_in, is_session
from fleet.program import add_program_argument
from fleet.replies import When
from fleet.session_text import ticks_of

DESCRIPTION = """
Draws the rows of answers as bars. REPLY is the text of replies: as the program writes them, with the commands as
`fleet run --echo` writes them, or in lines of JSON. It may also be a saved session: then the rows of its registered
queries are drawn as the program tells them, with the ticks that have passed as they were told last.
What has passed is a low bar, what holds now a full one, and what comes an outlined one; a word stands beside each row.
"""


def add_arguments(parser: argparse.ArgumentParser) -> None:
    """Adds the options of the word."""
    parser.description = DESCRIPTION
    parser.add_argument("reply", metavar="REPLY", nargs="?", default="-", help="the file (standard input)")
    parser.add_argument(
        "--at", metavar="TICK", type=tick,
        help="the present tick, where the replies don't tell it; of a session the tick that is looked at (its clock)",
    )  # fmt: skip
    parser.add_argument(
        "--query", metavar="NAME", action="append", default=[], help="draw this query of a session alone"
    )
    add_form(parser)
    add_output(parser)
    add_program_argument(parser)


def main(arguments: argparse.Namespace) -> int:
    """Draws, and gives the exit status."""
    text, name = read_input(arguments.reply)
    if is_session(text):
        write_chart(_of_session(text, name, arguments), arguments)
    elif arguments.query:
        raise NotThere(f"--query names a query of a saved session, and {name} is none")
    else:
        write_chart(_of_answers(answers_in(text, name), name, arguments), arguments)
    return 0


def _of_answers(answers: list[Answer], name: str, arguments: argparse.Namespace) -> Chart:
    groups = []
    for answer in answers:
        clock = answer.clock if arguments.at is None else arguments.at
        rows = [(row.objects, row.when, row.spans) for row in answer.rows]
        groups.append(group_of(answer.title, "", rows, clock, arguments.rows))
    return chart_of(f"Answers of {name}", groups, arguments.first, arguments.last)


def _of_session(text: bytes, name: str, arguments: argparse.Namespace) -> Chart:
    commands = commands_in(BytesIO(text))
    at = sum(map(ticks_of, commands)) if arguments.at is None else arguments.at
    queries = [query for query in queries_of(commands, at, arguments.program) if query.is_there(at)]
    wanted = [query for query in queries if not arguments.query or query.name in arguments.query]
    missing = set(arguments.query) - {query.name for query in queries}
    if missing or not queries:
        what = f"query of the name {min(missing)}" if missing else "query"
        raise NotThere(f"no {what} is registered at tick {at}")
    groups = [group_of(query.name, note_of(query), _rows_at(query, at), at, arguments.rows) for query in wanted]
    return chart_of(f"{name} at tick {at}", groups, arguments.first, arguments.last)


def chart_of(title: str, groups: Iterable[Group], first: int | None, last: int | None) -> Chart:
    """A chart over the ticks that are given, or that its bars have."""
    groups = tuple(groups)
    spans = [(bar.first, bar.last) for group in groups for line in group.lines for bar in line.bars]
    return Chart(title, *ticks_of_axis(spans, [group.clock for group in groups], first, last), groups)


def note_of(query: Query) -> str:
    """What is told of a registered query beside its name."""
    return f"{query.kind} {query.entry}..{query.expiry}"


def _rows_at(query: Query, at: int) -> Iterator[tuple[Targets, When, Spans]]:
    for targets in query.rows:
        spans = query.spans_at(targets, at)
        if spans:
            yield targets, when_of(spans, at), spans


def when_of(spans: Spans, clock: int) -> When:
    """The word of a row: `now` where it has the present tick, else `later` where it has a later one, else `past`."""
    if any(first <= clock <= last for first, last in spans):
        return "now"
    return "later" if spans[-1][1] > clock else "past"


def spans_text(spans: Spans) -> str:
    """The spans as the program writes them."""
    return " ".join(f"{first}..{last}" for first, last in spans)


def group_of(
    title: str, note: str, rows: Iterable[tuple[Targets, When, Spans]], clock: int | None, most: int
) -> Group:
    """The rows of an answer, of which `most` are drawn."""
    lines = [
        Line(
            " ".join(targets), when, tuple(_bars(spans, when, clock)), f"{when} {' '.join(targets)} : {spans_text(spans)}",
            is_strong=when == "now",
        )
        for targets, when, spans in rows
    ]  # fmt: skip
    return Group(title, note, tuple(lines[:most]), clock, max(len(lines) - most, 0))


def _bars(spans: Spans, when: When, clock: int | None) -> Iterator[Bar]:
    for first, last in spans:
        if clock is None:
            yield Bar(first, last, when)
        elif first > clock:
            yield Bar(first, last, "later")
        else:
            if first < clock:
                yield Bar(first, min(last, clock - 1), "past")
            if last >= clock:
                yield Bar(clock, last, "now")
