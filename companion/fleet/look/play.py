"""`fleet look play`: one page in which a session plays, with its clock as a slider.

The page holds what happened, by ticks: the motions of each object, and the rows that the program told of each query. It
works out places between them, and nothing of a query. Its data is

    { clock, from, to, ahead, back, bounds, base,
      regions: [{ name, tick, points }], classes: [{ name, objects: [{ name, motions }] }],
      queries: [{ number, kind, name, entry, expiry, dropped,
                  rows: [{ targets, versions: [[tick, [[first, last], ..]], ..] }] }] }

with points in units and motions as motion.js has them. `bounds` is the rectangle with all that is there, or null; `base` is
what tiles.py has of a base map, where there is one.
"""

import argparse
from collections.abc import Iterator, Sequence
from io import BytesIO
from typing import Any

from fleet.look import tiles
from fleet.look.answers import Query, ask_at, queries_of
from fleet.look.history import Change, History, Region, commands_in
from fleet.look.options import add_output, add_session, add_ways, read_input, tick, write_output
from fleet.look.page import SCRIPTS, Parts, page
from fleet.program import add_program_argument
from fleet.words import TICK_LIMIT

DESCRIPTION = """
Writes one page, which opens in a browser without a server and without a network. In it the session plays: its clock is a
slider, by keys too; regions, objects, their trails and where they go by the motion that was known at each tick; and the
rows of the registered queries at each tick, as the program told them then.
"""
BACK, AHEAD, TRAIL = 3_600, 600, 60
"""How many ticks before and after the session's clock the page has, and how many a trail and a way have."""
ASKED = "asked"
"""What a query is named that isn't registered."""


def add_arguments(parser: argparse.ArgumentParser) -> None:
    """Adds the options of the word."""
    parser.description = DESCRIPTION
    add_session(parser)
    parser.add_argument(
        "--from", metavar="TICK", type=tick, dest="first", help=f"the first tick ({BACK:,} before the session's clock)"
    )
    parser.add_argument("--to", metavar="TICK", type=tick, dest="last", help=f"the last tick ({AHEAD} after the clock)")
    add_ways(parser, ahead=TRAIL, back=TRAIL)
    parser.add_argument(
        "--ask", metavar="TEXT",
        help="show the answer of this query too, which begins with RETRIEVE, asked at the session's clock",
    )  # fmt: skip
    tiles.add_arguments(parser)
    add_output(parser)
    add_program_argument(parser)


def main(arguments: argparse.Namespace) -> int:
    """Writes the page, and gives the exit status."""
    text, name = read_input(arguments.session)
    commands = commands_in(BytesIO(text))
    history = History.of(commands)
    last = min(history.clock + AHEAD, TICK_LIMIT) if arguments.last is None else arguments.last
    first = max(history.clock - BACK, 0) if arguments.first is None else arguments.first
    queries = queries_of(commands, history.clock, arguments.program)
    if arguments.ask:
        queries.append(_asked(commands, history.clock, arguments.ask, max(last, history.clock), arguments.program))
    data = data_of(history, queries, min(first, last), last, arguments.back, arguments.ahead)
    parts = Parts((*SCRIPTS, "start.js"))
    if arguments.tiles:
        data["base"] = tiles.base_of(arguments, text, name, data["bounds"])
        parts = parts_with_tiles(arguments.tiles)
    write_output(page(name, about(history), data, parts), arguments.output)
    return 0


def parts_with_tiles(address: str) -> Parts:
    """What the page is made of where it has a base map, with tiles of this address."""
    return Parts(
        (*SCRIPTS, "tiles.js", "start_tiles.js"), (tiles.leaflet("leaflet.css"),), (tiles.leaflet("leaflet.min.js"),),
        {"img-src": tiles.source_of(address)},
    )  # fmt: skip


def about(history: History) -> str:
    """What is told of a session beside its name."""
    counts = [f"{class_name} {len(history.tracks_of(class_name))}" for class_name in history.classes]
    return ", ".join([*counts, f"saved at tick {history.clock}"])


def _asked(commands: Sequence[bytes], clock: int, text: str, last: int, program: str | None) -> Query:
    query = Query(-1, "ask", ASKED, clock, last, text)
    for row in ask_at(commands, clock, f"ask {last - clock} {text}", program):
        query.take(clock, row.objects, row.spans)
    return query


def data_of(
    history: History, queries: Sequence[Query], first: int, last: int, back: int, ahead: int
) -> dict[str, Any]:
    """The data of the page."""
    return {
        "clock": history.clock, "from": first, "to": last, "ahead": ahead, "back": back,
        "bounds": _bounds(history, first, min(last, history.clock + ahead)),
        "regions": list(map(region_data, history.regions)),
        "classes": [
            {
                "name": class_name,
                "objects": [
                    {"name": track.name, "motions": [motion_of(change) for change in track.since(first)]}
                    for track in history.tracks_of(class_name)
                ],
            }
            for class_name in history.classes
        ],
        "queries": [query_data(query) for query in queries if query.dropped is None or query.dropped > first],
    }  # fmt: skip


def motion_of(change: Change) -> list[int]:
    """A change as motion.js has it."""
    if change.motion is None:
        return [change.tick]
    legs = [part for leg in change.motion.legs for part in leg]
    return [change.tick, *change.motion.place, *legs, *change.motion.last]


def region_data(region: Region) -> dict[str, Any]:
    """A region in the data of the page."""
    points = [[x / 1000, y / 1000] for x, y in region.corners]
    return {"name": region.name, "tick": region.tick, "points": points}


def query_data(query: Query) -> dict[str, Any]:
    """A query in the data of the page, as it is known now."""
    rows = [{"targets": targets, "versions": list(versions)} for targets, versions in query.rows.items()]
    return {
        "number": query.number, "kind": query.kind, "name": query.name, "entry": query.entry, "expiry": query.expiry,
        "dropped": query.dropped, "rows": rows,
    }  # fmt: skip


def _bounds(history: History, first: int, last: int) -> dict[str, float] | None:
    """The least rectangle with all that is there between two ticks."""
    places = [corner for region in history.regions for corner in region.corners]
    for track in history.tracks.values():
        for change, end in _with_ends(track.since(first), last):
            if change.motion is not None and end >= first:
                start = max(change.tick, first)
                rest = change.motion.rest(start - change.tick)
                places += [rest.place, *(place for _, place in rest.turns(end - start))]
    if not places:
        return None
    xs, ys = [x / 1000 for x, _ in places], [y / 1000 for _, y in places]
    return {"left": min(xs), "right": max(xs), "bottom": min(ys), "top": max(ys)}


def _with_ends(changes: list[Change], last: int) -> Iterator[tuple[Change, int]]:
    """The changes up to a tick, each with the tick up to which it holds."""
    ends = [change.tick for change in changes[1:]] + [last]
    for change, end in zip(changes, ends):
        if change.tick <= last:
            yield change, min(end, last)
