"""`fleet to mfjson`: the ways of objects as moving points of OGC's Moving Features, in linear pieces."""

import argparse
from collections.abc import Iterator
from typing import Any, NamedTuple

from fleet.errors import FleetError
from fleet.look.history import History, Track
from fleet.ways.commands import Place
from fleet.ways.faults import Faults, Unfit, Where
from fleet.ways.measures import moment_text
from fleet.ways.outputs import attributes_at, points_of, read, state_at
from fleet.ways.projection import Projection
from fleet.ways.texts import degrees
from fleet.ways.to_geojson import write_collection
from fleet.words import TICK_LIMIT

AHEAD = 3_600
"""The ticks after the first that are told where the last isn't given."""
BEND = 100
"""How far, in thousandths of a metre, a piece that is straight in degrees may be from the way, which is straight on the
plane: longer pieces are cut."""
_SYSTEMS = {
    "crs": {"type": "Name", "properties": {"name": "urn:ogc:def:crs:OGC:1.3:CRS84"}},
    "trs": {"type": "Name", "properties": {"name": "urn:ogc:data:time:iso8601"}},
}


class BadWindow(FleetError):
    """The ticks that were asked for are none."""


class At(NamedTuple):
    """A place at a tick."""

    tick: int
    place: Place


def run(arguments: argparse.Namespace, faults: Faults) -> None:
    """Writes the collection."""
    commands, projection = read(arguments)
    present = state_at(commands, None, arguments.session)
    history = History.of(commands)
    first = present.clock if arguments.first is None else arguments.first
    last = min(first + AHEAD, TICK_LIMIT) if arguments.last is None else arguments.last
    if last < first:
        raise BadWindow(f"the last tick, {last}, is before the first, {first}")
    _time(last, arguments)
    known = {
        there.name: attributes_at(there, its_class, present.clock)
        for there, its_class in points_of(present, arguments.class_name)
    }
    features = []
    for track in history.tracks.values():
        if arguments.class_name in (None, track.class_name):
            try:
                ways = [_moving(way, projection, arguments) for way in ways_of(track, first, last)]
            except Unfit as unfit:
                faults.add(Where(f"{arguments.session}: {track.name}"), unfit)
                continue
            if ways:
                features.append(_feature(track, ways, known.get(track.name) or {}))
    write_collection(_SYSTEMS, features)


def ways_of(track: Track, first: int, last: int) -> Iterator[list[At]]:
    """The ways of an object in the ticks from first to last: the places between which it goes straight. Where it jumps,
    or is absent, a new way begins."""
    changes = [change for change in track.since(first) if change.tick <= last]
    way: list[At] = []
    for change, following in zip(changes, [*changes[1:], None]):
        if change.motion is None:
            continue
        begin = max(change.tick, first)
        end = last if following is None else following.tick - 1
        goes_on = following is not None and following.motion is not None and (
            following.motion.place == change.motion.after(following.tick - change.tick)
        )  # fmt: skip
        end += goes_on
        if not way:
            way = [At(begin, change.motion.after(begin - change.tick))]
        turns = change.motion.turns(end - change.tick) if end >= change.tick else ()
        way += [At(change.tick + at, place) for at, place in turns if change.tick + at > way[-1].tick]
        if not goes_on:
            yield way
            way = []


def _moving(way: list[At], projection: Projection, arguments: argparse.Namespace) -> dict[str, Any]:
    points = [way[0], *(each for before, after in zip(way, way[1:]) for each in _cut(before, after, projection))]
    times = [_time(each.tick, arguments) for each in points]
    coordinates = [degrees(projection.point(*each.place)) for each in points]
    return {"type": "MovingPoint", "datetimes": times, "coordinates": coordinates, "interpolation": "Linear"}


def _time(tick: int, arguments: argparse.Namespace) -> str:
    try:
        return moment_text(arguments.start + tick * arguments.tick)
    except OverflowError:
        raise BadWindow(f"the time of the tick {tick} is past the year 9999") from None


def _cut(before: At, after: At, projection: Projection) -> list[At]:
    """The ends of the pieces of a straight way that are as straight in degrees as they have to be."""
    if after.tick - before.tick < 2:
        return [after]
    tick = (before.tick + after.tick) // 2
    x, y = (a + (b - a) * (tick - before.tick) // (after.tick - before.tick) for a, b in zip(before.place, after.place))
    part = (tick - before.tick) / (after.tick - before.tick)
    ends = (projection.point(*before.place), projection.point(*after.place))
    straight = projection.place(*(a + (b - a) * part for a, b in zip(*ends)))
    if abs(straight[0] - x) <= BEND and abs(straight[1] - y) <= BEND:
        return [after]
    middle = At(tick, (x, y))
    return [*_cut(before, middle, projection), *_cut(middle, after, projection)]


def _feature(track: Track, ways: list[dict[str, Any]], attributes: dict[str, Any]) -> dict[str, Any]:
    geometry = ways[0] if len(ways) == 1 else {"type": "MovingGeometryCollection", "prisms": ways}
    properties = {"name": track.name, "class": track.class_name} | attributes
    return {"type": "Feature", "id": track.name, "temporalGeometry": geometry, "properties": properties}
