"""Tracks: the places of an object at times, between which it goes straight, as motions with legs."""

from collections.abc import Iterable, Iterator, Sequence
from dataclasses import dataclass
from fractions import Fraction
from typing import NamedTuple

from fleet.ways.commands import LEG_LIMIT, REST, Leg, Move, Place, Writer, slope
from fleet.ways.faults import Faults, Unfit, Where
from fleet.ways.projection import Projection


class TrackPoint(NamedTuple):
    """A point of a track, in degrees, its time in microseconds, and where it stands."""

    lon: float
    lat: float
    time: int
    where: Where


@dataclass(frozen=True, slots=True)
class Track:
    """The points of an object that are known to be one way, in the order of their times."""

    identifier: str
    points: Sequence[TrackPoint]


class Known(NamedTuple):
    """A place on the plane at a time."""

    time: int
    place: Place
    where: Where


class Stop(NamedTuple):
    """A place at a tick, counted from the first."""

    tick: int
    place: Place
    where: Where


@dataclass(frozen=True, slots=True)
class Way:
    """The stops of an object, at least one, in the order of their ticks."""

    identifier: str
    stops: Sequence[Stop]


class Write(NamedTuple):
    """What is written of an object at a tick; without a place it stays where it is."""

    tick: int
    identifier: str
    place: Place | None
    move: Move
    where: Where


def known_places(points: Iterable[TrackPoint], projection: Projection, faults: Faults) -> Iterator[Known]:
    """The places of points. Of points of one time the last one counts; faulty ones are told and left out."""
    held: Known | None = None
    for point in points:
        try:
            place = projection.place(point.lon, point.lat)
            if held is not None and point.time < held.time:
                raise Unfit("the time is before that of the point before it")
        except Unfit as unfit:
            faults.add(point.where, unfit)
            continue
        if held is not None and point.time > held.time:
            yield held
        held = Known(point.time, place, point.where)
    if held is not None:
        yield held


def stops(known: Sequence[Known], start: int, tick: int) -> list[Stop]:
    """The places at the ticks nearest to the times, and between the points on the straight line from one to the next.

    Nothing is said of ticks before `start`, which is tick 0, and none where the last point is before it.
    """
    first, last = max(_ceiling(known[0].time - start, tick), 0), (known[-1].time - start) // tick
    if last < first:
        return [Stop(first, known[-1].place, known[-1].where)] if known[-1].time >= start else []
    wanted = {min(max((2 * (each.time - start) + tick) // (2 * tick), first), last) for each in known} | {first}
    found, at = [], 0
    for here in sorted(wanted):
        time = start + here * tick
        while at + 1 < len(known) and known[at + 1].time <= time:
            at += 1
        found.append(Stop(here, _between(known[at], known[min(at + 1, len(known) - 1)], time), known[at].where))
    return found


def in_order(ways: Iterable[Way], *, goes_on: bool, faults: Faults) -> list[Write]:
    """What is written of all ways, by ticks. A way that begins before the one before it of its object ends is told and
    left out; where it begins at that tick, the end isn't written."""
    found: list[Write] = []
    before: dict[str, tuple[int, Write]] = {}
    for way in sorted(ways, key=lambda each: each.stops[0].tick):
        begin, end = way.stops[0], way.stops[-1]
        ended, rest = before.get(way.identifier, (-1, None))
        if begin.tick < ended:
            faults.add(begin.where, Unfit("it begins before the way before it of the same object ends"))
            continue
        if rest is not None and rest.place is None and begin.tick == ended:
            found.remove(rest)
        found += _writes(way, goes_on, faults)
        before[way.identifier] = end.tick, found[-1]
    return sorted(found, key=lambda each: each.tick)


def _writes(way: Way, goes_on: bool, faults: Faults) -> Iterator[Write]:
    """What is written so that the object is at each of the stops: as many legs at once as a function has.

    At the end it rests, or else its last leg goes on. A stop that can't be reached is told, and the object jumps there.
    """
    begun, place, legs = way.stops[0], way.stops[0].place, list[Leg]()
    for before, stop in zip(way.stops, way.stops[1:]):
        try:
            leg = _leg(place, before.tick, stop)
            if legs and legs[-1][:2] == leg[:2]:
                legs[-1] = legs[-1]._replace(ticks=legs[-1].ticks + leg.ticks)
            else:
                if len(legs) == LEG_LIMIT:
                    yield Write(begun.tick, way.identifier, begun.place, _endless(legs), begun.where)
                    begun, place, legs = before, before.place, []
                    leg = _leg(place, before.tick, stop)
                legs.append(leg)
            place = (place[0] + leg.along_x * leg.ticks, place[1] + leg.along_y * leg.ticks)
        except Unfit as unfit:
            faults.add(stop.where, unfit)
            yield from _last_writes(way.identifier, begun, legs, before, False)
            begun, place, legs = stop, stop.place, []
    yield from _last_writes(way.identifier, begun, legs, way.stops[-1], goes_on)


def _last_writes(identifier: str, begun: Stop, legs: list[Leg], end: Stop, goes_on: bool) -> Iterator[Write]:
    while legs and not goes_on and legs[-1][:2] == (0, 0):
        legs.pop()
    is_endless = bool(legs) and (goes_on or len(legs) == LEG_LIMIT)
    move = _endless(legs) if is_endless else Move(tuple(legs))
    yield Write(begun.tick, identifier, begun.place, move, begun.where)
    if is_endless and not goes_on:
        yield Write(end.tick, identifier, None, REST, end.where)


def lines(made: Iterable[Write], writer: Writer, faults: Faults) -> Iterator[str]:
    """The commands of writes in the order of their ticks, and the ticks between them."""
    for each in made:
        try:
            yield from writer.ticks_to(each.tick)
            yield writer.command(each.identifier, each.place, each.move)
        except Unfit as unfit:
            faults.add(each.where, unfit)


def _leg(place: Place, tick: int, stop: Stop) -> Leg:
    """The leg that leads from a place at a tick to a stop, as near as slopes of whole thousandths do."""
    ticks = stop.tick - tick
    slopes = [slope(round(Fraction(stop.place[axis] - place[axis], ticks))) for axis in (0, 1)]
    return Leg(slopes[0], slopes[1], ticks)


def _endless(legs: Sequence[Leg]) -> Move:
    *first, last = legs
    return Move(tuple(first), (last.along_x, last.along_y))


def _between(before: Known, after: Known, time: int) -> Place:
    """The place at a time on the straight line from one to the other, rounded."""
    if time <= before.time or after.time == before.time:
        return before.place
    part = Fraction(time - before.time, after.time - before.time)
    x, y = (round(before.place[axis] + (after.place[axis] - before.place[axis]) * part) for axis in (0, 1))
    return x, y


def _ceiling(number: int, divisor: int) -> int:
    return -(-number // divisor)
