"""Reports of single places: what an object tells, or what is told of it, at a time.

A report is written at a tick that isn't before its time. The database takes no past, so the place is carried on from
the report's time to the tick by its speed.
"""

import argparse
import itertools
import time
from collections.abc import Callable, Iterable, Iterator, Sequence
from dataclasses import dataclass

from fleet.schema import ObjectClass
from fleet.ways.commands import REST, Leg, Move, Place, Writer, slope
from fleet.ways.faults import Faults, Unfit, Where
from fleet.ways.fields import Told
from fleet.ways.inputs import Base
from fleet.ways.measures import SECOND
from fleet.ways.projection import Projection


@dataclass(frozen=True, slots=True)
class Report:
    """Where an object was, in degrees; when, and how fast, where that is told; and what is set of it besides, as parts
    of a command."""

    identifier: str
    where: Where
    lon: float
    lat: float
    told: Told = Told()
    settings: Sequence[str] = ()


@dataclass(frozen=True, slots=True)
class Pace:
    """How times become ticks: a tick has so many microseconds. The motion of a report holds for `hold` ticks from its
    time on, and from then on the object counts as standing; None lets it go on."""

    tick: int = SECOND
    hold: int | None = None


class Reporter:
    """Makes the lines of reports."""

    def __init__(self, writer: Writer, projection: Projection, pace: Pace, faults: Faults) -> None:
        self._writer = writer
        self._projection = projection
        self._pace = pace
        self._faults = faults

    def replayed(self, reports: Iterable[Report], start: int | None) -> Iterator[str]:
        """The lines of reports in the order of their times, with the ticks between them.

        The present tick is at the time `start`, else at that of the first report. What has no time is told at once.
        """
        timed: list[tuple[int, Report]] = []
        for report in reports:
            if report.told.time is None:
                yield from self._lines(report, 0, 0)
            else:
                timed.append((report.told.time, report))
        timed.sort(key=lambda each: each[0])
        first = timed[0][0] if start is None and timed else start or 0
        for moment, report in timed:
            tick = max(-((first - moment) // self._pace.tick), 0)
            yield from self._lines(report, tick, first + tick * self._pace.tick - moment)

    def now(self, reports: Iterable[Report], now: Callable[[], int]) -> Iterator[str]:
        """The lines of reports that are all told at the present tick, which is at the time `now()`."""
        for report in reports:
            moment = report.told.time
            yield from self._lines(report, 0, 0 if moment is None else max(now() - moment, 0))

    def _lines(self, report: Report, tick: int, age: int) -> Iterator[str]:
        """The line of a report, that many microseconds old, after the one that brings the clock to the tick."""
        try:
            yield from self._writer.ticks_to(tick)
            yield self._command(report, age)
        except Unfit as unfit:
            self._faults.add(report.where, unfit)

    def _command(self, report: Report, age: int) -> str:
        place, move = located(report, age, self._projection, self._pace)
        return self._writer.command(report.identifier, place, move, report.settings)


def located(report: Report, age: int, projection: Projection, pace: Pace) -> tuple[Place, Move | None]:
    """Where an object is that many microseconds after its report, and the motion from there on where the report tells
    one. Raises Unfit."""
    place = projection.place(report.lon, report.lat)
    _, speed, course = report.told
    if speed is None or course is None:
        return place, None
    return carried(place, projection.velocity(report.lon, report.lat, speed, course), age, pace)


def carried(place: Place, velocity: tuple[float, float], age: int, pace: Pace) -> tuple[Place, Move]:
    """The place after `age` microseconds by a velocity in metres a second, and the motion from there on. Raises
    Unfit."""
    along = (slope(velocity[0] * 1000 * pace.tick / SECOND), slope(velocity[1] * 1000 * pace.tick / SECOND))
    gone = age if pace.hold is None else min(age, pace.hold * pace.tick)
    here = (place[0] + round(velocity[0] * gone / 1000), place[1] + round(velocity[1] * gone / 1000))
    if pace.hold is None:
        return here, Move((), along)
    left = pace.hold - -(-age // pace.tick)
    return here, Move((Leg(*along, left),)) if left > 0 and along != (0, 0) else REST


def write_reports(reports: Iterator[Report], base: Base, its_class: ObjectClass, arguments: argparse.Namespace) -> None:
    """Writes the lines of reports as the options ask for: in the order of their times, or each at the present tick as
    soon as it is there."""
    now = _now(arguments)
    begun = list(reports if now is None else itertools.islice(reports, 1))
    if not begun:
        return
    projection = base.projection((report.lon, report.lat) for report in begun)
    writer = Writer(base.schema, its_class, base.names)
    reporter = Reporter(writer, projection, Pace(arguments.tick, arguments.hold), base.faults)
    if now is None:
        base.write(reporter.replayed(begun, arguments.start))
    else:
        base.write(reporter.now(itertools.chain(begun, reports), now))


def _now(arguments: argparse.Namespace) -> Callable[[], int] | None:
    """What tells the time of the present tick; None where the clock goes by the times of the reports."""
    if arguments.live:
        return _machine_time
    if arguments.now is None:
        return None
    now: int = arguments.now
    return lambda: now


def _machine_time() -> int:
    return time.time_ns() // 1000
