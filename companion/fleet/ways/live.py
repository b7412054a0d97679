"""Objects that report while the clock of a server goes on: what all adapters share that take positions as they come.

A report is written at the tick that is the present one when its line is sent, and its place is carried on by its speed
until then. Of an object one line at a time is sent, and of the reports that come meanwhile the last one waits. An
object of which nothing is heard for long is removed, until it reports again.
"""

import dataclasses
from collections import OrderedDict, deque
from dataclasses import dataclass
from typing import NamedTuple

from fleet.errors import FleetError
from fleet.schema import ObjectClass, Schema
from fleet.ways.commands import class_of, written
from fleet.ways.faults import Unfit
from fleet.ways.identifiers import Names
from fleet.ways.measures import SECOND
from fleet.ways.projection import Projection
from fleet.ways.reports import Pace, Report, located
from fleet.ways.tallies import Tally

MOST_IDENTIFIER = 200
"""The most characters of an id."""
_ELSEWHERE = ("7 UnknownName", "14 Presence")
"""The refusals of a line where another client has inserted or removed its object meanwhile."""


class Line(NamedTuple):
    """A line to be sent, the id of its object, and the report that it writes; without one it removes the object.

    `is_again` says that the report was sent before.
    """

    identifier: str
    text: str
    report: Report | None = None
    is_again: bool = False


@dataclass(slots=True)
class _Reporting:
    """An object: when something was heard of it, in seconds; the time of its last report; the report that waits; and
    what of it is sent."""

    identifier: str
    name: str
    heard: float
    last: int = 0
    waiting: Report | None = None
    is_again: bool = False
    is_leaving: bool = False
    is_sent: bool = False
    is_queued: bool = False


class LiveObjects:
    """Makes lines of the reports of the objects of a class.

    `silent` is after how many seconds without a report an object is removed; None lets all stay. The schema has what
    the server's log has, and `accepted` keeps it so.
    """

    def __init__(
        self, schema: Schema, class_name: str | None, names: Names, projection: Projection, pace: Pace,
        silent: float | None, tally: Tally,
    ) -> None:  # fmt: skip
        self._schema = schema
        self._class_name = class_name
        self._names = names
        self._projection = projection
        self._pace = pace
        self._silent = silent
        self._tally = tally
        self._objects: OrderedDict[str, _Reporting] = OrderedDict()
        self._queue: deque[_Reporting] = deque()

    def its_class(self) -> ObjectClass:
        """The class of the objects. Raises Unfit where it isn't there yet."""
        try:
            return class_of(self._class_name, self._schema)
        except FleetError as error:
            raise Unfit(str(error)) from None

    def await_all(self, heard: float) -> None:
        """Counts the objects that are there as heard of now."""
        try:
            its_class = self.its_class()
        except Unfit:
            return
        identifiers = self._names.identifiers()
        for each in self._schema.present(its_class.name):
            identifier = identifiers.get(each.name, each.name)
            self._objects.setdefault(identifier, _Reporting(identifier, each.name, heard))

    def take(self, report: Report, now: int, heard: float) -> None:
        """Takes a report that comes at a time, in microseconds, which is `heard` in seconds of another clock."""
        # What is told to be to come would make all reports until then too old.
        moment = now if report.told.time is None else min(report.told.time, now)
        if self._silent is not None and now - moment > self._silent * SECOND:
            self._tally.add("late")
            return
        try:
            # What can't be written is no reason to leave a report out that waits.
            located(report, 0, self._projection, self._pace)
            reporting = self._reporting(report.identifier, heard)
        except Unfit as unfit:
            self._tally.fault("faulty", f"{report.where.of(unfit.field)}: fault: {unfit}")
            return
        if moment < reporting.last:
            self._tally.add("overtaken")
            return
        if reporting.waiting is not None:
            self._tally.add("overtaken")
        reporting.waiting = dataclasses.replace(report, told=report.told._replace(time=moment))
        reporting.last, reporting.heard = moment, heard
        reporting.is_again = reporting.is_leaving = False
        self._objects.move_to_end(report.identifier)
        self._look_at(reporting)

    def next(self, now: int) -> Line | None:
        """The next line to be sent, where the present tick is at a time in microseconds; None where none waits."""
        while self._queue:
            reporting = self._queue.popleft()
            reporting.is_queued = False
            line = self._line(reporting, now)
            if line is not None:
                reporting.is_sent = True
                return line
        return None

    def replied(self, line: Line, refusal: str) -> bool:
        """Takes what came of a line: the number and the name of its refusal, or nothing; and says whether the object
        was removed by it."""
        reporting = self._objects[line.identifier]
        reporting.is_sent = False
        is_removed = False
        if line.report is None:
            is_removed = self._take_removed(reporting, refusal)
        elif not refusal:
            self._tally.add("written")
        elif refusal in _ELSEWHERE and not line.is_again:
            self._turn(reporting, line)
        else:
            self._tally.fault(f"refused {refusal}", f"{line.report.where.text}: refused {refusal}: {line.text}")
        self._look_at(reporting)
        return is_removed

    def look_for_silent(self, heard: float) -> None:
        """Removes the objects of which nothing was heard for too long."""
        if self._silent is None:
            return
        for reporting in list(self._silent_ones(heard - self._silent)):
            # So it is looked at again when it is still silent after as long again.
            reporting.heard = heard
            self._objects.move_to_end(reporting.identifier)
            reporting.is_leaving = True
            self._look_at(reporting)

    def accepted(self, line: bytes) -> None:
        """Takes a line that the server has accepted, of whomever it is."""
        self._schema.record(line)

    def count_names(self, class_name: str, count: int) -> None:
        """Takes how many names a class has had, of which a roll forgets some."""
        if class_name in self._schema.classes:
            self._schema.classes[class_name].names = count

    def _silent_ones(self, before: float) -> "list[_Reporting]":
        found = []
        for reporting in self._objects.values():
            if reporting.heard > before:
                break
            if not reporting.is_sent and not reporting.is_queued:
                found.append(reporting)
        return found

    def _reporting(self, identifier: str, heard: float) -> _Reporting:
        """The object of an id. Raises Unfit where there can't be one."""
        if identifier in self._objects:
            return self._objects[identifier]
        its_class = self.its_class()
        if len(identifier) > MOST_IDENTIFIER:
            raise Unfit(f"the id has more than {MOST_IDENTIFIER} characters", "id")
        # Before a name is given to an id, since a name that is given is kept.
        if not self._names.has(identifier):
            self._check_room(its_class, identifier)
        name = self._names.name(identifier)
        known = self._schema.objects.get(name)
        if known is None:
            self._check_room(its_class, name)
        elif known.class_name != its_class.name:
            raise Unfit(f"{name} is an object of {known.class_name}, and not of {its_class.name}", "id")
        self._objects[identifier] = _Reporting(identifier, name, heard)
        return self._objects[identifier]

    def _check_room(self, its_class: ObjectClass, name: str) -> None:
        """Raises Unfit where the class has no room for one more name than those that are there or on their way."""
        coming = len(self._objects) - its_class.names
        if its_class.names >= its_class.capacity or coming >= its_class.capacity:
            most = f"the capacity of {its_class.name}, {its_class.capacity:,}"
            raise Unfit(f"{name} is one name more than {most}", "id")

    def _line(self, reporting: _Reporting, now: int) -> Line | None:
        """The line of an object that waits; None where its report can't be written."""
        report, reporting.waiting = reporting.waiting, None
        if report is None:
            return Line(reporting.identifier, f"remove {reporting.name}") if reporting.is_leaving else None
        moment = report.told.time
        assert moment is not None
        try:
            place, move = located(report, max(now - moment, 0), self._projection, self._pace)
        except Unfit as unfit:
            self._tally.fault("faulty", f"{report.where.of(unfit.field)}: fault: {unfit}")
            return None
        known = self._schema.objects.get(reporting.name)
        is_there = known is not None and known.is_present
        beginning = f"update {reporting.name}" if is_there else f"insert {self.its_class().name} {reporting.name}"
        text = written(beginning, place, move, report.settings)
        return Line(reporting.identifier, text, report, reporting.is_again)

    def _take_removed(self, reporting: _Reporting, refusal: str) -> bool:
        if not refusal or refusal in _ELSEWHERE:
            reporting.is_leaving = False
            if reporting.waiting is None:
                del self._objects[reporting.identifier]
        else:
            reporting.is_leaving = False
            self._tally.fault(f"refused {refusal}", f"refused {refusal}: remove {reporting.name}")
        if not refusal:
            self._tally.add("silent")
        return not refusal

    def _turn(self, reporting: _Reporting, line: Line) -> None:
        """Takes over that an object is there, or isn't, other than the schema said, and tries its report again."""
        known = self._schema.objects.get(reporting.name)
        if line.text.startswith("insert "):
            self._schema.record_present(self.its_class().name, [reporting.name])
        elif known is not None:
            known.is_present = False
        if reporting.waiting is None:
            reporting.waiting, reporting.is_again = line.report, True

    def _look_at(self, reporting: _Reporting) -> None:
        """Lets an object wait for its turn where it has something to be sent."""
        is_due = reporting.waiting is not None or reporting.is_leaving
        if is_due and not reporting.is_sent and not reporting.is_queued:
            reporting.is_queued = True
            self._queue.append(reporting)
