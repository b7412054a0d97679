"""Where the objects of a session were, are and will be: the motions that its commands gave them, by tick.

Places are whole thousandths, as in the program. Objects of classes without a place aren't among them.
"""

from bisect import bisect_right
from collections.abc import Iterable, Iterator
from dataclasses import dataclass, field
from typing import BinaryIO, NamedTuple, Self

from fleet.errors import FleetError
from fleet.present import Function, ObjectOf, Present, Vector, pieces, thousandths
from fleet.session_text import entries

Place = tuple[int, int]


class NotThere(FleetError):
    """What was asked for isn't in the session."""


class NotLoaded(FleetError):
    """The session isn't one that the program loads."""

    exit_status = 2


class Motion(NamedTuple):
    """A place and the legs by which it goes on: slopes in thousandths a tick and for how many ticks; `last` never ends."""

    place: Place
    legs: tuple[tuple[int, int, int], ...] = ()
    last: tuple[int, int] = (0, 0)

    @classmethod
    def of(cls, x: Vector, y: Vector, tick: int) -> Self:
        """That of two coordinates from a tick on that isn't before their updates."""
        along_x, along_y = x.function.after(tick - x.updatetime), y.function.after(tick - y.updatetime)
        return cls((x.at(tick), y.at(tick)), tuple(_joined(along_x, along_y)), (along_x.last, along_y.last))

    def turns(self, ticks: int) -> Iterator[tuple[int, Place]]:
        """The ticks up to `ticks` after which it has another slope, each with the place, and the place at their end."""
        at, (x, y) = 0, self.place
        for slope_x, slope_y, length in (*self.legs, (*self.last, ticks + 1)):
            length = min(length, ticks - at)
            at, x, y = at + length, x + slope_x * length, y + slope_y * length
            yield at, (x, y)
            if at == ticks:
                return

    def after(self, ticks: int) -> Place:
        """The place after some ticks."""
        *_, (_, place) = self.turns(ticks)
        return place

    def rest(self, ticks: int) -> "Motion":
        """What is left of it after some ticks."""
        place = self.after(ticks)
        for i, (slope_x, slope_y, length) in enumerate(self.legs):
            if ticks < length:
                return Motion(place, ((slope_x, slope_y, length - ticks), *self.legs[i + 1 :]), self.last)
            ticks -= length
        return Motion(place, (), self.last)

    @property
    def slope(self) -> tuple[int, int]:
        """How much it moves in its first tick."""
        return self.legs[0][:2] if self.legs else self.last


class Change(NamedTuple):
    """From a tick on: the motion of an object, or None where it was removed."""

    tick: int
    motion: Motion | None


@dataclass(slots=True)
class Track:
    """An object with a place: its name, its class, and its motions in the order of their ticks."""

    name: str
    class_name: str
    changes: list[Change] = field(default_factory=list)

    def at(self, tick: int) -> Motion | None:
        """The motion from a tick on, as it was known then; None where the object isn't present."""
        at = bisect_right(self.changes, tick, key=_tick_of)
        if at == 0:
            return None
        since, motion = self.changes[at - 1]
        return None if motion is None else motion.rest(tick - since)

    def since(self, tick: int) -> list[Change]:
        """Its changes from a tick on, and the one before it that holds then."""
        return self.changes[max(bisect_right(self.changes, tick, key=_tick_of) - 1, 0) :]

    def ways_before(self, tick: int, ticks: int) -> list[list[Place]]:
        """Where it was in the ticks before, oldest first, up to where it is: a line for each time that it was present
        all along."""
        lines: list[list[Place]] = []
        changes = self.since(max(tick - ticks, 0))
        ends = [change.tick for change in changes[1:] if change.tick <= tick] + [tick]
        for (since, motion), end in zip(changes, ends):
            if motion is None:
                lines.append([])
                continue
            start = max(since, tick - ticks, 0)
            lines = lines or [[]]
            rest = motion.rest(start - since)
            lines[-1] += [rest.place, *(place for _, place in rest.turns(end - start))]
        return [line for line in lines if len(line) > 1]

    def add(self, tick: int, motion: Motion | None) -> None:
        """Takes the next change; of several at one tick the last one stays, and one that changes nothing is left out."""
        if self.changes and self.changes[-1].tick == tick:
            self.changes.pop()
        if motion != self.at(tick):
            self.changes.append(Change(tick, motion))


class Region(NamedTuple):
    """A region, its corners, and the tick at which it was made."""

    name: str
    corners: tuple[Place, ...]
    tick: int


@dataclass(slots=True)
class History:
    """The classes with a place, the regions and the tracks, each in the order in which they were made."""

    classes: list[str] = field(default_factory=list)
    regions: list[Region] = field(default_factory=list)
    tracks: dict[str, Track] = field(default_factory=dict)
    _present: Present = field(default_factory=Present)

    @classmethod
    def of(cls, commands: Iterable[bytes]) -> Self:
        """That of the commands of a session. Raises NotLoaded."""
        history = cls()
        for command in commands:
            history.take(command)
        return history

    @property
    def clock(self) -> int:
        """The clock after the last command."""
        return self._present.clock

    def tracks_of(self, class_name: str) -> list[Track]:
        """The objects of a class."""
        return [track for track in self.tracks.values() if track.class_name == class_name]

    def take(self, command: bytes) -> Track | None:
        """Takes the next command, and gives the track that it changes.

        Raises NotLoaded where it shows that the session isn't one that the program loads.
        """
        try:
            text = command.decode("ascii")
            self._present.take(text)
            return self._take(text)
        except (LookupError, ValueError, AssertionError):
            shown = command[:200].decode("ascii", "backslashreplace")
            raise NotLoaded(f"the program loads no session with this command: {shown}") from None

    def forget_before(self, tick: int) -> None:
        """Forgets the motions that held before a tick alone."""
        for track in self.tracks.values():
            track.changes = track.since(tick)

    def _take(self, text: str) -> Track | None:
        present, words = self._present, text.split(maxsplit=3)
        match words[0]:
            case "insert":
                return self._take_object(present.objects[words[2]])
            case "update" | "remove":
                return self._take_object(present.objects[words[1]])
            case "class" if present.classes[words[1]].is_point:
                self.classes.append(words[1])
            case "region":
                self.regions.append(Region(words[1], tuple(_corners(text)), present.clock))
        return None

    def _take_object(self, there: ObjectOf) -> Track | None:
        if not self._present.classes[there.of].is_point:
            return None
        track = self.tracks.setdefault(there.name, Track(there.name, there.of))
        track.add(self.clock, _motion(there, self.clock) if there.is_present else None)
        return track


def commands_in(text: BinaryIO) -> list[bytes]:
    """The commands of a saved session. Raises BadSessionText."""
    return [entry.text.strip(b" \t") for entry in entries(text)]


def _motion(there: ObjectOf, tick: int) -> Motion:
    x, y = there.cells["x"], there.cells["y"]
    assert isinstance(x, Vector) and isinstance(y, Vector)
    return Motion.of(x, y, tick)


def _joined(x: Function, y: Function) -> Iterator[tuple[int, int, int]]:
    """The legs of two functions together, each as long as neither changes."""
    while x.legs or y.legs:
        length = min(legs[0][1] for legs in (x.legs, y.legs) if legs)
        yield _slope(x), _slope(y), length
        x, y = x.after(length), y.after(length)


def _slope(function: Function) -> int:
    return function.legs[0][0] if function.legs else function.last


def _corners(text: str) -> Iterator[Place]:
    numbers, sign = [], 1
    for word in pieces(text)[2:]:
        if word[0].isdigit():
            numbers.append(sign * thousandths(word))
        sign = -1 if word == "-" else 1
    yield from zip(numbers[::2], numbers[1::2], strict=True)


def _tick_of(change: Change) -> int:
    return change.tick
