"""What the ways out share: the session that is read, its state at a tick, and its plane."""

import argparse
from collections.abc import Iterable, Iterator
from pathlib import Path

from fleet.csvs import RATE
from fleet.present import ClassOf, Function, ObjectOf, Present, Vector, number_text, pieces, thousandths
from fleet.serve.closed import open_session
from fleet.session_text import entries, ticks_of
from fleet.ways.commands import Place
from fleet.ways.fields import PARTS
from fleet.ways.inputs import BadFile
from fleet.ways.planes import BEGINNING, PlaneFault, plane_of, settled, wanted_plane
from fleet.ways.projection import Projection

OTHERS = frozenset(("name", "kind", "class", "tick", *PARTS))
"""The titles of what is told of an object besides its attributes."""

Number = int | float
"""A number as JSON writes it."""


def read(arguments: argparse.Namespace) -> tuple[list[bytes], Projection]:
    """The commands of the session, and the projection to the plane that it names, or that an option does. Raises
    BadFile, BadSessionText and PlaneFault."""
    path = arguments.session
    try:
        with open_session(path) as text:
            commands = [entry.text for entry in entries(text)]
            text.seek(0)
            plane = settled(wanted_plane(arguments), plane_of(text, path), path)
    except OSError as error:
        raise BadFile(f"{path}: {error.strerror}") from None
    if plane is None:
        lasting = (
            f"the comment `{BEGINNING.decode()} EPSG:CODE`, sent to the server, is kept" if path.is_dir()
            else f"`fleet roll {path} NEW` with one of these writes a session that does"
        )  # fmt: skip
        raise PlaneFault(
            f"{path} doesn't say on which plane its places lie: --zone EPSG:CODE or --local LON,LAT says it, and {lasting}"
        )
    return commands, Projection(plane)


def state_at(commands: Iterable[bytes], tick: int | None, path: Path) -> Present:
    """The state that was known at a tick, by the commands up to it; at the last one where it is None. Raises
    BadFile."""
    present = Present()
    try:
        for command in commands:
            if tick is not None and present.clock + ticks_of(command) > tick:
                break
            present.take(command.decode("ascii"))
    except (LookupError, ValueError, AssertionError):
        raise BadFile(f"{path} is no session that the program loads") from None
    return present


def points_of(present: Present, class_name: str | None) -> Iterator[tuple[ObjectOf, ClassOf]]:
    """The present objects with a place, of one class or of all, in the order of first insertion. Raises BadFile."""
    if class_name is not None and not (class_name in present.classes and present.classes[class_name].is_point):
        known = ", ".join(each.name for each in present.classes.values() if each.is_point) or "none"
        raise BadFile(f"there is no class {class_name} with a place; these are: {known}")
    for there in present.present_objects():
        if present.classes[there.of].is_point and class_name in (None, there.of):
            yield there, present.classes[there.of]


def place_at(there: ObjectOf, tick: int) -> Place:
    """The place of an object at a tick, by its motion."""
    x, y = _vector(there, "x"), _vector(there, "y")
    return x.at(tick), y.at(tick)


def motion_at(there: ObjectOf, tick: int) -> Place:
    """The slopes of its place at a tick, in thousandths a tick."""
    x, y = _vector(there, "x"), _vector(there, "y")
    return _slope(x, tick), _slope(y, tick)


def attribute_titles(its_class: ClassOf) -> dict[str, str]:
    """The titles of the written attributes: their names, after the class where something else has that title."""
    return {name: f"{its_class.name}.{name}" if name in OTHERS else name for name in its_class.attributes}


def attributes_at(there: ObjectOf, its_class: ClassOf, tick: int) -> dict[str, Number | str]:
    """The written attributes of an object at a tick by their titles, and of dynamic ones the slopes too."""
    found: dict[str, Number | str] = {}
    for name, title in attribute_titles(its_class).items():
        cell = there.cells[name]
        if isinstance(cell, Vector):
            found[title], found[title + RATE] = number_of(cell.at(tick)), number_of(_slope(cell, tick))
        else:
            found[title] = number_of(cell) if isinstance(cell, int) else cell
    return found


def number_of(size: int) -> Number:
    """A number of thousandths as JSON writes it."""
    return size // 1000 if size % 1000 == 0 else float(number_text(size))


def corners_of(text: str) -> Iterator[Place]:
    """The corners of a region by the text of its points."""
    numbers, sign = [], 1
    for piece in pieces(text):
        if piece[0].isdigit():
            numbers.append(sign * thousandths(piece))
        sign = -1 if piece == "-" else 1
    yield from zip(numbers[::2], numbers[1::2], strict=True)


def _vector(there: ObjectOf, name: str) -> Vector:
    cell = there.cells[name]
    assert isinstance(cell, Vector)
    return cell


def _slope(vector: Vector, tick: int) -> int:
    left: Function = vector.function.after(tick - vector.updatetime)
    return left.legs[0][0] if left.legs else left.last
