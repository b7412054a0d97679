"""`fleet to csv`: the objects of a class at a tick with longitude and latitude, as `fleet from csv` reads them."""

import argparse
import csv
import sys
from collections.abc import Iterator

from fleet.csvs import RATE
from fleet.present import ClassOf, Present, number_text
from fleet.ways.commands import Place
from fleet.ways.faults import Faults, Unfit, Where
from fleet.ways.inputs import BadFile
from fleet.ways.outputs import attribute_titles, attributes_at, motion_at, place_at, points_of, read, state_at
from fleet.ways.texts import DECIMALS, decimal_text, degrees, motion_texts

TITLES = ["name", "lon", "lat", "speed", "course"]


def run(arguments: argparse.Namespace, faults: Faults) -> None:
    """Writes the rows."""
    commands, projection = read(arguments)
    present = state_at(commands, arguments.at, arguments.session)
    tick = present.clock if arguments.at is None else arguments.at
    its_class = _class_of(present, arguments.class_name)
    writer = csv.writer(sys.stdout, lineterminator="\n")
    writer.writerow([*TITLES, *_columns(its_class)])
    for there, _ in points_of(present, its_class.name):
        place: Place = place_at(there, tick)
        try:
            lon, lat = degrees(projection.point(*place))
            motion = motion_texts(projection, place, motion_at(there, tick), arguments.tick)
        except Unfit as unfit:
            faults.add(Where(f"{arguments.session}: {there.name}"), unfit)
            continue
        attributes = attributes_at(there, its_class, tick).values()
        texts = [each if isinstance(each, str) else number_text(round(each * 1000)) for each in attributes]
        writer.writerow([there.name, decimal_text(lon, DECIMALS), decimal_text(lat, DECIMALS), *motion, *texts])


def _class_of(present: Present, name: str | None) -> ClassOf:
    """The class of that name, or the only one with a place. Raises BadFile."""
    classes = [each for each in present.classes.values() if each.is_point]
    if name is None and len(classes) != 1:
        known = ", ".join(each.name for each in classes) or "none"
        raise BadFile(f"--class says of which class the objects are; the classes with a place are: {known}")
    return classes[0] if name is None else present.classes.get(name) or ClassOf(name, 0, False, {})


def _columns(its_class: ClassOf) -> Iterator[str]:
    """The titles of attributes, each dynamic one's with that of its slope."""
    for name, title in attribute_titles(its_class).items():
        yield title
        if its_class.attributes[name] == "dyn":
            yield title + RATE
