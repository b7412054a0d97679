"""`fleet to geojson`: the regions of a session and its objects at a tick."""

import argparse
import json
from collections.abc import Iterator
from typing import Any

from fleet.present import ClassOf, ObjectOf, Present
from fleet.ways.commands import Place
from fleet.ways.convex import double_area
from fleet.ways.faults import Faults, Unfit, Where
from fleet.ways.outputs import (
    attributes_at,
    corners_of,
    motion_at,
    place_at,
    points_of,
    read,
    state_at,
)
from fleet.ways.projection import Projection
from fleet.ways.texts import degrees, motion_texts


def run(arguments: argparse.Namespace, faults: Faults) -> None:
    """Writes the collection."""
    commands, projection = read(arguments)
    present = state_at(commands, arguments.at, arguments.session)
    tick = present.clock if arguments.at is None else arguments.at
    objects = list(points_of(present, arguments.class_name))
    features = list(_regions(present, projection, faults)) if arguments.class_name is None else []
    for there, its_class in objects:
        try:
            features.append(_object(there, its_class, tick, projection, arguments.tick))
        except Unfit as unfit:
            faults.add(Where(f"{arguments.session}: {there.name}"), unfit)
    write_collection({}, features)


def write_collection(members: dict[str, Any], features: list[dict[str, Any]]) -> None:
    """Writes a collection of features, a line for each."""
    head = json.dumps({"type": "FeatureCollection", **members}, separators=(",", ":"))
    print(f'{head[:-1]},"features":[')
    for number, feature in enumerate(features, 1):
        print(json.dumps(feature, separators=(",", ":")), end="" if number == len(features) else ",")
        print()
    print("]}")


def _regions(present: Present, projection: Projection, faults: Faults) -> Iterator[dict[str, Any]]:
    for name, text in present.regions.items():
        ring = list(corners_of(text))
        around = ring if double_area(ring) > 0 else ring[::-1]
        try:
            positions = [degrees(projection.point(*corner)) for corner in [*around, around[0]]]
        except Unfit as unfit:
            faults.add(Where(f"the region {name}"), unfit)
            continue
        yield _feature(name, {"type": "Polygon", "coordinates": [positions]}, {"kind": "region"})


def _object(there: ObjectOf, its_class: ClassOf, tick: int, projection: Projection, length: int) -> dict[str, Any]:
    place: Place = place_at(there, tick)
    speed, course = motion_texts(projection, place, motion_at(there, tick), length)
    told = {"kind": "object", "class": its_class.name, "tick": tick, "speed": float(speed), "course": float(course)}
    position = degrees(projection.point(*place))
    return _feature(
        there.name, {"type": "Point", "coordinates": position}, told | attributes_at(there, its_class, tick)
    )


def _feature(name: str, geometry: dict[str, Any], properties: dict[str, Any]) -> dict[str, Any]:
    return {"type": "Feature", "id": name, "geometry": geometry, "properties": {"name": name, **properties}}
