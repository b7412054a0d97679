"""`fleet from geojson`: areas as regions, and points as objects."""

import argparse
import json
import math
from collections.abc import Iterable, Iterator, Mapping
from dataclasses import dataclass
from typing import Any

from fleet.csvs import shown
from fleet.schema import ObjectClass, Region
from fleet.ways.commands import Writer, class_of, point_text
from fleet.ways.convex import Ring
from fleet.ways.faults import Faults, Unfit, Where, counted
from fleet.ways.fields import Columns
from fleet.ways.formulas import inside_any
from fleet.ways.identifiers import with_ending
from fleet.ways.inputs import BadFile, Base, text_of
from fleet.ways.projection import Projection, check_point
from fleet.ways.reports import Pace, Report, Reporter
from fleet.ways.shapes import parts_of
from fleet.words import JOURNAL_ENTRIES, REGION_LIMIT

_GEOMETRIES = ("Polygon", "MultiPolygon", "Point")
_LON_LAT = ("CRS84", "CRS:84", "EPSG::4326", "EPSG:4326")
"""The ends of the names of systems whose coordinates are longitude and latitude of WGS 84."""

Position = tuple[float, float]


@dataclass(frozen=True, slots=True)
class Feature:
    """A feature that can be taken: the rings of its areas, each without its last point, or else its point."""

    where: Where
    identifier: str
    rings: list[list[Position]]
    point: Position | None
    properties: Mapping[str, Any]

    @property
    def positions(self) -> list[Position]:
        """All its points."""
        return [self.point] if self.point else [position for ring in self.rings for position in ring]


def run(arguments: argparse.Namespace, faults: Faults) -> None:
    """Reads the file and writes its lines."""
    columns = Columns.of(arguments)
    with Base.of(arguments, arguments.file, faults) as base:
        features = list(_features(arguments.file, columns, faults))
        if not features:
            return
        columns.check({key for feature in features for key in feature.properties})
        points = [feature for feature in features if feature.point]
        its_class = class_of(arguments.class_name, base.schema) if points else None
        projection = base.projection(position for feature in features for position in feature.positions)
        regions = Regions(projection, base, arguments.dent, arguments.simplify)
        for feature in features:
            if feature.rings:
                base.write(regions.lines(feature))
        regions.tell()
        if its_class is not None:
            pace = Pace(arguments.tick, arguments.hold)
            reporter = Reporter(Writer(base.schema, its_class, base.names), projection, pace, faults)
            base.write(reporter.replayed(_reports(points, columns, its_class, faults), arguments.start))


# ---- Regions


class Regions:
    """Makes the commands of areas. `dent` and `simplify` are thousandths of a metre."""

    def __init__(self, projection: Projection, base: Base, dent: int, simplify: int) -> None:
        self._projection = projection
        self._base = base
        self._dent = dent
        self._simplify = simplify
        self._filled = 0
        self._deepest = 0.0

    def lines(self, area: Feature) -> list[str]:
        """The commands of an area, and where it has several parts the formulas that hold in it, as comments."""
        try:
            rings = [ring for each in area.rings for ring in self._rings(each)]
            name = self._base.names.name(area.identifier)
            names = [name] if len(rings) == 1 else [with_ending(name, f"_{number}") for number in range(len(rings))]
            self._check(names)
        except Unfit as unfit:
            self._base.faults.add(area.where, unfit)
            return []
        commands = [f"region {each} {' '.join(map(point_text, ring))}" for each, ring in zip(names, rings)]
        schema = self._base.schema
        schema.regions |= {each: Region(each, tuple(ring)) for each, ring in zip(names, rings)}
        schema.entries += len(names)
        return commands if len(names) == 1 else [*commands, *_formula_comments(name, names)]

    def tell(self) -> None:
        """Tells how many dents were filled."""
        if self._filled:
            self._base.faults.note(
                f"{counted(self._filled, 'area')} bent by projecting and rounding became convex by their hulls, "
                f"which are at most {math.ceil(self._deepest)} mm off"
            )

    def _rings(self, ring: list[Position]) -> list[Ring]:
        parts = parts_of(self._projection.places(ring), self._projection, self._dent, self._simplify)
        self._filled += parts.dent > 0
        self._deepest = max(self._deepest, parts.dent)
        return parts.rings

    def _check(self, names: list[str]) -> None:
        schema = self._base.schema
        taken = next((name for name in names if name in schema.regions), None)
        if taken:
            raise Unfit(f"there is a region {taken} already")
        if len(schema.regions) + len(names) > REGION_LIMIT:
            parts = f"it has {counted(len(names), 'convex part')}, and " if len(names) > 1 else ""
            raise Unfit(f"{parts}at most {REGION_LIMIT:,} regions are allowed; --simplify takes points away")
        if schema.entries + len(names) > JOURNAL_ENTRIES:
            raise Unfit(f"the journal has no room for more than {JOURNAL_ENTRIES:,} commands")


def _formula_comments(name: str, names: list[str]) -> Iterator[str]:
    formulas = list(inside_any(names))
    for number, formula in enumerate(formulas, 1):
        several = f", {number} of {len(formulas)}" if len(formulas) > 1 else ""
        yield f"# INSIDE {name}{several}: {formula}"


# ---- Objects


def _reports(
    points: Iterable[Feature], columns: Columns, its_class: ObjectClass, faults: Faults
) -> Iterator[Report]:
    """The reports of features that are points; faulty ones are told and left out."""
    for feature in points:
        assert feature.point is not None
        texts = {key: _text(value) for key, value in feature.properties.items()}
        try:
            parts = columns.part_titles([key for key in texts if texts[key].strip()])
            titles = columns.attribute_titles(its_class, texts, parts.values())
            settings = columns.settings(its_class, titles, texts)
            yield Report(feature.identifier, feature.where, *feature.point, columns.told(parts, texts), settings)
        except Unfit as unfit:
            faults.add(feature.where, unfit)


def _text(value: Any) -> str:
    """The text of a property: empty where it is neither a text nor a number."""
    if isinstance(value, str):
        return value
    return json.dumps(value) if isinstance(value, (int, float)) and not isinstance(value, bool) else ""


# ---- Reading


def _features(file: str, columns: Columns, faults: Faults) -> Iterator[Feature]:
    """The features that can be taken; the others are told. Raises BadFile."""
    for number, feature in enumerate(_listed(_document(file), file), 1):
        identifier = _identifier(feature, columns)
        where = Where(f"{file}: feature {number}" + (f" ({shown(identifier)})" if identifier else ""))
        try:
            yield _feature(feature, where, identifier or f"feature_{number}")
        except Unfit as unfit:
            faults.add(where, unfit)


def _document(file: str) -> Any:
    try:
        return json.loads(text_of(file))
    except json.JSONDecodeError as error:
        raise BadFile(f"{file}:{error.lineno}:{error.colno}: this is no JSON: {error.msg}") from None
    except RecursionError:
        raise BadFile(f"{file}: its brackets are nested too deeply") from None
    except ValueError as error:
        raise BadFile(f"{file}: {error}") from None


def _listed(document: Any, file: str) -> list[Any]:
    """The features of a document, which is a collection, a feature, or a geometry alone. Raises BadFile."""
    if not isinstance(document, dict) or not isinstance(document.get("type"), str):
        raise BadFile(f"{file}: this is no GeoJSON: it is no object with a type")
    _check_system(document, file)
    if document["type"] == "FeatureCollection":
        features = document.get("features")
        if not isinstance(features, list):
            raise BadFile(f"{file}: this is no GeoJSON: the collection has no list of features")
        return features
    return [document if document["type"] == "Feature" else {"type": "Feature", "geometry": document}]


def _check_system(document: dict[str, Any], file: str) -> None:
    """Raises BadFile where the coordinates are no longitude and latitude, which an old form of GeoJSON allows."""
    system = document.get("crs")
    properties = system.get("properties") if isinstance(system, dict) else None
    name = properties.get("name") if isinstance(properties, dict) else None
    if system is not None and not (isinstance(name, str) and name.endswith(_LON_LAT)):
        raise BadFile(f"{file}: its coordinates are of {name or 'another system'}, and no longitude and latitude")


def _identifier(feature: Any, columns: Columns) -> str:
    """The id of a feature: of the property that an option names, else its own, else its property `id` or `name`."""
    if not isinstance(feature, dict):
        return ""
    properties = feature.get("properties")
    known = properties if isinstance(properties, dict) else {}
    if "id" in columns.parts:
        found = [known.get(columns.parts["id"])]
    else:
        found = [feature.get("id"), known.get("id"), known.get("name")]
    texts = (str(each).strip() for each in found if isinstance(each, (str, int)) and not isinstance(each, bool))
    return next((text for text in texts if text), "")


def _feature(feature: Any, where: Where, identifier: str) -> Feature:
    if not isinstance(feature, dict) or feature.get("type") != "Feature":
        raise Unfit("it is no feature")
    geometry, properties = feature.get("geometry"), feature.get("properties") or {}
    if not isinstance(geometry, dict) or geometry.get("type") not in _GEOMETRIES:
        kind = geometry.get("type") if isinstance(geometry, dict) else "nothing"
        raise Unfit(f"its geometry is {kind}: only areas (Polygon, MultiPolygon) and points (Point) are taken")
    if not isinstance(properties, dict):
        raise Unfit("its properties are no object")
    coordinates = geometry.get("coordinates")
    if geometry["type"] == "Point":
        return Feature(where, identifier, [], _position(coordinates, "its point"), properties)
    polygons = [coordinates] if geometry["type"] == "Polygon" else coordinates
    if not isinstance(polygons, list) or not polygons:
        raise Unfit("its geometry has no coordinates")
    return Feature(where, identifier, list(_outlines(polygons)), None, properties)


def _outlines(polygons: list[Any]) -> Iterator[list[Position]]:
    for number, rings in enumerate(polygons, 1):
        name = f"polygon {number}: " if len(polygons) > 1 else ""
        if not isinstance(rings, list) or not rings:
            raise Unfit(f"{name}it has no ring")
        if len(rings) > 1:
            raise Unfit(f"{name}it has {counted(len(rings) - 1, 'hole')}, which a region can't have")
        yield _ring(rings[0], name)


def _ring(ring: Any, name: str) -> list[Position]:
    """The positions of a ring without the last one, which has to be the first one again."""
    if not isinstance(ring, list) or len(ring) < 4:
        raise Unfit(f"{name}its ring has less than four positions, the last of which is the first again")
    positions = [_position(each, f"{name}position {number}") for number, each in enumerate(ring, 1)]
    if positions[0] != positions[-1]:
        raise Unfit(f"{name}its ring isn't closed: the last position isn't the first one")
    return positions[:-1]


def _position(position: Any, name: str) -> Position:
    if not isinstance(position, list) or len(position) < 2 or not all(map(_is_number, position[:2])):
        raise Unfit(f"{name} isn't a longitude and a latitude")
    lon, lat = float(position[0]), float(position[1])
    try:
        check_point(lon, lat)
    except Unfit as unfit:
        raise Unfit(f"{name}: {unfit}") from None
    return lon, lat


def _is_number(value: Any) -> bool:
    return isinstance(value, (int, float)) and not isinstance(value, bool) and abs(value) < 1e9
