"""Areas of GeoJSON become regions that the program takes."""

import json
import math
import random
from pathlib import Path
from typing import Any

import pytest
from shapely.geometry import Point as Dot, Polygon

from conftest import SEED
from fleet.client import Client
from fleet.ways.commands import point_text
from fleet.ways.convex import convex_parts, corners as corners_left, double_area, is_convex
from fleet.ways.formulas import inside_any
from ways import CENTRE, CLASSES, ZONE, accepted, area, area_of, beside, collection, corners, fleet, projected, spot

BLOCKS = 1_000


@pytest.fixture
def chance() -> random.Random:
    return random.Random(SEED)


@pytest.fixture
def schema(tmp_path: Path) -> Path:
    path = tmp_path / "classes.domino"
    path.write_text(CLASSES)
    return path


def block(chance: random.Random, points_a_side: int = 5) -> list[tuple[float, float]]:
    """A street block: four corners in the shape of a trapezium, and points along its straight sides."""
    width, height, angle = chance.uniform(30, 400), chance.uniform(30, 400), chance.uniform(0, 2 * math.pi)
    slant = chance.uniform(-0.3, 0.3)
    shape = [(0, 0), (width, 0), (width * (1 - abs(slant)), height), (width * slant * (slant > 0), height)]
    at_x, at_y = chance.uniform(-8_000, 8_000), chance.uniform(-8_000, 8_000)
    turned = [
        beside(
            at_x + x * math.cos(angle) - y * math.sin(angle),
            at_y + x * math.sin(angle) + y * math.cos(angle),
        )
        for x, y in shape
    ]
    return [
        (a[0] + (b[0] - a[0]) * part / points_a_side, a[1] + (b[1] - a[1]) * part / points_a_side)
        for a, b in zip(turned, [*turned[1:], turned[0]])
        for part in range(points_a_side)
    ]


def star(spikes: int, x: float = 0, y: float = 0, size: float = 500) -> list[tuple[float, float]]:
    """A star of twice as many points as it has spikes."""
    return [
        beside(x + radius * math.cos(angle), y + radius * math.sin(angle))
        for number in range(2 * spikes)
        for radius, angle in [(size if number % 2 else size * 0.6, math.pi * number / spikes)]
    ]


def ragged(chance: random.Random, count: int) -> list[tuple[float, float]]:
    """A shape whose sides don't cross, with corners at random distances from its middle."""
    return [
        beside(radius * math.cos(angle), radius * math.sin(angle))
        for number in range(count)
        for radius, angle in [(chance.uniform(100, 2_000), 2 * math.pi * number / count)]
    ]


L_SHAPE = [beside(x, y) for x, y in [(0, 0), (200, 0), (200, 100), (100, 100), (100, 200), (0, 200)]]


def test_a_thousand_street_blocks_are_taken(client: Client, tmp_path: Path, chance: random.Random) -> None:
    blocks = [block(chance) for _ in range(BLOCKS)]
    path = tmp_path / "blocks.geojson"
    path.write_text(collection(*(area(f"b{number}", ring) for number, ring in enumerate(blocks))))
    said = fleet("from", "geojson", path, "--zone", "auto")
    assert said.status == 0 and said.lines[0] == f"# fleet plane {ZONE}"
    accepted(client, said.lines)
    assert [command.split()[1] for command in said.commands] == [f"b{number}" for number in range(BLOCKS)]
    told = next(line for line in said.told if "hulls" in line)
    assert "convex by their hulls" in told
    # Rounded and not hulled, nearly all of them are refused: so it is the hulls that are tested.
    rounded = [" ".join(point_text(projected(*position)) for position in ring) for ring in blocks[:24]]
    raw = [f"region r{number} {points}" for number, points in enumerate(rounded)]
    refused = [reply.refusal is not None and reply.refusal.number == 10 for reply in map(client.send, raw) if reply]
    assert refused.count(True) > 20
    for ring, command in list(zip(blocks, said.commands))[:100]:
        whole = abs(double_area([projected(*position) for position in ring]))
        assert area_of([command]) == pytest.approx(whole, rel=1e-4)


@pytest.mark.parametrize(("shape", "most"), [(L_SHAPE, 2), (star(12), 13), (star(5), 6), (star(40), 50)])
def test_shapes_are_cut_and_keep_their_area(
    shape: list[tuple[float, float]], most: int, client: Client, tmp_path: Path
) -> None:
    path = tmp_path / "shape.geojson"
    path.write_text(collection(area("P", shape)))
    said = fleet("from", "geojson", path, "--zone", ZONE)
    assert said.status == 0
    names = [command.split()[1] for command in said.commands]
    assert names == [f"P_{number}" for number in range(len(names))] and 1 < len(names) <= most
    assert area_of(said.commands) == abs(double_area([projected(*position) for position in shape]))
    accepted(client, said.lines)


def test_formula_holds_where_the_shape_is(client: Client, tmp_path: Path, chance: random.Random) -> None:
    shape = ragged(chance, 60)
    path = tmp_path / "shape.geojson"
    path.write_text(collection(area("P", shape)))
    said = fleet("from", "geojson", path, "--zone", ZONE)
    ring = [projected(*position) for position in shape]
    assert area_of(said.commands) == abs(double_area(ring))
    x, y = projected(*CENTRE)
    far = 2_000_000
    dots = [(x + chance.randrange(-far, far), y + chance.randrange(-far, far)) for _ in range(300)] + ring
    accepted(client, [*said.lines, "class dot 400 point"])
    accepted(client, [f"insert dot d{number} at {point_text(dot)}" for number, dot in enumerate(dots)])
    formula = next(line for line in said.lines if line.startswith("# INSIDE P: ")).removeprefix("# INSIDE P: ")
    reply = client.send(f"ask 0 RETRIEVE o FROM dot o WHERE {formula}")
    whole = Polygon(ring)
    assert reply is not None
    inside = {f"d{number}" for number, dot in enumerate(dots) if whole.covers(Dot(dot))}
    assert {row.objects[0] for row in reply.records} == inside and 50 < len(inside) < 300


def test_many_shapes_are_cut_exactly(chance: random.Random) -> None:
    for count in [*range(4, 40), 100, 400]:
        ring = corners_left([(round(x * 1e6), round(y * 1e6)) for x, y in ragged(chance, count)])
        parts = convex_parts(ring, 64)
        assert sum(map(double_area, parts)) == double_area(ring)
        assert all(is_convex(part) and 3 <= len(part) <= 64 for part in parts)
        assert {point for part in parts for point in part} <= set(ring)


def test_points_without_a_turn_are_left_out() -> None:
    square = [(0, 0), (10, 0), (10, 10), (0, 10)]
    spike = [(0, 0), (5, 0), (5, 0), (10, 0), (10, 5), (20, 5), (10, 5), (10, 10), (4, 10), (0, 10), (0, 0)]
    assert corners_left(spike) == square and corners_left(spike[::-1]) in [square[at:] + square[:at] for at in range(4)]
    assert corners_left([(0, 0), (5, 5), (9, 9)]) == corners_left([(1, 1), (1, 1)]) == []


def test_circle_of_many_points_is_cut_into_regions_of_at_most_64(client: Client, tmp_path: Path) -> None:
    circle = [beside(900 * math.cos(at * math.pi / 100), 900 * math.sin(at * math.pi / 100)) for at in range(200)]
    path = tmp_path / "circle.geojson"
    path.write_text(collection(area("ring road", circle)))
    said = fleet("from", "geojson", path, "--zone", ZONE)
    assert [len(corners(command)) for command in said.commands] == [64, 64, 64, 14]
    assert said.commands[0].startswith("region ring_road_0 ")
    assert area_of(said.commands) == abs(double_area([projected(*position) for position in circle]))
    accepted(client, said.lines)


def test_formulas_of_many_parts_stay_within_the_limits(client: Client, tmp_path: Path) -> None:
    # As many parts as one formula takes, and with longer names and more parts several formulas.
    accepted(client, ["class van 5 point"])
    accepted(client, [f"region P_{number} (0,0) (1,0) (1,1)" for number in range(128)])
    accepted(client, [f"region {'n' * 28}_{number} (0,0) (1,0) (1,1)" for number in range(200)])
    one, = inside_any([f"P_{number}" for number in range(128)])
    several = list(inside_any([f"{'n' * 28}_{number}" for number in range(200)]))
    assert len(several) == 3 and sum(each.count("INSIDE") for each in several) == 200
    for formula in (one, *several):
        accepted(client, [f"ask 10 RETRIEVE o FROM van o WHERE {formula}"])
    assert [len(list(inside_any([f"P_{at}" for at in range(count)]))) for count in (1, 128, 129, 257)] == [1, 1, 2, 3]


def test_regions_end_at_their_limit(client: Client, tmp_path: Path) -> None:
    path = tmp_path / "stars.geojson"
    path.write_text(collection(area("big", star(1_100, size=20_000)), area("small", star(200, size=5_000))))
    said = fleet("from", "geojson", path, "--zone", ZONE, "--dent", "0.001")
    fault, = said.faults
    assert said.status == 1 and "feature 1 (big): fault: it has 1," in fault and "at most 1,024 regions" in fault
    accepted(client, said.lines)
    assert len(said.commands) >= 200 and all(command.startswith("region small_") for command in said.commands)
    simple = fleet("from", "geojson", path, "--zone", ZONE, "--simplify", "9000")
    assert simple.status == 0 and len(simple.commands) < 100


def polygon(*rings: list[list[float]]) -> dict[str, Any]:
    return {"type": "Feature", "id": "P", "properties": {}, "geometry": {"type": "Polygon", "coordinates": rings}}


def geometry(kind: str, coordinates: Any) -> dict[str, Any]:
    return {"type": "Feature", "id": "P", "properties": {}, "geometry": {"type": kind, "coordinates": coordinates}}


SQUARE = [[11.5, 48.1], [11.51, 48.1], [11.51, 48.11], [11.5, 48.11], [11.5, 48.1]]
HOLE = [[11.502, 48.102], [11.504, 48.102], [11.504, 48.104], [11.502, 48.102]]
THIN = [[11.5, 48.1], [11.500000001, 48.1], [11.5, 48.100000001], [11.5, 48.1]]


@pytest.mark.parametrize(
    ("feature", "message"),
    [
        (polygon(SQUARE, HOLE), "it has 1 hole, which a region can't have"),
        (geometry("MultiPolygon", [[SQUARE], [SQUARE, HOLE, HOLE]]), "polygon 2: it has 2 holes"),
        (polygon(SQUARE[:-1]), "its ring isn't closed: the last position isn't the first one"),
        (polygon(SQUARE[:2] + SQUARE[:1]), "less than four positions"),
        (polygon([SQUARE[at] for at in (0, 2, 1, 3, 0)]), "its sides cross or touch near 11.505000,48.105"),
        (polygon(THIN), "nothing of its area is left"),
        (polygon([*SQUARE[:2], [11.51, 98.11], *SQUARE[3:]]), "position 3: the latitude 98.11 is out of range"),
        (polygon([*SQUARE[:2], [-191, 48.11], *SQUARE[3:]]), "position 3: the longitude -191 is out of range"),
        (polygon([*SQUARE[:2], [-11.51, 48.11], *SQUARE[3:]]), "-11.51,48.11 is out of the range of EPSG:32632"),
        (polygon([*SQUARE[:2], ["11.51", 48.11], *SQUARE[3:]]), "position 3 isn't a longitude and a latitude"),
        (polygon([*SQUARE[:2], [11.51], *SQUARE[3:]]), "position 3 isn't a longitude and a latitude"),
        (polygon(), "it has no ring"),
        (polygon([]), "its ring has less than four positions"),
        (geometry("MultiPolygon", 3), "its geometry has no coordinates"),
        (geometry("LineString", SQUARE), "its geometry is LineString: only areas"),
        ({"type": "Feature", "id": "P", "geometry": None}, "its geometry is nothing"),
        ({"id": "P"}, "it is no feature"),
    ],
)  # fmt: skip
def test_faults_are_told_by_place_and_the_rest_is_written(
    feature: dict[str, Any], message: str, tmp_path: Path
) -> None:
    path = tmp_path / "areas.geojson"
    path.write_text(collection(area("A", star(3)), feature, area("B", L_SHAPE)))
    said = fleet("from", "geojson", path, "--zone", ZONE)
    fault, = said.faults
    assert said.status == 1 and f"{path}: feature 2 (P): fault: " in fault and message in fault
    assert {command.split()[1][0] for command in said.commands} == {"A", "B"}


@pytest.mark.parametrize(
    ("text", "message"),
    [
        ("", ":1:1: this is no JSON"),
        ('{"type":"FeatureCollection",\n"features":[}', ":2:13: this is no JSON"),
        ("[]", "this is no GeoJSON"),
        ('{"type":"FeatureCollection"}', "the collection has no list of features"),
        ("[" * 100_000, "nested too deeply"),
        ('{"type":"Point","coordinates":[1,2],"crs":{"type":"name","properties":{"name":"EPSG:25832"}}}', "EPSG:25832"),
    ],
    ids=["empty", "cut", "list", "no features", "deep", "system"],
)
def test_files_that_are_no_geojson(text: str, message: str, tmp_path: Path) -> None:
    path = tmp_path / "areas.geojson"
    path.write_text(text)
    said = fleet("from", "geojson", path, "--zone", ZONE)
    assert (said.status, said.lines, len(said.told)) == (1, [], 1) and message in said.told[0]


def test_a_geometry_alone_and_systems_that_are_degrees(tmp_path: Path) -> None:
    path = tmp_path / "areas.geojson"
    document = {"type": "Polygon", "coordinates": [SQUARE]}
    document["crs"] = {"type": "name", "properties": {"name": "urn:ogc:def:crs:OGC:1.3:CRS84"}}
    path.write_text("\ufeff" + json.dumps(document))
    said = fleet("from", "geojson", path, "--zone", ZONE)
    assert said.status == 0 and said.commands[0].startswith("region feature_1 (")
    assert corners(said.commands[0]) == [projected(*position) for position in SQUARE[:-1]]
    path.write_text(collection())
    assert fleet("from", "geojson", path, "--zone", "auto") == (0, [], [])


def test_names_are_new_or_those_of_the_map(tmp_path: Path, schema: Path) -> None:
    path, names = tmp_path / "areas.geojson", tmp_path / "areas.names.csv"
    ids = ["AB-12", "AB 12", "Zürich/HB", "7", "tick", "plain", "x" * 40]
    path.write_text(collection(*(area(each, L_SHAPE) for each in ids)))
    said = fleet("from", "geojson", path, "--zone", ZONE)
    found = [command.split()[1].removesuffix("_0") for command in said.commands if command.split()[1].endswith("_0")]
    assert found == ["AB_12", "AB_12_2", "Zurich_HB", "v_7", "v_tick", "plain", "x" * 27]
    assert names.read_text("utf-8").splitlines()[:3] == ["id,name", "AB-12,AB_12", "AB 12,AB_12_2"]
    before = names.read_bytes()
    path.write_text(collection(*(area(each, L_SHAPE) for each in reversed(ids))))
    again = fleet("from", "geojson", path, "--zone", ZONE)
    assert sorted(again.commands) == sorted(said.commands) and names.read_bytes() == before
    # A name that is another id's, and one that the schema has.
    schema.write_text(CLASSES + "insert van Q_1\n")
    path.write_text(collection(area("AB_12", L_SHAPE), spot("Q-1", 11.5, 48.1)))
    last = fleet("from", "geojson", path, "--zone", ZONE, "--schema", schema)
    assert [command.split()[1] for command in last.commands[:1]] == ["AB_12_3_0"]
    assert last.commands[-1].startswith("insert van Q_1_2 at ")


def test_ids_that_cant_be_kept_are_told(tmp_path: Path) -> None:
    path = tmp_path / "areas.geojson"
    path.write_text(collection(*(area(each, L_SHAPE) for each in ("a\nb", "\ud800", "中", "文"))))
    said = fleet("from", "geojson", path, "--zone", ZONE)
    assert [fault.partition("feature ")[2] for fault in said.faults] == [
        "2 (?): fault: the id has half a character, which UTF-8 doesn't write"
    ]
    assert [command.split()[1] for command in said.commands] == ["a_b_0", "a_b_1", "__0", "__1", "__2_0", "__2_1"]
    assert (tmp_path / "areas.names.csv").read_text("utf-8") == 'id,name\n"a\nb",a_b\n中,_\n文,__2\n'


def test_a_faulty_map_is_told(tmp_path: Path) -> None:
    path, names = tmp_path / "areas.geojson", tmp_path / "names.csv"
    path.write_text(collection(area("A", L_SHAPE)))
    for text, message in [
        ("name,id\n", ":1: the first row of a file of names is id,name"),
        ("id,name\nA-1,A-1\n", ":2:2: A-1 is no name"),
        ("id,name\nA-1,A_1\nA-2,A_1\n", ":3: the id or the name stands in a row before"),
        ("id,name\nA-1\n", ":2: A-1 isn't an id and a name"),
    ]:
        names.write_text(text)
        said = fleet("from", "geojson", path, "--zone", ZONE, "--names", names)
        assert (said.status, said.lines) == (1, []) and message in said.told[0], said.told


def test_regions_that_are_there_are_told(tmp_path: Path, schema: Path) -> None:
    schema.write_text(CLASSES + "region A (0,0) (1,0) (1,1)\nregion B_1 (0,0) (1,0) (1,1)\n")
    path = tmp_path / "areas.geojson"
    path.write_text(collection(area("A", star(3)[::2]), area("B", L_SHAPE), area("C", L_SHAPE), area("C", L_SHAPE)))
    said = fleet("from", "geojson", path, "--zone", ZONE, "--schema", schema)
    assert [fault.partition("fault: ")[2] for fault in said.faults] == [
        "there is a region A already",
        "there is a region B_1 already",
        "there is a region C_0 already",
    ]
    assert [command.split()[1] for command in said.commands] == ["C_0", "C_1"]


def test_points_become_objects(client: Client, tmp_path: Path, schema: Path) -> None:
    path = tmp_path / "points.geojson"
    schema.write_text(CLASSES + "class post 2 point\ninsert van b\ninsert post p\n")
    path.write_text(
        collection(
            spot("a", 11.5, 48.1, fuel=3.14159, plate="KA 1", seats=None, speed=10, course=90),
            spot("b", 11.6, 48.1, fuel="7", **{"fuel.rate": -0.5}, driver="x"),
            spot("p", 11.6, 48.1),
            spot("c", 11.6, 48.1, plate='"'),
            spot("d", 11.6, 48.1, fuel="much"),
        )
    )
    said = fleet("from", "geojson", path, "--zone", ZONE, "--schema", schema, "--class", "van")
    assert place_text(11.5, 48.1) in said.commands[0] and said.commands[0].endswith(' fuel = 3.142 plate = "KA 1"')
    assert said.commands[1] == f"update b at {place_text(11.6, 48.1)} fuel = 7 rate -0.5"
    assert [fault.partition("feature ")[2] for fault in said.faults] == [
        "3 (p): fault: p is an object of post, and not of van",
        "4 (c): fault: a text has no quotes in it",
        "5 (d): fault: much is no number",
    ]
    accepted(client, [*schema.read_text().splitlines(), *said.lines])
    nowhere = fleet("from", "geojson", path, "--zone", ZONE)
    assert nowhere.status == 1 and "--session or --schema tells them" in nowhere.told[-1]


def place_text(lon: float, lat: float) -> str:
    return point_text(projected(lon, lat))
