"""What a session has is written for other programs, and comes back from them as it was."""

import csv
import json
import random
from datetime import datetime, timedelta
from pathlib import Path
from typing import Any

import pytest

from conftest import SEED
from fleet.client import Client
from fleet.present import number_text
from fleet.ways.convex import Point, double_area
from fleet.ways.planes import Local, PlaneFault, Zone, comment, plane_in
from ways import CENTRE, ZONE, accepted, beside, collection, corners, area, fleet, numbers, place_of, places, projected

COUNT = 60
KIND = "class van 100 point (fuel dyn,plate text,seats num,id num,speed dyn)"
COMMENT = f"# fleet plane {ZONE}"


@pytest.fixture
def session(client: Client, tmp_path: Path) -> Path:
    """A saved session of vans that were written at several ticks, one of which was removed, without its plane."""
    chance = random.Random(SEED)
    x, y = projected(*CENTRE)
    near = lambda size: chance.randrange(-8_000_000, 8_000_000) + size  # noqa: E731
    slope = lambda: number_text(chance.randrange(-30_000, 30_000))  # noqa: E731
    accepted(client, [KIND, "class note 3 (words text)", "insert note n"])
    for number in range(COUNT):
        legs = " ".join(f"[({slope()},{slope()}),{chance.randrange(1, 60)}]" for _ in range(chance.randrange(4)))
        at = f"({number_text(near(x))},{number_text(near(y))})"
        settings = f"fuel = {number} rate -0.125 id = {number}"
        accepted(client, [f"insert van v{number} at {at} move {legs} ({slope()},{slope()}) {settings}"])
    accepted(client, ["tick 40", 'update v1 plate = "A,B" seats = 3.5', "update v2 move (1,0)", "update v3 at (1,1)"])
    accepted(client, [f"update v4 at ({number_text(x)},{number_text(y)}) move (0,0)"])
    accepted(client, ["remove v5", "remove v3", "tick 20"])
    accepted(client, ["region yard (691000,5334000) (692000.125,5334000) (691500,5335000.001)", 'save "s"'])
    return tmp_path / "s"


def with_plane(session: Path, text: str = COMMENT) -> Path:
    """The session with a comment before its last line."""
    *lines, end = session.read_text().splitlines()
    path = session.with_name("with-plane")
    path.write_text("\n".join([*lines, text, end]) + "\n")
    return path


def exported(session: Path, ticks: int, program: Path) -> dict[str, Point]:
    """Where the program has the vans of a session after some ticks more."""
    with Client(program, session.name, session.parent) as client:
        accepted(client, [f"tick {ticks}"] if ticks else [])
        return places(client, session.parent)


@pytest.mark.parametrize("form", ["geojson", "csv", "mfjson"])
def test_without_a_plane_nothing_is_written(form: str, session: Path) -> None:
    said = fleet("to", form, session)
    assert (said.status, said.lines, len(said.told)) == (1, [], 1)
    assert "doesn't say on which plane its places lie: --zone EPSG:CODE or --local LON,LAT says it" in said.told[0]
    assert f"`fleet roll {session} NEW` with one of these writes a session that does" in said.told[0]
    assert fleet("to", form, session, "--zone", ZONE) == fleet("to", form, with_plane(session))
    other = fleet("to", form, with_plane(session), "--zone", "EPSG:32633")
    assert (other.status, other.lines) == (1, []) and "lies on EPSG:32632, as its comment says" in other.told[0]


@pytest.mark.parametrize("plane", [Zone(32632), Local(11.5755, 48.1374), Local(-122.25, -0.000000001), Zone(2056)])
def test_planes_are_read_as_they_are_written(plane: Zone | Local) -> None:
    assert plane_in([b"class van 3 point\n", comment(plane).encode() + b"\r\n", b"end\n"]) == plane


@pytest.mark.parametrize(
    "line",
    [
        b"# fleet plane", b"# fleet plane EPSG:0", b"# fleet plane EPSG:32632 ", b"#fleet plane EPSG:32632",
        b" # fleet plane EPSG:32632", b"# fleet plane local 11", b"# fleet plane local 191,4",
        b"# fleet plane local \xff,4", b"# fleet planes EPSG:32632",
    ],
)  # fmt: skip
def test_other_comments_name_no_plane(line: bytes) -> None:
    assert plane_in([line, line + b"\n"]) is None


def test_two_planes_are_told() -> None:
    same = [b"# fleet plane EPSG:32632\n"] * 2
    assert plane_in(same) == Zone(32632)
    with pytest.raises(PlaneFault, match="two planes, EPSG:32632 and local 1,2"):
        plane_in([*same, b"# fleet plane local 1,2"])


def test_roll_carries_the_plane_on(session: Path, program: Path) -> None:
    new, again, plain = (session.with_name(name) for name in ("new", "again", "plain"))
    assert fleet("roll", session, new, "--zone", "32632", "--program", program).status == 0
    assert fleet("roll", new, again, "--program", program).status == 0
    assert fleet("roll", session, plain, "--program", program).status == 0
    for path in (new, again):
        assert path.read_text().splitlines() == [*plain.read_text().splitlines()[:-1], COMMENT, "end"]
    said = fleet("roll", new, again, "--force", "--local", "1,2", "--program", program)
    assert said.status == 1 and "lies on EPSG:32632, as its comment says, and not on local 1,2" in said.told[0]
    assert fleet("to", "csv", again).lines == fleet("to", "csv", session, "--zone", ZONE).lines
    assert exported(again, 0, program) == exported(plain, 0, program)


@pytest.mark.parametrize("tick", [None, 0, 39, 40, 60, 61, 300])
def test_geojson_and_csv_tell_the_places_of_the_program(
    tick: int | None, session: Path, client: Client, program: Path, tmp_path: Path
) -> None:
    words = [] if tick is None else ["--at", str(tick)]
    told = fleet("to", "geojson", session, "--zone", ZONE, *words)
    document = json.loads("\n".join(told.lines))
    found = {each["id"]: each for each in document["features"] if each["properties"]["kind"] == "object"}
    rows = list(csv.DictReader(fleet("to", "csv", session, "--zone", ZONE, *words).lines))
    if tick is None or tick >= 60:
        wanted = exported(session, (tick or 60) - 60, program)
    else:
        # Of a past tick: what the first commands of the session give by then.
        lines = session.read_text().splitlines()[2:-1]
        count = lines.index("tick 40") if tick < 40 else lines.index("tick 20")
        (tmp_path / "past").write_text("\n".join(["domino-session 1", *lines[:count], "end"]) + "\n")
        wanted = exported(tmp_path / "past", tick if tick < 40 else tick - 40, program)
    assert told.status == 0 and found.keys() == wanted.keys() == {row["name"] for row in rows}
    for row in rows:
        name = row["name"]
        assert projected(*found[name]["geometry"]["coordinates"]) == wanted[name]
        assert projected(float(row["lon"]), float(row["lat"])) == wanted[name]


def test_geojson_tells_attributes_and_regions(session: Path) -> None:
    document = json.loads("\n".join(fleet("to", "geojson", session, "--zone", ZONE).lines))
    features: dict[str, Any] = {each["id"]: each for each in document["features"]}
    assert list(features)[:2] == ["yard", "v0"] and "v5" not in features and "n" not in features
    ring = features["yard"]["geometry"]["coordinates"][0]
    assert ring[0] == ring[-1] and double_area([projected(*position) for position in ring[:-1]]) > 0
    told = features["v1"]["properties"]
    assert {key: told[key] for key in ("name", "class", "tick", "fuel", "fuel.rate", "plate", "seats")} == {
        "name": "v1", "class": "van", "tick": 60, "fuel": -6.5, "fuel.rate": -0.125, "plate": "A,B", "seats": 3.5,
    }  # fmt: skip
    alone = json.loads("\n".join(fleet("to", "geojson", session, "--zone", ZONE, "--class", "van").lines))
    assert [each["id"] for each in alone["features"]] == list(features)[1:]


def test_csv_comes_back_as_it_was(session: Path, client: Client, program: Path, tmp_path: Path) -> None:
    path, begin = tmp_path / "out.csv", tmp_path / "begin.domino"
    text = fleet("to", "csv", session, "--zone", ZONE).lines
    path.write_text("\n".join(text) + "\n")
    begin.write_text(KIND + "\n")
    assert text[0] == "name,lon,lat,speed,course,fuel,fuel.rate,plate,seats,van.id,van.speed,van.speed.rate"
    back = fleet("from", "csv", path, "--zone", ZONE, "--schema", begin)
    assert back.status == 0 and back.told == []
    with Client(program, directory=tmp_path) as other:
        accepted(other, [KIND, *back.lines, 'export van "back.csv"'])
    with Client(program, session.name, session.parent) as other:
        accepted(other, ['export van "was.csv"'])
    # The slopes along both axes too, to the thousandth.
    assert (tmp_path / "back.csv").read_bytes() == (tmp_path / "was.csv").read_bytes()


def test_regions_come_back_as_they_were(session: Path, client: Client, tmp_path: Path) -> None:
    path = tmp_path / "out.geojson"
    chance = random.Random(SEED)
    shapes = [[beside(chance.uniform(-9e3, 9e3), chance.uniform(-9e3, 9e3)) for _ in range(3)] for _ in range(40)]
    path.write_text(collection(*(area(f"r{number}", shape) for number, shape in enumerate(shapes))))
    first = fleet("from", "geojson", path, "--zone", ZONE)
    accepted(client, [*first.lines, 'save "regions"'])
    path.write_text("\n".join(fleet("to", "geojson", tmp_path / "regions", "--zone", ZONE).lines))
    back = fleet("from", "geojson", path, "--zone", ZONE, "--session", session, "--class", "van")
    was = {command.split()[1]: corners(command) for command in first.commands}
    regions = [command for command in back.commands if command.startswith("region ")]
    assert {command.split()[1]: corners(command) for command in regions} == was
    again = {command.split()[1]: place_of(command) for command in back.commands if " at " in command}
    assert again == {name: place for name, place in exported_vans(path).items()}


def exported_vans(path: Path) -> dict[str, Point]:
    features = json.loads(path.read_text())["features"]
    return {
        each["id"]: projected(*each["geometry"]["coordinates"])
        for each in features
        if each["properties"]["kind"] == "object"
    }


BEGIN = datetime.fromisoformat("2024-06-07T08:00:00+00:00")


def moving_place(feature: dict[str, Any], tick: int, seconds: float) -> tuple[float, float] | None:
    """Where a moving point of Moving Features is at a tick: on the straight line between two of its points."""
    geometry = feature["temporalGeometry"]
    moment = BEGIN + timedelta(seconds=tick * seconds)
    for part in geometry.get("prisms", [geometry]):
        assert part["type"] == "MovingPoint" and part["interpolation"] == "Linear"
        times = [datetime.fromisoformat(time) for time in part["datetimes"]]
        assert times == sorted(set(times)) and len(times) == len(part["coordinates"])
        if times[0] <= moment <= times[-1]:
            after = next(number for number, time in enumerate(times) if time >= moment)
            before = max(after - 1, 0)
            length = (times[after] - times[before]) / timedelta(seconds=1)
            part_of = (moment - times[before]) / timedelta(seconds=1) / length if length else 0
            a, b = part["coordinates"][before], part["coordinates"][after]
            return a[0] + (b[0] - a[0]) * part_of, a[1] + (b[1] - a[1]) * part_of
    return None


def test_moving_features_are_where_the_program_has_them(session: Path, program: Path, tmp_path: Path) -> None:
    words = ["--start", "2024-06-07T08:00:00Z", "--tick", "2"]
    said = fleet("to", "mfjson", session, "--zone", ZONE, "--first", "0", "--last", "900", *words)
    assert said.status == 0 and said.told == []
    document = json.loads("\n".join(said.lines))
    features = {each["id"]: each for each in document["features"]}
    lines = session.read_text().splitlines()[2:-1]
    for tick in (0, 17, 39, 40, 59, 60, 100, 437, 900):
        count = lines.index("tick 40") if tick < 40 else lines.index("tick 20") if tick < 60 else len(lines)
        clock = 0 if tick < 40 else 40 if tick < 60 else 60
        (tmp_path / "then").write_text("\n".join(["domino-session 1", *lines[:count], "end"]) + "\n")
        for name, place in exported(tmp_path / "then", tick - clock, program).items():
            found = moving_place(features[name], tick, 2)
            assert found is not None
            here = projected(*found)
            # A piece that is straight in degrees is bent on the plane by a tenth of a metre at most.
            assert abs(here[0] - place[0]) <= 110 and abs(here[1] - place[1]) <= 110, (name, tick)
    assert moving_place(features["v5"], 39, 2) and moving_place(features["v5"], 40, 2) is None
    jumps = [name for name, each in features.items() if "prisms" in each["temporalGeometry"]]
    assert "v4" in jumps and "v1" not in jumps and "v2" not in jumps


def test_windows_of_moving_features(session: Path) -> None:
    words = ["to", "mfjson", session, "--zone", ZONE]
    document = json.loads("\n".join(fleet(*words, "--class", "van").lines))
    first = document["features"][0]["temporalGeometry"]["datetimes"]
    assert (first[0], first[-1]) == ("1970-01-01T00:01:00Z", "1970-01-01T01:01:00Z")
    one = json.loads("\n".join(fleet(*words, "--first", "60", "--last", "60").lines))
    assert {len(each["temporalGeometry"]["datetimes"]) for each in one["features"]} == {1}
    assert "the last tick, 3, is before the first, 60" in fleet(*words, "--last", "3").told[0]
    assert "is past the year 9999" in fleet(*words, "--tick", "86400", "--last", "9000000").told[0]
    for form in ("geojson", "csv", "mfjson"):
        said = fleet("to", form, session, "--zone", ZONE, "--class", "note")
        assert "there is no class note with a place; these are: van" in said.told[0]


def test_places_out_of_range_are_told_and_the_rest_is_written(session: Path) -> None:
    said = fleet("to", "csv", session, "--zone", ZONE, "--at", "100000000")
    assert said.status == 1 and len(said.faults) == COUNT - 3 and len(said.lines) == 2
    assert said.lines[1].startswith("v4,") and "s: v0: fault: " in said.faults[0]


@pytest.mark.parametrize(
    ("text", "status", "message"),
    [
        ("", 2, "line 1 of the session isn't that of a saved session"),
        ("domino-session 1\nclass van 3 point\n", 2, "should be `end`"),
        ("domino-session 1\nupdate v\nend\n", 1, "is no session that the program loads"),
    ],
)
def test_sessions_that_are_none(text: str, status: int, message: str, tmp_path: Path) -> None:
    path = tmp_path / "s"
    path.write_text(text)
    for form in ("geojson", "csv", "mfjson"):
        said = fleet("to", form, path, "--zone", ZONE)
        assert (said.status, said.lines) == (status, []) and message in said.told[0]
    assert "No such file" in fleet("to", "csv", tmp_path / "none").told[0]


def test_numbers_are_read_as_thousandths() -> None:
    assert numbers("(-1.5,2) 0.001") == [-1500, 2000, 1]
