"""Tracks of GPX and sentences of NMEA become motions by which the program has each object where it was."""

import math
import random
import re
from collections.abc import Iterator, Sequence
from datetime import UTC, datetime, timedelta
from pathlib import Path

import pyproj
import pytest

from conftest import SEED
from fleet.client import Client
from fleet.ways.commands import REST, point_text
from fleet.ways.convex import Point
from fleet.ways.faults import Faults, Where
from fleet.ways.tracks import Stop, Way, in_order
from ways import CLASSES, ZONE, Said, accepted, beside, fleet, move_of, place_of, places, projected

BEGIN = datetime(2024, 6, 7, 8, 0, 0, tzinfo=UTC)
KNOT = 1852 / 3600

Spot = tuple[float, float, float]
"""Seconds, and a longitude and a latitude."""


@pytest.fixture
def schema(tmp_path: Path) -> Path:
    path = tmp_path / "classes.domino"
    path.write_text(CLASSES)
    return path


def gpx(*tracks: tuple[str, Sequence[Sequence[Spot]]]) -> str:
    """A file of named tracks, each of segments of points."""
    return (
        '<?xml version="1.0" encoding="UTF-8"?>\n'
        '<gpx version="1.1" creator="test" xmlns="http://www.topografix.com/GPX/1/1">\n'
        + "".join(
            f"<trk><name>{name}</name>{''.join(map(segment_text, segments))}</trk>\n" for name, segments in tracks
        )
        + "</gpx>\n"
    )


def segment_text(points: Sequence[Spot]) -> str:
    return f"<trkseg>{''.join(point_xml(*point) for point in points)}</trkseg>\n"


def point_xml(seconds: float, lon: float, lat: float) -> str:
    moment = (BEGIN + timedelta(seconds=seconds)).isoformat().replace("+00:00", "Z")
    return f'<trkpt lat="{lat!r}" lon="{lon!r}"><ele>512</ele><time>{moment}</time></trkpt>\n'


def wandering(count: int, step: float = 10, begin: float = 0, seed: int = SEED) -> list[Spot]:
    """Points of a way with a turn at each."""
    chance, x, y, found = random.Random(seed), 0.0, 0.0, []
    for number in range(count):
        found.append((begin + number * step, *beside(x, y)))
        x, y = x + step * chance.uniform(-20, 30), y + step * chance.uniform(-20, 20)
    return found


def said_of(path: Path, text: str, schema: Path, *words: str | Path) -> Said:
    path.write_text(text)
    return fleet("from", "gpx", path, "--zone", ZONE, "--schema", schema, *words)


def test_nine_points_are_one_move_of_eight_legs(client: Client, tmp_path: Path, schema: Path) -> None:
    points = wandering(9)
    said = said_of(tmp_path / "v.gpx", gpx(("v1", [points])), schema)
    insert, tick, rest = said.commands
    assert said.status == 0 and (tick, rest) == ("tick 80", "update v1 move (0,0)")
    assert insert.startswith(f"insert van v1 at {point_text(projected(*points[0][1:]))} move ")
    assert insert.count("[") == 7 and insert.count(",10]") == 7 and len(insert) < 250
    assert said_of(tmp_path / "v.gpx", gpx(("v1", [points])), schema, "--go-on").commands == [insert]
    accepted(client, [CLASSES.strip(), insert, "tick 80"])
    assert distance(places(client, tmp_path)["v1"], projected(*points[-1][1:])) <= 10
    # With one point less there is room for a leg that rests.
    eight, = said_of(tmp_path / "v.gpx", gpx(("v1", [points[:8]])), schema).commands
    assert eight.count("[") == 7 and eight.endswith(" (0,0)")


def distance(a: Point, b: Point) -> int:
    return max(abs(a[0] - b[0]), abs(a[1] - b[1]))


def at_ticks(client: Client, folder: Path, lines: Sequence[str], ticks: Sequence[int]) -> Iterator[dict[str, Point]]:
    """Where objects are at ticks that ascend, by lines that the program takes as the clock comes to them."""
    clock, left = 0, list(ticks)
    for line in [*lines, f"tick {max(ticks) + 1}"]:
        if not line.startswith("tick "):
            accepted(client, [line])
            continue
        end = clock + int(line.split()[1])
        while left and left[0] < end:
            accepted(client, [f"tick {left[0] - clock}"] if left[0] > clock else [])
            clock = left.pop(0)
            yield places(client, folder)
        accepted(client, [f"tick {end - clock}"])
        clock = end


def test_long_tracks_are_followed_by_updates(client: Client, tmp_path: Path, schema: Path) -> None:
    first, second = wandering(300), wandering(150, begin=33, seed=2)
    said = said_of(tmp_path / "v.gpx", gpx(("v1", [first]), ("AB-12", [second])), schema)
    assert said.status == 0 and (tmp_path / "v.names.csv").read_text() == "id,name\nAB-12,AB_12\n"
    updates = [command for command in said.commands if command.startswith("update v1 at ")]
    assert len(updates) == 37 and all(command.count("[") <= 7 for command in said.commands)
    accepted(client, [CLASSES.strip()])
    wanted = {int(point[0]): ("v1", projected(*point[1:])) for point in first}
    wanted |= {int(point[0]): ("AB_12", projected(*point[1:])) for point in second}
    ticks = sorted(wanted)
    for tick, found in zip(ticks, at_ticks(client, tmp_path, said.commands, ticks), strict=True):
        name, place = wanted[tick]
        # A slope of whole thousandths is off by half of one in each of ten ticks at most.
        assert distance(found[name], place) <= 5
    last = places(client, tmp_path)["v1"]
    assert distance(last, projected(*first[-1][1:])) <= 5


def test_places_at_updates_are_exact(tmp_path: Path, schema: Path) -> None:
    points = wandering(25)
    said = said_of(tmp_path / "v.gpx", gpx(("v1", [points])), schema)
    begun = [command for command in said.commands if " at " in command]
    assert [place_of(command) for command in begun] == [projected(*points[at][1:]) for at in (0, 8, 16)]


def test_straight_and_standing_pieces_are_one_leg(tmp_path: Path, schema: Path) -> None:
    points = [(10.0 * at, *beside(0, 0)) for at in range(40)]
    said = said_of(tmp_path / "v.gpx", gpx(("v1", [points])), schema)
    assert said.commands == [f"insert van v1 at {point_text(projected(*beside(0, 0)))}"]
    # Ten legs alike are one, and the eight others fill the function, so that the rest is an update.
    where = Where("here")
    slow = [Stop(10 * at, (50_000 * at, -10 * at), where) for at in range(11)]
    turns = [Stop(100 + 10 * at, (500_000 + 1_000 * at * at, -100), where) for at in range(1, 8)]
    first, rest = in_order([Way("v1", [*slow, *turns])], goes_on=False, faults=Faults())
    assert first.move.legs[0] == (5_000, -1, 100) and len(first.move.legs) == 7
    assert rest.tick == 170 and rest.move == REST


def test_places_between_points_are_those_of_the_ticks(tmp_path: Path, schema: Path) -> None:
    # At 20 metres a second; the points lie at half seconds, the ticks at whole ones.
    points = [(at + 0.5, *beside(20 * (at + 0.5), 0)) for at in range(0, 60, 3)]
    said = said_of(tmp_path / "v.gpx", gpx(("v1", [points])), schema, "--start", "2024-06-07T08:00:00Z")
    assert said.commands[0] == "tick 1"
    assert distance(place_of(said.commands[1]), projected(*beside(20, 0))) < 30
    slow = said_of(tmp_path / "v.gpx", gpx(("v1", [points])), schema, "--start", "2024-06-07T08:00:00Z", "--tick", "5")
    assert distance(place_of(slow.commands[1]), projected(*beside(100, 0))) < 30
    late = said_of(tmp_path / "v.gpx", gpx(("v1", [points])), schema, "--start", "2024-06-07T08:00:10Z")
    assert distance(place_of(late.commands[0]), projected(*beside(200, 0))) < 30
    after = said_of(tmp_path / "v.gpx", gpx(("v1", [points])), schema, "--start", "2024-06-07T09:00:00Z")
    assert after.commands == [] and "1 track that end before the start left out" in after.told
    single = said_of(tmp_path / "v.gpx", gpx(("v1", [points[:1]])), schema, "--start", "2024-06-07T08:00:00Z")
    assert single.commands == ["tick 1", f"insert van v1 at {point_text(projected(*points[0][1:]))}"]


def test_segments_rest_in_between(tmp_path: Path, schema: Path) -> None:
    way = wandering(9)
    later = [(100 + seconds, lon, lat) for seconds, lon, lat in way]
    joined = [(80 + seconds, lon, lat) for seconds, lon, lat in way]
    said = said_of(tmp_path / "v.gpx", gpx(("v1", [way, later])), schema)
    heads = [command.partition(" at ")[0].partition(" move ")[0] for command in said.commands]
    assert heads == ["insert van v1", "tick 80", "update v1", "tick 20", "update v1", "tick 80", "update v1"]
    said = said_of(tmp_path / "v.gpx", gpx(("v1", [joined]), ("v1", [way])), schema)
    heads = [command.partition(" at ")[0].partition(" move ")[0] for command in said.commands]
    assert heads == ["insert van v1", "tick 80", "update v1", "tick 80", "update v1"]
    over = [(50 + seconds, lon, lat) for seconds, lon, lat in way]
    said = said_of(tmp_path / "v.gpx", gpx(("v1", [way]), ("v1", [over])), schema)
    fault, = said.faults
    assert said.status == 1 and "track 2 (v1), point 1: fault: it begins before the way before it" in fault
    assert len(said.commands) == 3


def test_faults_of_tracks_are_told_by_place(tmp_path: Path, schema: Path) -> None:
    way = wandering(12)
    back, out, far = way.copy(), way.copy(), way.copy()
    back[4] = (15, *way[4][1:])
    out[5] = (50, 191.0, 48.0)
    far[6] = (60, *beside(40_000, 0))
    text = gpx(("back", [back]), ("out", [out]), ("far", [far, way]), ("no", [way[:1]]))
    head, _, tail = text.rpartition("<time>")
    said = said_of(tmp_path / "v.gpx", head + tail.partition("</time>")[2], schema)
    told = [re.sub(r"3,9[0-9]{2} .*", "3,9..", fault.partition("v.gpx: ")[2]) for fault in said.faults]
    assert said.status == 1 and told == [
        "track 4 (no), point 1: fault: it has no time",
        "track 1 (back), point 5: fault: the time is before that of the point before it",
        "track 2 (out), point 6: fault: the longitude 191 is out of range: -180 to 180",
        # It is 40 kilometres away for one point, ten ticks after the one before.
        "track 3 (far), segment 1, point 7: fault: it goes 3,9..",
        "track 3 (far), segment 1, point 8: fault: it goes 3,9..",
        "track 3 (far), segment 2, point 1: fault: it begins before the way before it of the same object ends",
    ]  # fmt: skip
    inserted = {command.split()[2] for command in said.commands if command.startswith("insert")}
    assert inserted == {"back", "out", "far"}


def test_files_that_are_no_gpx_and_what_is_left_out(tmp_path: Path, schema: Path) -> None:
    path = tmp_path / "v.gpx"
    bomb = '<!DOCTYPE gpx [<!ENTITY a "1234567890">]><gpx version="1.1"><trk><name>&a;</name></trk></gpx>'
    odd = '<gpx version="1.1"><trk><trkseg><trkpt lat="x" lon="y"/></trkseg></trk></gpx>'
    for text in ("", "<gpx", bomb, odd, "{}"):
        said = said_of(path, text, schema)
        assert (said.status, said.lines) == (1, []) and "v.gpx is no GPX: " in said.told[0]
    text = '<gpx version="1.1"><wpt lat="48" lon="11"/><rte><rtept lat="48" lon="11"/></rte></gpx>'
    said = said_of(path, text, schema)
    assert said.status == 0 and said.lines == [] and len(said.told) == 2
    unnamed = gpx(("", [wandering(3)]))
    assert said_of(path, unnamed, schema).commands[0].startswith("insert van v at ")
    assert said_of(path, unnamed, schema, "--name", "v7").commands[0].startswith("insert van v7 at ")


# ---- NMEA


def rmc(
    seconds: float, lon: float, lat: float, knots: float | None = None, course: float | None = None, status: str = "A"
) -> str:
    """An RMC sentence with its checksum."""
    moment = BEGIN + timedelta(seconds=seconds)
    fields = [
        "GNRMC", f"{moment:%H%M%S}.{moment.microsecond // 10_000:02}", status,
        f"{int(abs(lat)):02}{abs(lat) % 1 * 60:010.7f}", "N" if lat >= 0 else "S",
        f"{int(abs(lon)):03}{abs(lon) % 1 * 60:010.7f}", "E" if lon >= 0 else "W",
        "" if knots is None else f"{knots:.3f}", "" if course is None else f"{course:.2f}", f"{moment:%d%m%y}",
        "", "", "A",
    ]  # fmt: skip
    return summed(",".join(fields))


def summed(text: str) -> str:
    check = 0
    for byte in text.encode():
        check ^= byte
    return f"${text}*{check:02X}"


def test_sentences_become_updates(client: Client, tmp_path: Path, schema: Path) -> None:
    """A file of hundreds of lines: every fifth another sentence, some without a fix, some damaged."""
    chance, path = random.Random(SEED), tmp_path / "v7.nmea"
    lines, wanted, damaged, without = [], [], [], 0
    for number in range(300):
        lon, lat = beside(chance.uniform(-5_000, 5_000), chance.uniform(-5_000, 5_000))
        knots, course = round(chance.uniform(1.5, 80), 3), round(chance.uniform(0, 359), 2)
        sentence = rmc(2 * number, lon, lat, knots, course)
        if number % 5 == 4:
            lines.append(summed("GPGGA,080000.00,4808.0000,N,01134.0000,E,1,08,0.9,545.4,M,46.9,M,,"))
        if number % 40 == 7:
            damaged.append(len(lines) + 1)
            sentence = sentence.replace(",A,", ",A,9", 1)
        elif number % 40 == 9:
            without += 1
            sentence = rmc(2 * number, lon, lat, status="V")
        else:
            wanted.append((2 * number, lon, lat, knots * KNOT, course))
        lines.append(sentence)
    path.write_text("\r\n".join(lines) + "\r\n")
    said = fleet("from", "nmea", path, "--zone", ZONE, "--schema", schema)
    assert said.status == 1 and len(damaged) == without == 8
    assert said.faults == [f"{path}:{line}: fault: its checksum isn't right" for line in damaged]
    assert f"{path}: 8 sentences without a fix left out" in said.told
    updates = [command for command in said.commands if not command.startswith("tick")]
    assert len(updates) == len(wanted) and sum(int(line.split()[1]) for line in said.commands if line[0] == "t") == 598
    accepted(client, [CLASSES.strip(), *said.lines])
    for command, (_, lon, lat, speed, course) in zip(updates, wanted):
        assert distance(place_of(command), projected(lon, lat)) <= 1
        move = move_of(command)
        along_x, along_y = (float(number) for number in move.strip("()").split(","))
        ahead_lon, ahead_lat, _ = pyproj.Geod(ellps="WGS84").fwd(lon, lat, course, speed)
        ahead = projected(ahead_lon, ahead_lat)
        here = projected(lon, lat)
        assert math.hypot(along_x - (ahead[0] - here[0]) / 1000, along_y - (ahead[1] - here[1]) / 1000) < 0.003


def test_late_reports_are_carried_on(tmp_path: Path, schema: Path) -> None:
    path = tmp_path / "v7.nmea"
    lon, lat = beside(0, 0)
    path.write_text("\n".join([rmc(0, lon, lat, 20, 90), rmc(10.25, lon, lat, 20, 0), rmc(60, lon, lat, 20, 180)]))
    words = ["from", "nmea", path, "--zone", ZONE, "--schema", schema, "--name", "AB-12"]
    here, speed = projected(lon, lat), 20 * KNOT * 1000
    now = fleet(*words, "--now", "2024-06-07T08:00:30Z").commands
    assert [command.split(" at ")[0] for command in now] == ["insert van AB_12", "update AB_12", "update AB_12"]
    east, north, future = map(place_of, now)
    assert math.dist(east, here) == pytest.approx(30 * speed, rel=1e-3) and abs(east[1] - here[1]) < 0.05 * 30 * speed
    assert math.dist(north, here) == pytest.approx(19.75 * speed, rel=1e-3) and north[1] > here[1]
    assert distance(future, here) <= 1
    # Between ticks, and before the start.
    replayed = fleet(*words).commands
    assert [line for line in replayed if line.startswith("tick")] == ["tick 11", "tick 49"]
    assert math.dist(place_of(replayed[2]), here) == pytest.approx(0.75 * speed, rel=1e-3)
    later = fleet(*words, "--start", "2024-06-07T08:00:20Z").commands
    assert math.dist(place_of(later[0]), here) == pytest.approx(20 * speed, rel=1e-3)
    # A motion that holds for ten ticks carries no further, and ends.
    held = fleet(*words, "--now", "2024-06-07T08:00:30Z", "--hold", "10").commands
    assert math.dist(place_of(held[0]), here) == pytest.approx(10 * speed, rel=1e-3) and "move" not in held[0]
    assert held[1].endswith(" move (0,0)") and ",10] (0,0)" in held[2]
    assert ",4] (0,0)" in fleet(*words, "--start", "2024-06-07T08:00:06Z", "--hold", "10").commands[0]


@pytest.mark.parametrize(
    ("line", "message"),
    [
        ("hello", "this is no sentence of NMEA"),
        ("$GNRMC,080000.00,A,4808.0", "its checksum isn't right"),
        (summed("GNRMC,080000.00,A,4808.0000,N,01134.0000,E,9.0,,070624,,,A"), "it has a speed and no course"),
        (summed("GNRMC,080000.00,A,4808.0000,N,01134.0000,E,fast,9,070624,,,A"), "its speed or its course is"),
        (summed("GNRMC,080000.00,A,4808.0000,N,01134.0000,E,-9,9,070624,,,A"), "its speed or its course is no number"),
        (summed("GNRMC,080000.00,A,4808.0000,N,01134.0000,E,9,9,,,,A"), "it has no date and time"),
        (summed("GNRMC,250000.00,A,4808.0000,N,01134.0000,E,9,9,070624,,,A"), "it has no date and time"),
        (summed("GNRMC,080000.00,A,4808.0000,N,01134.0000,,9,9,070624,,,A"), "it has no place"),
        (summed("GNRMC,080000.00,A,48x,N,01134.0000,E,9,9,070624,,,A"), "its place isn't in degrees and minutes"),
        (summed("GNRMC,080000.00,A,9808.0000,N,01134.0000,E,9,9,070624,,,A"), "the latitude 98.1333 is out of range"),
        (summed("GNRMC,080000.00,A,4808.0000,N,03134.0000,E,9,9,070624,,,A"), "is out of the range of EPSG:32632"),
        (summed("GNRMC"), "this is no sentence of NMEA"),
        (summed("GNRMC,"), "it has no place"),
    ],
)
def test_faulty_sentences_are_told_by_line(line: str, message: str, tmp_path: Path, schema: Path) -> None:
    path = tmp_path / "v7.nmea"
    good = rmc(0, *beside(0, 0), 0.4, None)
    path.write_text(f"{good}\n\n{line}\n{rmc(5, *beside(0, 0))}\n")
    said = fleet("from", "nmea", path, "--zone", ZONE, "--schema", schema)
    place = point_text(projected(*beside(0, 0)))
    assert said.status == 1 and f"{path}:3: fault: " in said.faults[0] and message in said.faults[0]
    assert said.commands == [f"insert van v7 at {place}", "tick 5", f"update v7 at {place}"]


def test_receivers_are_told_together_by_their_times(tmp_path: Path, schema: Path) -> None:
    for number in (1, 2):
        lines = [rmc(10 * at + 3 * number, *beside(0, 0), 10, 90) for at in range(3)]
        (tmp_path / f"v{number}.nmea").write_text("\n".join(lines))
    words = ["from", "nmea", tmp_path / "v1.nmea", tmp_path / "v2.nmea", "--zone", "auto", "--schema", schema]
    said = fleet(*words)
    assert said.status == 0 and [line.split(" at ")[0] for line in said.commands] == [
        "insert van v1", "tick 3", "insert van v2", "tick 7", "update v1", "tick 3", "update v2", "tick 7",
        "update v1", "tick 3", "update v2",
    ]  # fmt: skip
    assert "--name names the object of one file" in fleet(*words, "--name", "v1").told[0]
    assert "--name says whose reports" in fleet("from", "nmea", "-", "--zone", "auto", "--schema", schema).told[0]
    (tmp_path / "none.nmea").write_text(summed("GPGGA,1") + "\n")
    none = fleet("from", "nmea", tmp_path / "none.nmea", "--zone", "auto", "--schema", schema)
    assert none == (0, [], [f"{tmp_path / 'none.nmea'} has no RMC sentence"])
