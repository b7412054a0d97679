"""Rows with longitude and latitude become inserts and updates, and what they can't is told by row, column and cause."""

import os
import subprocess
import sys
from pathlib import Path

import pytest

from fleet import cli
from fleet.client import Client
from fleet.ways.commands import point_text
from ways import CENTRE, CLASSES, ZONE, Said, accepted, beside, fleet, place_of, projected

TOP = Path(__file__).resolve().parents[2]
HERE = f"{CENTRE[0]},{CENTRE[1]}"
PLACE = point_text(projected(*CENTRE))


@pytest.fixture
def schema(tmp_path: Path) -> Path:
    path = tmp_path / "classes.domino"
    path.write_text(CLASSES)
    return path


def said_of(tmp_path: Path, text: str, *words: str | Path, encoding: str = "utf-8") -> Said:
    """What `fleet from csv` says of a file."""
    path, schema = tmp_path / "p.csv", tmp_path / "classes.domino"
    path.write_text(text, encoding)
    return fleet("from", "csv", path, "--zone", ZONE, "--schema", schema, *words)


def test_rows_become_inserts_and_updates(client: Client, tmp_path: Path, schema: Path) -> None:
    schema.write_text(CLASSES + "insert van v2\ninsert van v3\nremove v3\ntick 7\n")
    said = said_of(
        tmp_path,
        "id,lon,lat,fuel,plate,seats\n"
        f'v1,{HERE},1e1,"KA 1",2.0004\nv2,{HERE},,,\nv3,{HERE},-0.0005,,+3\nv1,{HERE},0.30000000000000004,,\n',
    )
    assert said == (
        0,
        [
            f"# fleet plane {ZONE}",
            f'insert van v1 at {PLACE} fuel = 10 plate = "KA 1" seats = 2',
            f"update v2 at {PLACE}",
            f"insert van v3 at {PLACE} fuel = 0 seats = 3",
            f"update v1 at {PLACE} fuel = 0.3",
        ],
        [],
    )
    accepted(client, [*schema.read_text().splitlines(), *said.lines])


def test_columns_and_units_are_named_by_options(tmp_path: Path, schema: Path) -> None:
    text = (
        "Vehicle;Längengrad;lat;ts;v;heading;tank_l;tank_l_h;vin;id\n"
        f"AB 1;{CENTRE[0] * 1e7:.0f};{CENTRE[1]};1717747200500;36;90;12,5;x;W1;9\n".replace(",", ".")
    )
    words = [
        "--delimiter", ";", "--encoding", "latin-1", "--column", "id=Vehicle", "--column", "lon=Längengrad",
        "--unit", "Längengrad=1e-7", "--column", "time=ts", "--unit", "ts=ms", "--column", "speed=v",
        "--unit", "v=km/h", "--column", "course=heading", "--attribute", "fuel=tank_l", "--unit", "tank_l=1000",
        "--attribute", "plate=vin",
        "--start", "2024-06-07T08:00:00Z",
    ]  # fmt: skip
    said = said_of(tmp_path, text, *words, encoding="latin-1")
    _, tick, insert = said.lines
    assert said.status == 0 and tick == "tick 1"
    x, y = place_of(insert)
    # Half a second at ten metres a second to the east.
    assert abs(x - projected(*CENTRE)[0] - 5_000) < 20 and abs(y - projected(*CENTRE)[1]) < 200
    assert insert.startswith("insert van AB_1 at ") and insert.endswith(' fuel = 12500 plate = "W1"')
    assert f"{tmp_path / 'p.csv'}: these columns are left out: tank_l_h, id" in said.told
    rates = said_of(tmp_path, f"name,LON, Lat ,fuel.rate,speed\nv,{HERE},-2.5,7\n")
    assert rates.commands == [f"insert van v at {PLACE} fuel rate -2.5"]


def test_reports_are_told_in_the_order_of_their_times(client: Client, tmp_path: Path, schema: Path) -> None:
    rows = [
        f"a,{HERE},2024-06-07T10:00:05+02:00,10,90",
        f"b,{HERE},2024-06-07 08:00:00,0,",
        f"a,{HERE},1717747200,,",
        f"c,{HERE},1717747203.999999,10,0",
    ]
    said = said_of(tmp_path, "id,lon,lat,time,speed,course\n" + "\n".join(rows) + "\n")
    assert [line.split(" at ")[0] for line in said.commands] == [
        "insert van b", "insert van a", "tick 4", "insert van c", "tick 1", "update a",
    ]  # fmt: skip
    assert said.commands[0] == f"insert van b at {PLACE}" and said.status == 0
    assert " move (" in said.commands[3] and " move (" in said.commands[5]
    accepted(client, [CLASSES.strip(), *said.lines])


@pytest.mark.parametrize(
    ("row", "place", "message"),
    [
        (f"v,{HERE},0,0,5", ":3", "the row has 6 fields, and the first row has 7"),
        (f",{HERE},0,0,5,x", ":3:1", "the id is empty"),
        ("v,,48.1,0,0,5,x", ":3:2", "the number is missing"),
        ("v,11.5E,48.1,0,0,5,x", ":3:2", "11.5E is no number"),
        ("v,1e999,48.1,0,0,5,x", ":3:2", "1e999 is no number"),
        ("v,181,48.1,0,0,5,x", ":3:2", "the longitude 181 is out of range: -180 to 180"),
        ("v,11.5,-90.5,0,0,5,x", ":3:3", "the latitude -90.5 is out of range: -90 to 90"),
        ("v,31.5,48.1,0,0,5,x", ":3", "31.5,48.1 is out of the range of EPSG:32632"),
        (f"v,{HERE},fast,0,5,x", ":3:4", "fast is no number"),
        (f"v,{HERE},-1,0,5,x", ":3:4", "the speed is below 0"),
        (f"v,{HERE},2000,0,5,x", ":3:4", "metres a tick along one axis, and at most 1,000 are allowed"),
        (f"v,{HERE},5,,5,x", ":3:5", "the number is missing"),
        (f"v,{HERE},0,0,2000000000,x", ":3:6", "2000000000 is out of range: at most 1,000,000,000 is allowed"),
        (f"v,{HERE},0,0,5,{'x' * 33}", ":3:7", "the text has 33 bytes, and at most 32 are allowed"),
        (f"v,{HERE},0,0,5,ü", ":3:7", "is no printable ASCII"),
        (f"p,{HERE},0,0,5,x", ":3:1", "p is an object of post, and not of van"),
        (f"w,{HERE},0,0,5,x", ":3:1", "w is one name more than the capacity of van, 3"),
    ],
)
def test_faults_are_told_by_row_and_column(row: str, place: str, message: str, tmp_path: Path, schema: Path) -> None:
    schema.write_text("class van 3 point (fuel dyn,plate text)\nclass post 3\ninsert post p\ninsert van a\n")
    text = f"id,lon,lat,speed,course,fuel,plate\nu,{HERE},0,0,1,\n{row}\nv,{HERE},0,0,2,\n"
    if row.startswith("w"):
        text = text.replace("\nu,", "\nv,")
        schema.write_text(schema.read_text() + "insert van b\nremove b\n")
    said = said_of(tmp_path, text, "--class", "van")
    fault, = said.faults
    assert said.status == 1 and f"p.csv{place}: fault: " in fault and message in fault
    assert len(said.commands) == 2 and said.told[-1] == "1 fault; all else is written"


def test_times_that_cant_be_had(tmp_path: Path, schema: Path) -> None:
    rows = [f"v,{HERE},{time}" for time in ("2024-06-07T08:00:00Z", "", "yesterday", "9999999999", "9" * 30)]
    said = said_of(tmp_path, "id,lon,lat,time\n" + "\n".join(rows) + "\n")
    assert [fault.partition("p.csv")[2] for fault in said.faults] == [
        ":3:4: fault: the time is missing",
        ":4:4: fault: yesterday is no time, as 2024-06-07T08:00:00Z is",
        f":6:4: fault: {'9' * 30} is no time, as 2024-06-07T08:00:00Z is",
        ":5:4: fault: the clock ends at 1,000,000,000, and the time is 8,282,252,799 ticks after the first",
    ]
    assert said.commands == [f"insert van v at {PLACE}"]


@pytest.mark.parametrize(
    ("text", "words", "message"),
    [
        ("", [], "p.csv is empty"),
        ("id,lon\nv,1\n", [], "p.csv has no column lat; --column lat=TITLE says which one it is"),
        ("lon,lat\n", [], "p.csv has no column id"),
        ("id,lon,lat\n", ["--column", "lat=latt"], "there is no column latt; lat?"),
        ("id,lon,lat\n", ["--unit", "speed=km/h"], "there is no column speed"),
        ("id,lon,lat,speed\n", ["--column", "speed=speed"], "there is a speed and no course: a motion is both"),
        ("id,lon,lat,q\n", ["--attribute", "x=q"], "van has no attribute x besides its place"),
        ("id,lon,lat\n", ["--class", "vann"], "there is no class vann with a place; these are: van"),
        ("id,lon,lat\n\xff\n", [], "p.csv isn't in utf-8"),
        ("id,lon,lat,lon\n", [], "p.csv has the column lon twice"),
        ("id,lon,lat\nAB-1,1,1\n", ["--zone", "EPSG:4326"], "EPSG:4326, WGS 84, is no plane of metres"),
        ("id,lon,lat\nAB-1,1,1\n", ["--zone", "EPSG:2263"], "is no plane of metres"),
        ("id,lon,lat\nAB-1,1,1\n", ["--zone", "EPSG:99999"], "EPSG:99999 isn't known"),
    ],
)
def test_what_keeps_a_file_from_being_read(
    text: str, words: list[str], message: str, tmp_path: Path, schema: Path
) -> None:
    path = tmp_path / "p.csv"
    path.write_text(text, "latin-1")
    zone = [] if "--zone" in words else ["--zone", ZONE]
    said = fleet("from", "csv", path, *zone, "--schema", schema, *words)
    assert (said.status, said.lines) == (1, []) and message in said.told[-1], said.told


@pytest.mark.parametrize(
    ("words", "message"),
    [
        (["--zone", "here"], "here isn't of the form EPSG:32632"),
        (["--local", "11.5"], "11.5 isn't LON,LAT in degrees, such as 11.5755,48.1374"),
        (["--local", "11.5,91"], "11.5,91 isn't LON,LAT in degrees"),
        (["--zone", "auto", "--local", "1,2"], "not allowed with argument"),
        (["--column", "fuel=x"], "fuel is none of id, lon, lat, time, speed, course; attributes are named"),
        (["--column", "lon"], "lon has no = between two names"),
        (["--unit", "x=furlongs"], "furlongs is neither one of m/s, km/h, kn, mph, s, ms nor a number"),
        (["--encoding", "morse"], "morse is no known encoding of texts"),
        (["--encoding", "hex"], "hex is no known encoding of texts"),
        (["--delimiter", ";;"], ";; isn't one sign"),
        (["--tick", "0"], "a tick has from 0.001 to 86400 seconds, and not 0"),
        (["--start", "noon"], "noon is no time"),
        (["--hold", "0"], "0 isn't a number of ticks from 1 to 1,000,000,000"),
    ],
)
def test_options_that_are_none(words: list[str], message: str, capsys: pytest.CaptureFixture[str]) -> None:
    with pytest.raises(SystemExit) as ended:
        cli.main(["from", "csv", "x", *words])
    assert ended.value.code == 2 and message in capsys.readouterr().err


def test_files_that_arent_there_and_a_schema_that_is_none(tmp_path: Path, schema: Path) -> None:
    path = tmp_path / "p.csv"
    words = ["from", "csv", path, "--zone", ZONE]
    assert "No such file" in fleet(*words, "--schema", schema).told[-1]
    path.write_text(f"id,lon,lat\nv,{HERE}\n")
    assert "No such file" in fleet(*words, "--schema", tmp_path / "none").told[-1]
    (tmp_path / "s").write_text("domino-session 1\nclass van\nend\n")
    assert "is no session that the program loads" in fleet(*words, "--session", tmp_path / "s").told[-1]
    (tmp_path / "s").write_text("domino-session 1\nclass van 3 point\n")
    said = fleet(*words, "--session", tmp_path / "s")
    assert said.status == 2 and "should be `end`" in said.told[-1]
    schema.write_text(CLASSES + "class post 3 point\n")
    assert "the classes with a place are: van, post" in fleet(*words, "--schema", schema).told[-1]


def test_the_zone_is_chosen_and_told_or_has_to_be_named(tmp_path: Path, schema: Path) -> None:
    path = tmp_path / "p.csv"
    for lon, lat, zone in [(-58.4, -34.6, 32721), (11.5, 48.1, 32632), (179.99, 1, 32660), (5.9999, 60, 32631)]:
        path.write_text(f"id,lon,lat\nv,{lon},{lat}\n")
        said = fleet("from", "csv", path, "--zone", "auto", "--schema", schema)
        assert said.lines[0] == f"# fleet plane EPSG:{zone}" and said.status == 0
        assert said.lines[1] == f"insert van v at {point_text(projected(lon, lat, f'EPSG:{zone}'))}"
        assert said.told == [line for line in said.told if f"the places lie on EPSG:{zone}, WGS 84 / UTM zone" in line]
    unnamed = fleet("from", "csv", path, "--schema", schema)
    assert unnamed.status == 1 and "--zone EPSG:CODE, --zone auto or --local LON,LAT says it" in unnamed.told[-1]
    path.write_text("id,lon,lat\nv,11.5,88\n")
    assert "no zone of UTM has 11.5,88" in fleet("from", "csv", path, "--zone", "auto", "--schema", schema).told[-1]
    assert fleet("from", "csv", path, "--local", "11.5,88", "--schema", schema).commands == ["insert van v at (0,0)"]
    # Of a plane that another file names, no other is taken.
    schema.write_text("# fleet plane EPSG:32633\n" + CLASSES)
    kept = fleet("from", "csv", path, "--zone", "auto", "--schema", schema)
    assert kept.lines[0] == "# fleet plane EPSG:32633" and kept.told == []
    other = fleet("from", "csv", path, "--zone", ZONE, "--schema", schema)
    assert "lies on EPSG:32633, as its comment says, and not on EPSG:32632" in other.told[-1]
    schema.write_text("# fleet plane EPSG:32633\n# fleet plane local 1,2\n" + CLASSES)
    assert "names two planes" in fleet("from", "csv", path, "--schema", schema).told[-1]


def test_local_planes_have_their_point_at_0(tmp_path: Path, schema: Path) -> None:
    path = tmp_path / "p.csv"
    east, north = beside(1_000, 0), beside(0, -1_000)
    path.write_text(f"id,lon,lat\na,{HERE}\nb,{east[0]},{east[1]}\nc,{north[0]},{north[1]}\nd,60,48\n")
    said = fleet("from", "csv", path, "--local", HERE, "--schema", schema)
    assert said.lines[0] == f"# fleet plane local {HERE}" and said.commands[0] == "insert van a at (0,0)"
    (x, y), (left, down) = map(place_of, said.commands[1:])
    assert abs(x - 1_000_000) < 5_000 and abs(y) < 200 and abs(down + 1_000_000) < 5_000 and abs(left) < 200
    assert "60,48 is out of the range of local 11.5755,48.1374: lengths there" in said.faults[0]


def test_live_lines_are_written_as_they_come(tmp_path: Path, schema: Path) -> None:
    """One row, its line, the next row, its line: nothing waits for the end."""
    names = tmp_path / "names.csv"
    words = [
        sys.executable, str(TOP / "companion" / "bin" / "fleet"), "from", "csv", "-", "--live", "--zone", "auto",
        "--schema", str(schema), "--names", str(names),
    ]  # fmt: skip
    environment = {**os.environ, "PYTHONDONTWRITEBYTECODE": "1"}
    with subprocess.Popen(words, stdin=subprocess.PIPE, stdout=subprocess.PIPE, text=True, env=environment) as process:
        assert process.stdin is not None and process.stdout is not None
        process.stdin.write(f"id,lon,lat,speed,course\nv1,{HERE},10,90\n")
        process.stdin.flush()
        assert process.stdout.readline() == f"# fleet plane {ZONE}\n"
        assert process.stdout.readline().startswith(f"insert van v1 at {PLACE} move (")
        for number, (identifier, name) in enumerate([("AB-1", "AB_1"), ("AB-2", "AB_2")]):
            process.stdin.write(f"{identifier},{HERE},,\n")
            process.stdin.flush()
            assert process.stdout.readline() == f"insert van {name} at {PLACE}\n"
            assert len(names.read_text().splitlines()) == number + 2
        process.stdin.close()
        assert process.stdout.read() == "" and process.wait(60) == 0


def test_ids_that_are_no_names_need_a_file_of_names(tmp_path: Path, schema: Path) -> None:
    words = [sys.executable, str(TOP / "companion" / "bin" / "fleet"), "from", "csv", "-", "--zone", ZONE]
    said = subprocess.run(
        [*words, "--schema", str(schema)], input=f"id,lon,lat\nAB-1,{HERE}\nv2,{HERE}\n", capture_output=True,
        text=True, timeout=120, check=False, env={**os.environ, "PYTHONDONTWRITEBYTECODE": "1"},
    )  # fmt: skip
    assert said.returncode == 1 and said.stdout.splitlines()[1:] == [f"insert van v2 at {PLACE}"]
    assert "-:2:1: fault: AB-1 is no name: a name has letters, digits and _ alone; --names FILE keeps" in said.stderr


@pytest.mark.parametrize(
    ("form", "module", "package"),
    [
        ("csv", "pyproj", "python3-pyproj"),
        ("geojson", "shapely", "python3-shapely"),
        ("gpx", "gpxpy", "python3-gpxpy"),
        ("nmea", "pynmea2", "python3-nmea2"),
    ],
)
def test_a_missing_package_is_named(form: str, module: str, package: str) -> None:
    """A module that is None is one that isn't there."""
    program = f"import sys; sys.modules['{module}'] = None; from fleet import cli; "
    program += f"sys.exit(cli.main(['from', '{form}', 'x']))"
    said = subprocess.run(
        [sys.executable, "-c", program], capture_output=True, text=True, timeout=120, check=False,
        env={**os.environ, "PYTHONDONTWRITEBYTECODE": "1", "PYTHONPATH": str(TOP / "companion")},
    )  # fmt: skip
    assert (said.returncode, said.stderr) == (1, f"fleet: this part needs the Debian package {package}\n")
