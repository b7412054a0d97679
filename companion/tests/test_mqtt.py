"""Positions from a broker of MQTT and changes to it, and the core that all takers of positions share."""

import contextlib
import json
import os
import random
import socket
import subprocess
import sys
import threading
import time
from collections.abc import Callable, Iterator
from pathlib import Path

import paho.mqtt.client as mqtt
import pytest
from brokers import Background, Person, mosquitto
from servers import WAIT, LineClient, Serving, accepted, serving, until

from fleet.brokers.payloads import report_of
from fleet.brokers.topics import matched
from fleet.schema import Schema
from fleet.ways.faults import Unfit, Where
from fleet.ways.fields import Columns
from fleet.ways.identifiers import Names
from fleet.ways.live import LiveObjects
from fleet.ways.measures import SECOND, moment
from fleet.ways.planes import Local
from fleet.ways.projection import Projection
from fleet.ways.reports import Pace, Report
from fleet.ways.tallies import MOST_TOLD, Tally

PLANE = ("--local", "11.57,48.13")
PROJECTION = Projection(Local(11.57, 48.13))
SCHEMA = ["class van 6 point (fuel dyn,plate text)", "region yard (-505,-505) (505,-505) (505,505) (-505,505)"]
WATCH = "watch home 100000000 RETRIEVE o FROM van o WHERE INSIDE(o,yard)"
NOW = moment("2026-11-30T08:00:00Z")


@pytest.fixture
def broker() -> Iterator[Background]:
    with mosquitto() as server:
        yield server


def options(broker: Background, *more: str) -> tuple[str, ...]:
    return ("--mqtt", broker.address, *PLANE, *more)


def counts(client: LineClient) -> dict[str, int]:
    """What the server has counted of the broker's messages; empty where the broker is away."""
    client.told.clear()
    client.ask(":status")
    (told,) = [told for told in client.told if told.startswith("* status mqtt ")]
    state, *counted = told.removeprefix("* status mqtt ").split(", ")
    if state == "broker away":
        return {}
    return {what: int(count) for what, _, count in (each.rpartition(" ") for each in counted)} | {"here": 1}


def counted(client: LineClient, what: str, least: int = 1) -> None:
    """Waits until something is counted so often."""
    until(lambda: counts(client).get(what, 0) >= least, f"{what} {least} of {counts(client)}")


def rows(client: LineClient, server: Serving) -> dict[str, list[str]]:
    """The objects by their names, as they are exported."""
    assert client.ask('export van "rows"') == ["ok"]
    lines = (server.log / "files" / "rows").read_text().splitlines()[1:]
    return {line.split(",")[0]: line.split(",")[1:] for line in lines}


def test_positions_come_and_changes_go(program: Path, tmp_path: Path, broker: Background) -> None:
    with serving(program, tmp_path / "log", *options(broker, "--unit", "speed=km/h")) as server:
        assert server.told[4] == f"MQTT {broker.address}: positions of fleet/positions/+ on local 11.57,48.13, changes to fleet/changes"
        with server.client() as client, Person(broker, "fleet/changes/#", "fleet/server") as person:
            until(lambda: ("fleet/server", "here") in person.heard, "the server")
            accepted(client, *SCHEMA, WATCH)
            person.report("fleet/positions/AB-12", lon=11.57, lat=48.13, fuel=40.1234, plate="KA 1")
            counted(client, "written")
            person.report("fleet/positions/other", id="v1", lon=11.6, lat=48.13)
            counted(client, "written", 2)
            # A tenth of a millimetre of a degree is rounded away.
            person.report("fleet/positions/v1", lon=11.57000000012, lat=48.13, speed=36, course=90)
            counted(client, "written", 3)
            found = rows(client, server)
            # It has gone on while it waited for the report before it.
            assert 0 <= float(found["v1"].pop(0)) < 5
            assert found == {"AB_12": ["0", "0", "0", "0", "40.123", "0", "KA 1"], "v1": ["10", "0", "0", "0", "0", ""]}
            until(lambda: len(person.told("fleet/changes/home")) >= 5, "the changes")
            assert person.told("fleet/changes/home") == [
                {"kind": "watch", "query": "home", "entry": 0, "expiry": 100000000, "tick": 0},
                {"kind": "gain", "query": "home", "objects": ["AB_12"], "spans": [[0, 100000000]], "tick": 0, "ids": ["AB-12"]},
                {"kind": "enter", "query": "home", "objects": ["AB_12"], "tick": 0, "ids": ["AB-12"]},
                {"kind": "gain", "query": "home", "objects": ["v1"], "spans": [[0, 50]], "tick": 0, "ids": ["v1"]},
                {"kind": "enter", "query": "home", "objects": ["v1"], "tick": 0, "ids": ["v1"]},
            ]
            accepted(client, "tick 51", "drop home")
            until(lambda: len(person.told("fleet/changes/home")) >= 7, "the changes")
            assert person.told("fleet/changes/home")[5:] == [
                {"kind": "leave", "query": "home", "objects": ["v1"], "tick": 51, "ids": ["v1"]},
                {"kind": "drop", "query": "home", "tick": 51},
            ]
            assert server.stop() == 0
            until(lambda: person.heard[-1] == ("fleet/server", "away"), "the end")
    # The names and the plane are kept.
    assert (tmp_path / "log" / "names.csv").read_text() == "id,name\nAB-12,AB_12\n"
    with serving(program, tmp_path / "log", "--mqtt", broker.address) as server, server.client() as client:
        with Person(broker) as person:
            counted(client, "here")
            person.report("fleet/positions/AB-12", lon=11.58, lat=48.13)
            counted(client, "written")
            assert list(rows(client, server)) == ["AB_12", "v1"]


def test_a_late_report_is_carried_on(program: Path, tmp_path: Path, broker: Background) -> None:
    with serving(program, tmp_path / "log", *options(broker, "--tick", "0.5")) as server, server.client() as client:
        accepted(client, *SCHEMA)
        counted(client, "here")
        with Person(broker) as person:
            begun = time.time()
            person.report("fleet/positions/v1", lon=11.57, lat=48.13, speed=20, course=90, time=begun - 30)
            counted(client, "written")
            # Older than that one: it was overtaken.
            person.report("fleet/positions/v1", lon=11.59, lat=48.13, speed=20, course=90, time=begun - 31)
            counted(client, "overtaken")
        x, slope = (float(text) for text in rows(client, server)["v1"][:2])
        assert slope == 10, "so many metres in half a second"
        assert 600 <= x <= 600 + 20 * (time.time() - begun + 1)


def test_silent_objects_are_removed_until_they_report_again(
    program: Path, tmp_path: Path, broker: Background
) -> None:
    with serving(program, tmp_path / "log", *options(broker, "--silent", "2")) as server, server.client() as client:
        counted(client, "here")
        accepted(client, *SCHEMA, WATCH, "insert van old")
        with Person(broker, "fleet/silent") as person:
            person.report("fleet/positions/v1", lon=11.57, lat=48.13, time=time.time() - 3)
            counted(client, "late")
            comes_in(client, person)
            counted(client, "silent")
            assert list(rows(client, server)) == ["old"], "no report of it was ever heard"
            until(lambda: person.told("fleet/silent"), "what is told")
            assert person.told("fleet/silent") == [{"kind": "silent", "object": "v_4711", "id": "4711", "tick": 0}]
            comes_in(client, person)
        assert server.stop() == 0
    # A server that is started anew waits for those that are there.
    with serving(program, tmp_path / "log", *options(broker, "--silent", "1")) as server, server.client() as client:
        until(lambda: rows(client, server) == {}, "the end of all")
        counted(client, "silent")


def comes_in(client: LineClient, person: Person) -> None:
    """Reports until a report is written. Where all is slow one may be too old when it is taken."""
    written = counts(client).get("written", 0)

    def came() -> tuple[bool, int]:
        found = counts(client)
        return found.get("written", 0) > written, found.get("late", 0)

    for _ in range(20):
        before = came()
        person.report("fleet/positions/4711", lon=11.57, lat=48.13)
        until(lambda: came() != before, "what came of a report")  # noqa: B023  (called at once)
        if came()[0]:
            return
    raise AssertionError("each report was late")


def test_a_broker_that_goes_away_is_connected_to_again(program: Path, tmp_path: Path, broker: Background) -> None:
    broker.kill()
    with serving(program, tmp_path / "log", *options(broker)) as server, server.client() as client:
        accepted(client, *SCHEMA, WATCH)
        for number in range(1, 4):
            accepted(client, f"insert van v{number}")
            assert broker.start()
            with Person(broker, "fleet/changes/home") as person:
                counted(client, "here")
                person.report("fleet/positions/p", lon=11.57, lat=48.13)
                counted(client, "written", number)
                # What changed meanwhile is published when the broker is there.
                until(lambda: {"enter"} & {told["kind"] for told in person.told("fleet/changes/home")}, "changes")
                assert any(f"v{number}" in told.get("objects", []) for told in person.told("fleet/changes/home"))
            broker.kill()
            until(lambda: not counts(client), "the end of the broker")
        assert "is away, and is connected to again" in server.said()
        assert server.stop() == 0


def hostile(chance: random.Random) -> bytes:
    """A message that is no report."""
    kind = chance.randrange(7)
    report = json.dumps({"lon": 11.57, "lat": 48.13, "time": "2026-11-30T08:00:00Z", "fuel": 3}).encode()
    if kind == 0:
        return chance.randbytes(chance.randint(0, 200))
    if kind == 1:
        return b"[" * chance.choice([10, 5_000]) + b"]" * 10
    if kind == 2:
        return b'{"lon": 11.57, "lat": 48.13, "x": "' + b"x" * 20_000 + b'"}'
    if kind == 3:
        at = chance.randrange(len(report))
        return report[:at] + chance.choice([b"", b"\0", b"}", b'"']) + report[at + 1 + chance.randrange(9) :] + b"?"
    if kind == 4:
        odd = ['NaN', 'Infinity', '1e999', '{"a":1}', '[]', 'true', 'null', '""', '"x"', '181', '-1e400', '9' * 5_000]
        return f'{{"lon": {chance.choice(odd)}, "lat": 48.13}}'.encode()
    if kind == 5:
        return b'{"id": "' + chance.choice([b"\\ud800", b" ", b"x" * 300, b"\\u0000\\ud801"]) + b'", "lon": 190, "lat": 1}'
    return chance.choice([b'"text"', b"7", b"null", b"\xef\xbb\xbf{}", b"{}", b'{"lon": 11.57}', b'{"lon": 90, "lat": 48.13}'])


def test_hostile_messages_are_counted_and_told(program: Path, tmp_path: Path, broker: Background) -> None:
    chance = random.Random(48)
    with serving(program, tmp_path / "log", *options(broker)) as server, server.client() as client:
        counted(client, "here")
        with Person(broker) as person:
            person.report("fleet/positions/early", lon=11.57, lat=48.13)
            counted(client, "faulty")
            assert "--class says of which class the objects are" in server.said()
            accepted(client, *SCHEMA)
            for _ in range(300):
                person.say(f"fleet/positions/{chance.choice(['v1', 'AB-12', 'ü', '$'])}", hostile(chance))
            person.report("fleet/positions/v1", lon=11.57, lat=48.13)
            counted(client, "written")
        found = counts(client)
        assert found["faulty"] == 301 and found["written"] == 1
        assert set(found) <= {"here", "faulty", "taken", "written", "published"}
        assert MOST_TOLD <= server.said().count(": fault: ") <= MOST_TOLD * 5
        assert "Traceback" not in server.said() and server.said().isprintable() is False
        assert all(line.isprintable() for line in server.said().splitlines())
        assert list(rows(client, server)) == ["v1"]
        assert server.stop() == 0


def test_a_broker_that_speaks_no_mqtt_ends_nothing(program: Path, tmp_path: Path) -> None:
    chance, connections = random.Random(7), []

    def answer(listener: socket.socket) -> None:
        with contextlib.suppress(OSError):
            while True:
                connection, _ = listener.accept()
                connections.append(connection)
                connection.sendall(b"\x20\x02\x00\x00")
                # Packets of all kinds with lengths that aren't theirs.
                connection.sendall(b"".join(bytes([chance.randrange(256), 3]) + chance.randbytes(3) for _ in range(50)))
                connection.close()

    with socket.create_server(("127.0.0.1", 0)) as listener:
        thread = threading.Thread(target=answer, args=(listener,), daemon=True)
        thread.start()
        words = ("--mqtt", f"127.0.0.1:{listener.getsockname()[1]}", *PLANE)
        with serving(program, tmp_path / "log", *words) as server, server.client() as client:
            until(lambda: len(connections) >= 3, "further connections")
            accepted(client, *SCHEMA, "insert van a")
            assert server.stop() == 0
        listener.shutdown(socket.SHUT_RDWR)
    thread.join(WAIT)


def test_refusals_are_counted_and_others_lines_are_followed(
    program: Path, tmp_path: Path, broker: Background
) -> None:
    with serving(program, tmp_path / "log", *options(broker, "--class", "van")) as server, server.client() as client:
        accepted(client, *SCHEMA, "class ship 3 point")
        files = tmp_path / "log" / "files"
        (files / "ships").write_text("name,x\nv7,1\n")
        (files / "vans").write_text("name,x\nv2,1\n")
        counted(client, "here")
        with Person(broker) as person:
            for number, line in enumerate(("insert van v1", "remove v1", "update v1", 'import van "vans"'), 1):
                client.ask(line)
                person.report(f"fleet/positions/{'v2' if number == 4 else 'v1'}", lon=11.57, lat=48.13 + number / 1000)
                counted(client, "written", number)
            assert client.ask('import ship "ships"') == ["ok"]
            person.report("fleet/positions/v7", lon=11.57, lat=48.13)
            counted(client, "refused 8 NameTaken")
            for number in range(10):
                person.report(f"fleet/positions/full-{number}", lon=11.57, lat=48.13)
            counted(client, "faulty")
            counted(client, "taken", 15)
            until(lambda: len(rows(client, server)) == 6, "as many as the class takes")
        assert "is one name more than the capacity of van, 6" in server.said()
        assert set(rows(client, server)) == {"v1", "v2", *(f"full_{number}" for number in range(4))}


def test_a_roll_frees_names(program: Path, tmp_path: Path, broker: Background) -> None:
    words = options(broker, "--roll-at", "40")
    with serving(program, tmp_path / "log", *words) as server, server.client() as client:
        accepted(client, *SCHEMA, *(f"{word} van{i}" for i in range(6) for word in ("insert van", "remove")))
        counted(client, "here")
        with Person(broker) as person:
            person.report("fleet/positions/new", lon=11.57, lat=48.13)
            counted(client, "faulty")
            accepted(client, *["tick 1"] * 30)
            until(lambda: client.ask("list") and list((tmp_path / "log").glob("past-*")), "a roll")

            def comes_in() -> bool:
                person.report("fleet/positions/new", lon=11.57, lat=48.13)
                return counts(client).get("written", 0) > 0

            until(comes_in, "room")


def live(
    tell: Callable[[str], None] = lambda message: None, schema: tuple[str, ...] = tuple(SCHEMA), silent: float | None = 60,
    names: Path | None = None, hold: int | None = None,
) -> tuple[LiveObjects, Tally]:
    tally = Tally(tell, lambda: 0.0)
    found = LiveObjects(
        Schema.of_lines(schema), None, Names(names), PROJECTION, Pace(SECOND, hold), silent, tally
    )
    return found, tally


def report(identifier: str, seconds: float | None = 0, **properties: object) -> Report:
    payload = {"lon": 11.58, "lat": 48.131, **properties} | (
        {} if seconds is None else {"time": NOW / SECOND + seconds}
    )
    columns = Columns({}, {}, {})
    its_class = Schema.of_lines(SCHEMA).classes["van"]
    return report_of(json.dumps(payload).encode(), Where("t"), identifier, columns, its_class)


def test_the_lines_are_those_of_the_ways_in(fleet_command: list[str], tmp_path: Path) -> None:
    """What `fleet from csv` writes at a time, the core that adapters share sends."""
    chance = random.Random(3)
    schema = tmp_path / "schema"
    schema.write_text("\n".join([*SCHEMA, "insert van a0"]))
    told = [
        {"id": name, "lon": str(11.57 + chance.uniform(-0.2, 0.2)), "lat": str(48.13 + chance.uniform(-0.2, 0.2)),
         "time": str(NOW // SECOND - chance.randrange(40)), "speed": str(chance.uniform(0, 50)),
         "course": str(chance.uniform(0, 360)), "fuel": str(chance.uniform(0, 99))}
        for name in ("a0", "a-1", "a2", "a 3", "a4")
    ]  # fmt: skip
    (tmp_path / "reports.csv").write_text(
        "\n".join([",".join(told[0]), *(",".join(row.values()) for row in told)])
    )
    run = subprocess.run(
        [*fleet_command, "from", "csv", tmp_path / "reports.csv", *PLANE, "--schema", schema, "--now",
         str(NOW // SECOND), "--hold", "20"],
        capture_output=True, text=True, timeout=WAIT, check=False,
    )  # fmt: skip
    objects, _ = live(schema=(*SCHEMA, "insert van a0"), names=tmp_path / "names.csv", hold=20)
    its_class = Schema.of_lines(SCHEMA).classes["van"]
    for row in told:
        objects.take(report_of(json.dumps(row).encode(), Where("t"), "", Columns({}, {}, {}), its_class), NOW, 0)
    lines = []
    while (line := objects.next(NOW)) is not None:
        lines.append(line.text)
    assert lines == run.stdout.splitlines()[1:] and len(lines) == 5


def test_of_an_object_one_line_is_sent_at_a_time() -> None:
    objects, tally = live()
    objects.take(report("a", 0), NOW, 0)
    objects.take(report("b", 0), NOW, 0)
    first, second = objects.next(NOW), objects.next(NOW)
    assert first and second and (first.identifier, second.identifier) == ("a", "b")
    for seconds in (1, 2, 3):
        objects.take(report("a", seconds, speed=10, course=0), NOW + seconds * SECOND, seconds)
    assert objects.next(NOW) is None
    objects.accepted(first.text.encode())
    assert not objects.replied(first, "")
    third = objects.next(NOW + 5 * SECOND)
    assert third and third.text.startswith("update a at (") and tally.counts == {"overtaken": 2, "written": 1}
    assert objects.next(NOW) is None


def test_what_another_client_has_done_meanwhile_is_tried_again_once() -> None:
    told: list[str] = []
    objects, tally = live(told.append)
    objects.take(report("a"), NOW, 0)
    for beginning, refusal in (("insert van a", "14 Presence"), ("update a", "7 UnknownName")):
        line = objects.next(NOW)
        assert line and line.text.startswith(f"{beginning} at (")
        objects.replied(line, refusal)
    assert objects.next(NOW) is None and tally.counts == {"refused 7 UnknownName": 1}
    objects.take(report("a", 1), NOW, 0)
    line = objects.next(NOW)
    assert line and line.text.startswith("update a")
    objects.replied(line, "7 UnknownName")
    line = objects.next(NOW)
    assert line and line.text.startswith("insert van a")
    objects.replied(line, "108 LogFull")
    assert objects.next(NOW) is None and told[-1].startswith("t: refused 108 LogFull: insert van a at (")


def test_a_time_to_come_does_not_keep_later_reports_out() -> None:
    objects, tally = live()
    objects.take(report("a", 86_400, speed=10, course=0), NOW, 0)
    objects.take(report("a", 1), NOW + SECOND, 1)
    assert tally.counts == {"overtaken": 1}
    objects.take(report("a", -61), NOW, 2)
    objects.take(report("a", None), NOW + 2 * SECOND, 2)
    assert tally.counts == {"overtaken": 2, "late": 1}


def test_faults_are_told_to_a_measure() -> None:
    told: list[str] = []
    now = [0.0]
    tally = Tally(told.append, lambda: now[0])
    for number in range(100):
        tally.fault("faulty", str(number))
    assert told == list(map(str, range(MOST_TOLD))) and tally.counts == {"faulty": 100}
    now[0] = 61.0
    tally.look()
    assert told[MOST_TOLD:] == ["80 more faults weren't told"]
    tally.fault("faulty", "x")
    assert told[-1] == "x"


@pytest.mark.parametrize(
    ("payload", "fault"),
    {
        '{"lon": 1}': "it has no property lat",
        '{"lat": 1, "lon": 181}': "the longitude 181 is out of range: -180 to 180",
        '{"lat": 1, "lon": true}': "its property lon is neither a number nor a text",
        '{"lat": 1, "lon": null}': "the number is missing",
        '{"lat": 1, "lon": 2, "time": "noon"}': "noon is no time, as 2024-06-07T08:00:00Z is",
        '{"lat": 1, "lon": 2, "fuel": {}}': "its property fuel is neither a number nor a text",
        '{"lat": 1, "lon": 2, "fuel": 1e12}': "1000000000000 is out of range",
        '{"lat": 1, "lon": 2, "speed": -1, "course": 2}': "the speed is below 0",
        "[1]": "it is no object of JSON",
        '{"lat": NaN}': 'it is no JSON: {"lat": NaN}',
    }.items(),
)
def test_what_a_message_lacks_is_told(payload: str, fault: str) -> None:
    its_class = Schema.of_lines(SCHEMA).classes["van"]
    with pytest.raises(Unfit) as raised:
        report_of(payload.encode(), Where("t"), "a", Columns({}, {}, {}), its_class)
    assert str(raised.value).startswith(fault)


def test_topics_are_matched_as_brokers_do() -> None:
    chance = random.Random(5)
    for _ in range(2_000):
        topic = "/".join(chance.choices(["a", "b", ""], k=chance.randint(1, 4)))
        levels = chance.choices(["a", "b", "", "+"], k=chance.randint(1, 4)) + ["#"] * chance.randrange(2)
        assert (matched("/".join(levels), topic) is not None) == mqtt.topic_matches_sub("/".join(levels), topic)
    assert matched("owntracks/+/+", "owntracks/ann/phone") == "ann/phone"
    assert matched("a/#", "a/b/c") == "b/c"


BAD_OPTIONS = {
    "--mqtt h --follow --redis r": (2, "a reader takes no positions"),
    "--mqtt a:b:c": (2, "a:b:c isn't of the form HOST:PORT or USER@HOST:PORT"),
    "--mqtt 127.0.0.1": (2, "it isn't known on which plane the places lie"),
    "--mqtt 127.0.0.1 --local 1,1 --topic fleet/#": (2, "the topics fleet/# have fleet/changes/x among them"),
    "--mqtt 127.0.0.1 --local 1,1 --topic a/#/b": (2, "a/#/b is no filter of topics"),
    "--mqtt 127.0.0.1 --local 1,1 --publish a/+": (2, "a/+ isn't a topic"),
}


@pytest.mark.parametrize("words", BAD_OPTIONS)
def test_options_that_cannot_be_had(program: Path, tmp_path: Path, words: str) -> None:
    status, said = BAD_OPTIONS[words]
    with serving(program, tmp_path / "log", *words.split()) as server:
        assert server.process.wait(WAIT) == status
        assert said in server.said()


def test_a_plane_is_kept(program: Path, tmp_path: Path, broker: Background) -> None:
    with serving(program, tmp_path / "log", *options(broker)) as server:
        assert server.stop() == 0
    assert (tmp_path / "log" / "log-00000001").read_text().count("\n# fleet plane local 11.57,48.13\n") == 1
    with serving(program, tmp_path / "log", "--mqtt", broker.address, "--zone", "EPSG:32632") as server:
        assert server.process.wait(WAIT) == 1 and "lies on local 11.57,48.13" in server.said()
    session = tmp_path / "session"
    session.write_text("domino-session 1\n# fleet plane EPSG:32632\nclass car 2 point\nend\n")
    with serving(program, tmp_path / "new", "--mqtt", broker.address, "--session", str(session)) as server:
        assert server.told[4].startswith(f"MQTT {broker.address}: positions of fleet/positions/+ on EPSG:32632")


def test_a_missing_package_is_named(tmp_path: Path, program: Path) -> None:
    fleet = Path(__file__).resolve().parents[1] / "bin" / "fleet"
    (tmp_path / "paho.py").write_text("raise ModuleNotFoundError(name='paho')\n")
    environment = os.environ | {"PYTHONPATH": str(tmp_path)}
    words = [sys.executable, fleet, "serve", "--log", tmp_path / "log", "--mqtt", "127.0.0.1"]
    said = subprocess.run(words, capture_output=True, text=True, timeout=WAIT, check=False, env=environment)
    assert (said.returncode, said.stderr) == (1, "fleet: this part needs the Debian package python3-paho-mqtt\n")
