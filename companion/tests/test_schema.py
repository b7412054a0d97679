"""The record of names against the program's own list and sessions."""

import random
from pathlib import Path

import pytest

from conftest import SEED
from fleet.client import Client
from fleet.replies import ListedClass, ListedClock, ListedQuery, ListedRegion
from fleet.schema import Object, Query, Schema, listing
from lines import Statements

LINES = 600


def listed(schema: Schema) -> list[object]:
    """What `list` tells of such names."""
    return [
        ListedClock("clock", "", schema.clock),
        *(ListedClass("class", each.name, each.names, each.capacity) for each in schema.classes.values()),
        *(ListedRegion("region", each.name, len(each.corners)) for each in schema.regions.values()),
        *(ListedQuery(each.kind, each.name, each.entry, each.expiry) for each in schema.queries.values()),
    ]


@pytest.fixture
def recorded(client: Client) -> Schema:
    """The names after many lines, of which those are recorded that the program accepts."""
    schema, statements = Schema(), Statements(random.Random(SEED))
    lines = [*Statements.SETUP, *(statements.line() for _ in range(LINES))]
    for line, reply in zip(lines, client.send_many(lines)):
        if reply.ok:
            schema.record(line)
    return schema


def test_knows_what_the_program_lists(client: Client, recorded: Schema) -> None:
    assert client.send("list").records == listed(recorded)
    assert len(recorded.classes) > 3 and len(recorded.regions) > 1 and recorded.queries


def test_knows_which_objects_are_present(client: Client, recorded: Schema) -> None:
    for name in recorded.classes:
        rows = client.send(listing(name)).records
        assert [row.objects[0] for row in rows] == [each.name for each in recorded.present(name)]


def test_knows_the_same_of_a_saved_session(client: Client, recorded: Schema) -> None:
    assert client.send('save "s"').ok
    saved = Schema.of_session(client.directory / "s")
    assert saved.entries == recorded.entries
    assert listed(saved) == listed(recorded)
    assert (saved.classes, saved.objects, saved.regions) == (recorded.classes, recorded.objects, recorded.regions)
    assert [each.targets for each in saved.queries.values()] == [each.targets for each in recorded.queries.values()]


def test_takes_what_an_import_brings(client: Client, tmp_path: Path) -> None:
    (tmp_path / "f.csv").write_text("name,x\na,1\nb,2\na,3\n")
    schema = Schema()
    for line in ("class car 5 point", "insert car b", "remove b", 'import car "f.csv"'):
        assert client.send(line).ok
        schema.record(line)
    schema.record_rows("car", ["a", "b", "a"])
    assert schema.entries == 6
    assert list(schema.objects.values()) == [Object("b", "car"), Object("a", "car")]
    assert client.send("list").records == listed(schema)


def test_reads_lines_as_they_are_typed() -> None:
    schema = Schema.of_lines(
        [
            "\tclass car  7 point(fuel dyn,plate\ttext)",
            "class post 2",
            "region P(0,-1.5)(4, - 0.001)( 4,4 )",
            "# comment",
            "",
            "tick 007",
            "watch w 010  RETRIEVE o,n FROM car o,post n WHERE o.fuel<3 ",
            "list",
            "ask 3 RETRIEVE o FROM car o WHERE TRUE",
        ]
    )
    assert schema.classes["car"].attributes == {"x": "dyn", "y": "dyn", "fuel": "dyn", "plate": "text"}
    assert schema.classes["car"].columns == ("x", "x.rate", "y", "y.rate", "fuel", "fuel.rate", "plate")
    assert schema.classes["post"].attributes == {}
    assert schema.regions["P"].corners == ((0, -1500), (4000, -1), (4000, 4000))
    text = "RETRIEVE o,n FROM car o,post n WHERE o.fuel<3"
    assert schema.queries == {"w": Query("w", "watch", 7, 17, text, ("o", "n"), (("car", "o"), ("post", "n")), 14)}
    assert (schema.clock, schema.entries, schema.product) == (7, 5, 14)
    schema.record("drop w")
    assert schema.queries == {}
