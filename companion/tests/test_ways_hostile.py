"""Damaged files of every form end in told faults, not in a traceback, and the program takes what is written of them."""

import random
from pathlib import Path

import pytest

from conftest import SEED
from fleet.client import Client
from test_ways_regions import L_SHAPE, star
from test_ways_tracks import gpx, rmc, wandering
from ways import CLASSES, ZONE, accepted, area, collection, fleet, spot

FILES = 30
ODD = (
    b'"', b",", b"\n", b"\x00", b"\xff", b"1e999", b"NaN", b"-", b"null", b"[", b"]", b"{", b"}", b"<", b">", b"9" * 20,
    b"Infinity", b"\xc3\xbc", b" ", b"0", b".", b"true", b"$", b"*", b"A", b"\\ud800",
)  # fmt: skip
WHOLE = {
    "geojson": collection(
        area("A-1", L_SHAPE),
        area("B", star(6)),
        spot("x", 11.5, 48.1, fuel=3, plate="q", speed=3, course=9, time="2024-06-07T08:00:00Z"),
    ),
    "csv": "id,lon,lat,time,speed,course,fuel,plate\n"
    + "".join(f"v-{at % 3},{11.5 + at / 100},48.1,{1717747200 + 3 * at},{at},9,1.5,KA {at}\n" for at in range(8)),
    "gpx": gpx(("v 1", [wandering(12), wandering(5, begin=300)]), ("v2", [wandering(9, step=7)])),
    "nmea": "\r\n".join(rmc(5 * at, 11.5, 48.1, 10, 30 * at) for at in range(8)) + "\r\n",
}


def damaged(text: bytes, chance: random.Random) -> bytes:
    """The text with pieces left out, doubled, or replaced."""
    for _ in range(chance.choice((1, 1, 2, 5))):
        first = chance.randrange(len(text) + 1)
        last = min(first + chance.randrange(40), len(text))
        piece = chance.choice((b"", text[first:last] * 2, chance.choice(ODD), bytes([chance.randrange(256)])))
        text = text[:first] + piece + text[last:]
    return text


@pytest.mark.parametrize("form", WHOLE)
def test_damaged_files(form: str, program: Path, tmp_path: Path) -> None:
    chance = random.Random(SEED)
    schema, path = tmp_path / "classes.domino", tmp_path / f"f.{form}"
    schema.write_text(CLASSES)
    for number in range(FILES):
        path.write_bytes(damaged(WHOLE[form].encode(), chance) if number else WHOLE[form].encode())
        (tmp_path / "f.names.csv").unlink(missing_ok=True)
        words = ["--hold", "20"] if form != "gpx" else ["--go-on"]
        said = fleet("from", form, path, "--zone", ZONE, "--schema", schema, *words)
        assert said.status == (1 if said.faults or not said.lines and said.told else 0), path.read_bytes()
        assert number or said.status == 0
        with Client(program, directory=tmp_path) as client:
            accepted(client, [CLASSES.strip(), *said.lines])
