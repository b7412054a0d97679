"""Sessions that tests look at, and what the program tells of them."""

import csv
from pathlib import Path

from conftest import TOP
from fleet.client import Client
from fleet.look.history import commands_in
from fleet.present import number_text
from fleet.session_text import saved, ticks_of
from test_roll import CLASSES, QUERIES, REGIONS, Maker

EXAMPLE = TOP / "examples" / "fleet.domino"
POINT_CLASSES = ("van", "depot")
"""Those of `made_session` whose objects have a place."""


def saved_session(program: Path, folder: Path, lines: list[str], name: str = "session") -> Path:
    """The file of the session that these lines make; those that are refused change nothing."""
    with Client(program, directory=folder, patience=60) as client:
        for _ in client.send_many([*lines, f'save "{name}"']):
            pass
    return folder / name


def example_session(program: Path, folder: Path) -> Path:
    """That of the example of a fleet."""
    lines = [line for line in EXAMPLE.read_text().splitlines() if line != "quit"]
    return saved_session(program, folder, lines, "fleet")


def made_session(program: Path, folder: Path, seed: int, count: int) -> Path:
    """One of lines made at random."""
    maker = Maker(seed)
    lines = [*(text for text, _ in CLASSES.values()), *REGIONS, f"keep all 5000 {QUERIES[0]}"]
    return saved_session(program, folder, [*lines, *(maker.line() for _ in range(count))])


def commands_of(session: Path) -> list[bytes]:
    """Its commands."""
    with session.open("rb") as text:
        return commands_in(text)


def at_tick(program: Path, session: Path, tick: int) -> Client:
    """A client of the program with the session as it was, or will be, at a tick."""
    taken, clock = [], 0
    for command in commands_of(session):
        if clock + ticks_of(command) > tick:
            break
        clock += ticks_of(command)
        taken.append(command.decode("ascii"))
    taken += [f"tick {tick - clock}"] if tick > clock else []
    (session.parent / "then").write_bytes(b"".join(saved(taken)))
    return Client(program, "then", session.parent, patience=60)


def exported(client: Client, class_name: str) -> dict[str, tuple[str, str, str, str]]:
    """The objects of a class as the program exports them: x, y and their slopes, as texts."""
    reply = client.send(f'export {class_name} "places.csv"')
    if reply is None or reply.refusal:
        return {}
    with (client.directory / "places.csv").open(encoding="ascii", newline="") as text:
        return {row["name"]: (row["x"], row["y"], row["x.rate"], row["y.rate"]) for row in csv.DictReader(text)}


def place_texts(place: tuple[int, int], slope: tuple[int, int]) -> tuple[str, ...]:
    """A place and its slope in thousandths, as `exported` has them."""
    return tuple(map(number_text, (*place, *slope)))
