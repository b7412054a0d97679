"""What the pictures show is what the program tells: places as it exports them, rows as it shows them."""

from pathlib import Path

import pytest

from fleet.client import Client
from fleet.look.answers import NotAnswered, Query, Replay, ask_at, common, difference, queries_of, query_at, union
from fleet.look.history import Change, History, Motion, NotLoaded, NotThere, Track
from fleet.replies import Row
from sessions import (
    POINT_CLASSES, at_tick, commands_of, example_session, exported, made_session, place_texts, saved_session,
)  # fmt: skip


def ticks_to_look_at(clock: int) -> list[int]:
    return [0, clock // 3, clock // 2 + 1, clock, clock + 37]


@pytest.mark.parametrize("seed", [1, 2])
def test_places_are_those_that_the_program_exports(program: Path, tmp_path: Path, seed: int) -> None:
    session = made_session(program, tmp_path, seed, 160)
    history = History.of(commands_of(session))
    for tick in ticks_to_look_at(history.clock):
        with at_tick(program, session, tick) as client:
            for class_name in POINT_CLASSES:
                motions = {track.name: track.at(tick) for track in history.tracks_of(class_name)}
                places = {name: place_texts(m.place, m.slope) for name, m in motions.items() if m is not None}
                assert places == exported(client, class_name), f"{class_name} at {tick}"


def told_rows(client: Client, name: str) -> list[Row]:
    reply = client.send(f"show {name}")
    assert reply is not None and reply.ok
    return [record for record in reply.records if isinstance(record, Row)]


def rows_at(query: Query, tick: int) -> dict[tuple[str, ...], tuple[tuple[int, int], ...]]:
    """The rows of a query at a tick; of a watch the ticks from that one on, which the program still tells."""
    least = tick if query.kind == "watch" else 0
    ticks_left = {
        targets: tuple((max(first, least), last) for first, last in query.spans_at(targets, tick) if last >= least)
        for targets in query.rows
    }
    return {targets: spans for targets, spans in ticks_left.items() if spans}


@pytest.mark.parametrize("seed", [3, 4])
def test_rows_are_those_that_the_program_shows(program: Path, tmp_path: Path, seed: int) -> None:
    session = made_session(program, tmp_path, seed, 160)
    commands = commands_of(session)
    clock = History.of(commands).clock
    queries = queries_of(commands, clock, str(program))
    compared = 0
    for tick in ticks_to_look_at(clock)[:-1]:
        with at_tick(program, session, tick) as client:
            there = [query for query in queries if query.is_there(tick)]
            assert sorted(query.name for query in there) == sorted(client.queries)
            for query in there:
                if query.expiry < tick:
                    continue
                told = [(row.objects, row.spans) for row in told_rows(client, query.name)]
                assert list(rows_at(query, tick).items()) == told, f"{query.name} at {tick}"
                compared += bool(told)
    assert compared >= 4


def test_a_watch_keeps_what_was_told_of_ticks_that_have_passed(program: Path, tmp_path: Path) -> None:
    commands = commands_of(example_session(program, tmp_path))
    town = queries_of(commands, 300, str(program))[0]
    assert town.name == "town" and (town.entry, town.expiry, town.dropped) == (0, 100_000_000, None)
    assert list(town.rows) == [("v1",), ("v2",), ("v4",)]
    assert town.spans_at(("v1",), 19) == ((100, 200),)
    assert town.spans_at(("v1",), 20) == ((112, 222),)
    assert town.spans_at(("v4",), 300) == ((0, 16),)
    assert query_at(commands, 80, "town", str(program))[-1].spans == ((80, 100_000_000),)


def balanced(parts: list[str]) -> str:
    """All parts joined by AND, with brackets that keep the formula low."""
    half = len(parts) // 2
    return f"({balanced(parts[:half])}AND {balanced(parts[half:])})" if half else parts[0]


def test_a_command_that_is_longer_than_a_line_is_replayed(program: Path, tmp_path: Path) -> None:
    term = "+".join(["1"] * 15 + ["o.x"])
    formula = balanced([f"{term}<{number}" for number in range(100, 190)])
    watch = f"watch long 500 RETRIEVE o FROM van o WHERE {formula}"
    lines = ["class van 2 point", "insert van a at (0,0) move (1,0)", watch, "tick 3", "update a move (2,0)", "tick 4"]
    session = saved_session(program, tmp_path, lines)
    commands = commands_of(session)
    assert max(map(len, commands)) > 4_096
    (long,) = queries_of(commands, 7, str(program))
    assert long.rows == {("a",): [(0, ((0, 84),)), (3, ((0, 43),))]}
    with Replay(str(program)) as replay:
        assert [reply.text[-1] for _, reply in replay.run(commands)] == ["ok"] * len(commands)


def test_what_is_not_there_is_told(program: Path, tmp_path: Path) -> None:
    commands = commands_of(example_session(program, tmp_path))
    with pytest.raises(NotThere, match="no query of the name towm .*; there are silent soon town"):
        query_at(commands, 80, "towm", str(program))
    with pytest.raises(NotAnswered, match="4 BadSyntax"):
        ask_at(commands, 80, "ask 60 RETRIEVE o FROM van", str(program))
    with pytest.raises(NotAnswered, match="refuses a command of the session by 7 UnknownName: update v9"):
        queries_of([*commands, b"update v9 at (0,0)"], 300, str(program))


def test_commands_of_no_session_are_told() -> None:
    for command in (b"update a at (0,0)", b"watch w x", b"insert van a", b"tick", b"\xff"):
        with pytest.raises(NotLoaded, match="the program loads no session with this command: "):
            History.of([b"class lorry 3 point", command])


def test_sets_of_ticks() -> None:
    one, other = ((0, 3), (7, 9), (20, 20)), ((2, 7), (9, 12))
    assert union(one, other) == ((0, 12), (20, 20))
    assert common(one, other) == ((2, 3), (7, 7), (9, 9))
    assert difference(one, other) == ((0, 1), (8, 8), (20, 20))
    assert difference(other, one) == ((4, 6), (10, 12))
    assert union((), other) == other and difference(one, one) == common(one, ()) == ()


def test_a_motion_goes_on_by_its_legs() -> None:
    motion = Motion((0, 0), ((1000, 0, 10), (0, -500, 4)), (0, 0))
    assert motion.after(0) == (0, 0) and motion.after(12) == (10_000, -1000) and motion.after(10**9) == (10_000, -2000)
    assert list(motion.turns(12)) == [(10, (10_000, 0)), (12, (10_000, -1000))]
    assert motion.rest(11) == Motion((10_000, -500), ((0, -500, 3),), (0, 0))
    assert motion.rest(11).slope == (0, -500)


def test_a_track_has_gaps_where_the_object_was_removed() -> None:
    track = Track("a", "van")
    moving = Motion((0, 0), (), (1000, 0))
    track.add(2, moving)
    track.add(5, moving.rest(3))
    assert track.changes == [Change(2, moving)]
    track.add(6, None)
    track.add(8, Motion((50, 50)))
    assert track.at(1) is None and track.at(7) is None and track.at(9) == Motion((50, 50))
    assert track.ways_before(9, 100) == [[(0, 0), (4000, 0)], [(50, 50), (50, 50)]]
    assert track.ways_before(5, 2) == [[(1000, 0), (3000, 0)]]
