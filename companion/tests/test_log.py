"""The log: what a crash leaves of it, and what is read of that."""

import contextlib
import os
import resource
import zlib
from collections.abc import Callable, Iterator
from pathlib import Path

import pytest

from fleet.serve.closed import NoLog, open_session
from fleet.serve.locks import FolderInUse
from fleet.serve.log import Log, LogFull
from fleet.serve.outcomes import MOST_CLIENTS, MOST_NUMBERS, Number, Outcome, Outcomes, Unknown
from fleet.serve.records import DamagedLog, Record, group, mark
from fleet.session_text import entries

GROUPS = [
    [Record(b"class van 3 point")],
    [Record(b"insert van a", Number.of("me", 1, b"insert van a")), Record(b"tick 2")],
    [Record(None, Number.of("me", 2, b"insert van a"), "14 Presence")],
    [Record(b"update a at (1,2)"), Record(b"tick 1", Number.of("you", 7, b"tick 1"))],
]


def written(folder: Path) -> Path:
    """A small log, and its file."""
    log = Log(folder)
    log.begin([])
    for records in GROUPS:
        log.commit(records)
        log.took(records)
    assert (log.entries, log.command_bytes) == (5, 63)
    log.close()
    return log.path


def outcome(outcomes: Outcomes, client: str, number: int, line: bytes) -> Outcome | Unknown:
    return outcomes.look(Number.of(client, number, line))


def test_it_has_what_was_committed(tmp_path: Path) -> None:
    path = written(tmp_path)
    assert path.name == "log-00000001"
    me, you, refused = (zlib.crc32(line) for line in (b"insert van a", b"tick 1", b"insert van a"))
    lines = path.read_text().splitlines()
    assert [line for line in lines if not line.startswith("#=")] == [
        "domino-session 1",
        "# fleet log 1",
        "class van 3 point",
        f"#@ me 1 {me:08x}",
        "insert van a",
        "tick 2",
        f"#@ me 2 {refused:08x} 14 Presence",
        "update a at (1,2)",
        f"#@ you 7 {you:08x}",
        "tick 1",
    ]
    log = Log(tmp_path)
    assert log.open() == 0
    assert (log.entries, log.command_bytes, log.size) == (5, 63, path.stat().st_size)
    assert outcome(log.outcomes, "me", 1, b"insert van a") == Outcome(me, "")
    assert outcome(log.outcomes, "me", 2, b"insert van a") == Outcome(refused, "14 Presence")
    assert outcome(log.outcomes, "me", 2, b"tick 1") is Unknown.TAKEN
    assert outcome(log.outcomes, "me", 3, b"tick 1") is Unknown.NEW
    assert outcome(log.outcomes, "you", 7, b"tick 1") == Outcome(you, "")
    log.close()


def test_a_copy_is_closed(tmp_path: Path) -> None:
    written(tmp_path)
    log = Log(tmp_path)
    log.open()
    log.copy_closed(tmp_path / "copy")
    with (tmp_path / "copy").open("rb") as text:
        commands = [entry.text for entry in entries(text)]
    assert commands == [record.command for records in GROUPS for record in records if record.command]
    log.close()


PLANES = (b"# fleet plane EPSG:32632", b"# fleet plane local 1,2")


def test_it_has_the_first_plane(tmp_path: Path) -> None:
    log = Log(tmp_path)
    log.begin([])
    for plane in PLANES:
        assert log.plane in (b"", PLANES[0])
        records = [Record(b"tick 1"), Record(None, plane=plane)]
        log.commit(records)
        log.took(records)
    log.close()
    log = Log(tmp_path)
    log.open()
    assert log.plane == PLANES[0] and log.entries == 2
    log.begin([b"tick 1"], plane=PLANES[1])
    assert log.plane == PLANES[0] and log.path.read_bytes().splitlines()[2:4] == [PLANES[0], b"tick 1"]
    log.close()


def test_it_is_read_as_a_session(tmp_path: Path) -> None:
    path = written(tmp_path / "log")
    with path.open("ab") as file:
        file.write(b"tick 1\n")
    for name in (path, path.parent):
        with open_session(name) as text:
            assert [entry.text for entry in entries(text)][-1] == b"tick 1" and len(list(path.parent.iterdir())) == 2
    (tmp_path / "saved").write_bytes(b"domino-session 1\ntick 1\nend\n")
    with open_session(tmp_path / "saved") as text:
        assert [entry.text for entry in entries(text)] == [b"tick 1"]
    with pytest.raises(NoLog):
        open_session(tmp_path)


TAILS = {
    "none": b"",
    "zeros": b"\0" * 5000,
    "bytes": b"\xff\n\0\n#= zz\n",
    "line": b"tick 1\n",
    "number": b"#@ me 9 00000000\n",
}


@pytest.mark.parametrize("tail", TAILS.values(), ids=TAILS.keys())
def test_a_torn_tail_is_cut_off_at_each_byte(tmp_path: Path, tail: bytes) -> None:
    whole = written(tmp_path / "whole").read_bytes()
    ends = [0]
    texts = [b"domino-session 1\n# fleet log 1\n"]
    texts[0] += mark(zlib.crc32(texts[0]), len(texts[0]))
    texts += map(group, GROUPS)
    for text in texts:
        ends.append(ends[-1] + len(text))
    assert ends[-1] == len(whole)
    path = tmp_path / "log-00000001"
    for size in range(0, len(whole) + 1, 7 if tail else 1):
        path.write_bytes(whole[:size] + tail)
        kept = max(end for end in ends if end <= size)
        log = Log(tmp_path)
        if kept == 0:
            with pytest.raises(DamagedLog):
                log.open()
        else:
            assert log.open() == size + len(tail) - kept
            assert path.read_bytes() == whole[:kept]
            groups = GROUPS[: ends.index(kept) - 1]
            assert log.entries == sum(record.command is not None for records in groups for record in records)
            assert outcome(log.outcomes, "me", 1, b"insert van a") != Unknown.NEW or len(groups) < 2
            log.commit([Record(b"tick 9")])
            assert path.read_bytes() == whole[:kept] + group([Record(b"tick 9")])
        log.close()


def test_a_changed_byte_is_no_torn_tail(tmp_path: Path) -> None:
    path = written(tmp_path)
    whole = path.read_bytes()
    last = whole.rindex(b"#= ", 0, len(whole) - 16)
    for at in range(last):
        path.write_bytes(whole[:at] + bytes([whole[at] ^ 1]) + whole[at + 1 :])
        log = Log(tmp_path)
        with pytest.raises(DamagedLog):
            log.open()
        log.close()


def test_a_group_that_was_written_with_gaps_is_cut_off(tmp_path: Path) -> None:
    path = written(tmp_path)
    whole = path.read_bytes()
    kept = len(whole) - len(group(GROUPS[-1]))
    mark_at = whole.rindex(b"#= ")
    for at in range(kept, mark_at - 1):
        path.write_bytes(whole[:at] + bytes(mark_at - 1 - at) + whole[mark_at - 1 :])
        log = Log(tmp_path)
        assert log.open() == len(whole) - kept
        assert path.read_bytes() == whole[:kept]
        log.close()


def test_one_server_alone_uses_a_folder(tmp_path: Path) -> None:
    log = Log(tmp_path)
    with pytest.raises(FolderInUse, match="another server uses the folder"):
        Log(tmp_path)
    log.close()
    Log(tmp_path).close()


def test_a_new_log_goes_on_from_commands_and_numbers(tmp_path: Path) -> None:
    written(tmp_path)
    log = Log(tmp_path)
    log.open()
    log.begin([b"class van 3", b"tick 5"], [Number.of("me", 9, b"import van \"f\"")])
    assert sorted(path.name for path in tmp_path.iterdir()) == ["lock", "log-00000002"]
    for _ in range(2):
        assert (log.entries, log.growth) == (2, 0)
        assert outcome(log.outcomes, "me", 1, b"insert van a") == Outcome(zlib.crc32(b"insert van a"), "")
        assert outcome(log.outcomes, "me", 2, b"insert van a") == Outcome(zlib.crc32(b"insert van a"), "14 Presence")
        assert outcome(log.outcomes, "me", 9, b'import van "f"') == Outcome(zlib.crc32(b'import van "f"'), "")
        log.close()
        log = Log(tmp_path)
        log.open()
    log.adopt(log.prepare([b"tick 5"], is_rolled=True))
    assert sorted(path.name for path in tmp_path.iterdir()) == ["lock", "log-00000003", "past-00000002"]
    with (tmp_path / "past-00000002").open("rb") as text:
        assert [entry.text for entry in entries(text)] == [b"class van 3", b"tick 5"]
    log.close()


@pytest.mark.parametrize("is_rolled", [False, True])
def test_a_crash_at_each_step_of_a_new_log_leaves_the_old_one_or_the_new(tmp_path: Path, is_rolled: bool) -> None:
    seen, step, has_crashed = set(), 0, True
    while has_crashed:
        folder = tmp_path / str(step)
        written(folder)
        has_crashed = _crashes(lambda: _begin_new(folder, is_rolled), step)  # noqa: B023  (called at once)
        step += 1
        log = Log(folder)
        log.open()
        commands = list(log.commands_since(0))
        assert commands in ([b"tick 7"], [record.command for records in GROUPS for record in records if record.command])
        assert outcome(log.outcomes, "me", 1, b"insert van a") == Outcome(zlib.crc32(b"insert van a"), "")
        seen.add((has_crashed, len(commands)))
        log.commit([Record(b"tick 1")])
        log.close()
        assert len(list(folder.glob("past-*"))) == int(is_rolled and commands == [b"tick 7"])
        for past in folder.glob("past-*"):
            with past.open("rb") as text:
                assert len(list(entries(text))) == 5
    assert seen == {(True, 5), (True, 1), (False, 1)}


def _begin_new(folder: Path, is_rolled: bool) -> None:
    log = Log(folder)
    log.open()
    log.adopt(log.prepare([b"tick 7"], is_rolled=is_rolled))


def _crashes(call: Callable[[], None], step: int) -> bool:
    """Makes the call in a process that ends, as by a crash, before a step that changes the disk; whether it came
    there."""
    child = os.fork()
    if not child:
        left = step

        def crashing(change: Callable[..., object]) -> Callable[..., object]:
            def changed(*arguments: object, **named: object) -> object:
                nonlocal left
                if not left:
                    os._exit(9)
                left -= 1
                return change(*arguments, **named)

            return changed

        for name in ("fsync", "truncate", "rename", "unlink", "open"):
            setattr(os, name, crashing(getattr(os, name)))
        try:
            call()
        finally:
            os._exit(0)
    return os.waitstatus_to_exitcode(os.waitpid(child, 0)[1]) == 9


def test_a_new_log_that_is_not_whole_is_none(tmp_path: Path) -> None:
    path = written(tmp_path)
    whole = path.read_bytes()
    (tmp_path / ".log-begun").write_bytes(whole[:40])
    (tmp_path / "log-00000000").write_bytes(whole[:50])
    log = Log(tmp_path)
    log.open()
    assert (log.path, log.entries) == (path, 5)
    assert sorted(path.name for path in tmp_path.iterdir()) == ["lock", "log-00000001"]
    log.close()

    def failing() -> object:
        yield b"tick 1"
        raise OSError("no more")

    log = Log(tmp_path)
    log.open()
    with pytest.raises(OSError, match="no more"):
        log.begin(failing())  # type: ignore[arg-type]
    assert path.read_bytes() == whole and log.path == path
    log.commit([Record(b"tick 1")])
    log.close()


def test_a_write_that_fails_leaves_the_log_as_it_was(tmp_path: Path) -> None:
    path = written(tmp_path)
    whole = path.read_bytes()
    log = Log(tmp_path)
    log.open()
    with _file_limit(len(whole) + 20):
        assert not log.has_room()
        with pytest.raises(LogFull, match="can't be written"):
            log.commit([Record(b"insert van b at (1,2) move (3,4)")])
        assert path.read_bytes() == whole
    assert log.has_room()
    assert path.read_bytes() == whole
    log.commit([Record(b"tick 3")])
    assert path.read_bytes() == whole + group([Record(b"tick 3")])
    log.close()


@contextlib.contextmanager
def _file_limit(size: int) -> Iterator[None]:
    """A block in which no file may grow past a size."""
    before = resource.getrlimit(resource.RLIMIT_FSIZE)
    resource.setrlimit(resource.RLIMIT_FSIZE, (size, before[1]))
    try:
        yield
    finally:
        resource.setrlimit(resource.RLIMIT_FSIZE, before)


def test_old_numbers_are_forgotten() -> None:
    outcomes = Outcomes()
    for number in range(1, MOST_NUMBERS + 11):
        outcomes.record(Number.of("me", number, b"x"), "")
    assert outcome(outcomes, "me", 10, b"x") is Unknown.FORGOTTEN
    assert outcome(outcomes, "me", 11, b"x") == Outcome(zlib.crc32(b"x"), "")
    assert outcome(outcomes, "me", MOST_NUMBERS + 11, b"x") is Unknown.NEW
    assert outcomes.last("me") == MOST_NUMBERS + 10
    assert outcomes.last("you") == 0
    for client in range(MOST_CLIENTS):
        outcomes.record(Number.of(f"c{client}", 1, b"x"), "")
    assert outcome(outcomes, "me", 11, b"x") is Unknown.NEW
    assert outcomes.last("c0") == 1
