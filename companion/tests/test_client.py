"""The client, on the program and on programs that misbehave."""

import os
import signal
import subprocess
from collections.abc import Iterator
from pathlib import Path

import pytest

from fleet.client import BadName, BadReply, BadSession, Client, Ended, TooSlow
from fleet.replies import (
    Change,
    ListedClass,
    ListedClock,
    ListedQuery,
    ListedRegion,
    Refusal,
    Reply,
    ReplyReader,
    Row,
)
from fleet.words import LINE_LIMIT

FLEET = (
    "class car 3 point (fuel dyn,plate text)",
    "region yard (0,0) (20,0) (20,10) (0,10)",
    "insert car a at (0,5) move (2,0) fuel = 40 rate -0.5",
)
LOW = "watch low 100 RETRIEVE o FROM car o WHERE o.fuel <= 30"


def told(client: Client, line: str | bytes) -> list[str]:
    reply = client.send(line)
    assert reply is not None
    return reply.text


def script(folder: Path, text: str) -> Path:
    """A program of the shell."""
    path = folder / "program.sh"
    path.write_text(f"#!/bin/bash\n{text}\n")
    path.chmod(0o755)
    return path


# Replies as records


def test_records_of_every_kind(client: Client) -> None:
    for line in FLEET:
        assert client.send(line) == Reply([], None, ["ok"], line, 0)
    asked = client.send("ask 30 RETRIEVE o,n FROM car n,car o WHERE INSIDE(o,yard)")
    assert asked is not None and asked.records == [Row("now", ("a", "a"), ((0, 10),), ("o", "n"), 0)]
    watched = client.send(LOW)
    assert watched is not None and watched.records == [Row("later", ("a",), ((20, 100),), ("o",), 0)]
    ticked = client.send("tick 20")
    assert ticked is not None and ticked.tick == 20
    assert ticked.records == [Change("enter", "low", ("a",), (), ("o",), 20)]
    written = client.send("update a fuel = 35")
    assert written is not None and written.records == [
        Change("lose", "low", ("a",), ((20, 29),), ("o",), 20),
        Change("leave", "low", ("a",), (), ("o",), 20),
    ]
    listed = client.send("list")
    assert listed is not None and listed.records == [
        ListedClock("clock", "", 20),
        ListedClass("class", "car", 1, 3),
        ListedRegion("region", "yard", 4),
        ListedQuery("watch", "low", 0, 100),
    ]
    refused = client.send("show high")
    assert refused == Reply([], Refusal(7, "UnknownName"), ["refused 7 UnknownName"], "show high", 20)
    assert refused is not None and not refused.ok and str(refused.refusal) == "7 UnknownName"


def test_past_rows_and_columns_by_name(client: Client) -> None:
    for line in (*FLEET, "keep home 100 RETRIEVE o FROM car o WHERE INSIDE(o,yard)", "tick 20"):
        client.send(line)
    shown = client.send("show home")
    assert shown is not None and shown.records == [Row("past", ("a",), ((0, 10),), ("o",), 20)]
    assert client.queries == {"home": ("o",)}
    client.send("drop home")
    assert client.queries == {}


def test_rows_of_the_nearest_by_their_class(client: Client) -> None:
    for line in ("class post 9 point", "insert post p at (2,0)", "insert post q at (3,0)", "insert post r"):
        client.send(line)
    near = client.send("nearest 9 1 r post")
    assert near is not None and near.records == [Row("now", ("p",), ((0, 9),), ("post",), 0)]


def test_rows_of_what_surely_and_possibly_holds_by_their_targets(client: Client) -> None:
    for line in ("class post 9 point", "insert post p at (2,0)", "region spot (0,-5) (5,-5) (5,5) (0,5)"):
        client.send(line)
    for command, records in (("must", []), ("may", [Row("now", ("p",), ((0, 9),), ("o",), 0)])):
        told = client.send(f"{command} 3 9 RETRIEVE o FROM post o WHERE INSIDE(o,spot)")
        assert told is not None and told.records == records


def test_a_refused_line_moves_nothing(client: Client) -> None:
    client.send("tick 5")
    for line in ("tick 0", "tick 1000000000", "tick 5 5", "tick 1.5"):
        refused = client.send(line)
        assert refused is not None and not refused.ok and refused.tick == 5
    client.send("watch low 1 RETRIEVE o FROM car o WHERE TRUE")
    assert client.clock == 5 and client.queries == {}


def test_names_may_be_words_of_replies(client: Client) -> None:
    for line in ("class ok 2", "insert ok now", "insert ok refused", "watch gain 5 RETRIEVE later FROM ok later WHERE TRUE"):
        client.send(line)
    shown = client.send("show gain")
    assert shown is not None
    assert shown.records == [
        Row("now", ("now",), ((0, 5),), ("later",), 0),
        Row("now", ("refused",), ((0, 5),), ("later",), 0),
    ]


@pytest.mark.parametrize("line", ["", "  \t", "# a comment", b"#", "\r"])
def test_silent_lines_are_not_awaited(client: Client, line: str | bytes) -> None:
    assert client.send(line) is None
    assert told(client, "list") == ["clock 0", "ok"]


@pytest.mark.parametrize("line", ["list\n", "list\nlist", b"\n"])
def test_a_line_with_a_line_feed_is_not_sent(client: Client, line: str | bytes) -> None:
    with pytest.raises(ValueError):
        client.send(line)
    assert told(client, "list") == ["clock 0", "ok"]


@pytest.mark.parametrize(
    ("line", "reply"),
    [
        ("insert car zoë", "refused 2 NotAscii"),
        (b"# \xff", "refused 2 NotAscii"),
        ("list\0", "refused 2 NotAscii"),
        ("li\rst", "refused 2 NotAscii"),
        ("x" * (LINE_LIMIT + 1), "refused 1 LineTooLong"),
        ("#" * (LINE_LIMIT + 1), "refused 1 LineTooLong"),
        (b"\xff" * 1_000_000, "refused 1 LineTooLong"),
        ("list\r", "ok"),
        (bytearray(b"list"), "ok"),
    ],
    ids=["letter", "comment", "zero", "return", "long", "long comment", "long bytes", "return at the end", "bytes"],
)
def test_bytes_are_sent_as_they_are(client: Client, line: str | bytes, reply: str) -> None:
    assert told(client, line)[-1] == reply
    assert told(client, "list") == ["clock 0", "ok"]


# Many lines


def test_many_lines_never_deadlock_and_are_taken_by_and_by(client: Client) -> None:
    taken = 0

    def lines() -> Iterator[str]:
        nonlocal taken
        for taken in range(1, 100_001):
            yield "list"

    answered = furthest = 0
    for reply in client.send_many(lines()):
        answered += 1
        furthest = max(furthest, taken - answered)
        assert reply.text == ["clock 0", "ok"]
    assert answered == taken == 100_000
    assert furthest <= 4_096


def test_long_replies_and_long_lines_at_once(client: Client) -> None:
    for number in range(64):
        client.send(f"class c{number} 1")
    replies = list(client.send_many(["list", "# " + "x" * 4_000, "show" + " " * 4_000 + "q"] * 2_000))
    assert len(replies) == 4_000
    assert all(len(reply.text) == 66 for reply in replies[::2])
    assert all(reply.text == ["refused 7 UnknownName"] for reply in replies[1::2])


def test_replies_of_many_lines_keep_their_order(client: Client) -> None:
    lines = [*FLEET, "", "# none", *(f"show q{number}" for number in range(10_000)), LOW, *["tick 1"] * 30, "list"]
    replies = list(client.send_many(lines))
    assert [reply.line for reply in replies] == [line for line in lines if line and not line.startswith("#")]
    entered = [record for reply in replies for record in reply.records if isinstance(record, Change)]
    assert entered == [Change("enter", "low", ("a",), (), ("o",), 20)]
    assert client.clock == 30


def test_a_line_may_be_sent_between_many(client: Client) -> None:
    seen = []
    for reply in client.send_many(["tick 1"] * 1_000):
        seen.append(reply.tick)
        if len(seen) % 100 == 1:
            assert told(client, "list")[-1] == "ok"
    assert seen == list(range(1, 1_001))


def test_many_lines_may_be_left_in_the_middle(client: Client) -> None:
    for reply in client.send_many("tick 1" for _ in range(10_000)):
        if reply.tick == 10:
            break
    clock = client.send("list")
    assert clock is not None and isinstance(clock.records[0], ListedClock)
    assert clock.records[0].tick == client.clock < 10_000


def test_a_fault_comes_after_the_replies_before_it(client: Client) -> None:
    replies = []
    with pytest.raises(BadName):
        for reply in client.send_many(["list", "tick 1", 'save "a/b"', "tick 1"]):
            replies.append(reply.text[-1])
    assert replies == ["ok", "ok"]
    assert told(client, "list") == ["clock 1", "ok"]


# Ends


def test_quit_ends_well(client: Client) -> None:
    assert told(client, "quit now") == ["refused 4 BadSyntax"]
    assert told(client, "  quit ") == ["ok"]
    assert client.status == 0 and client.close() == 0
    with pytest.raises(Ended) as ended:
        client.send("list")
    assert ended.value.status == 0 and client.send("# a comment") is None


def test_no_line_after_quit_is_taken(client: Client) -> None:
    lines = iter(["list", "quit", "list", "list"])
    assert [reply.line for reply in client.send_many(lines)] == ["list", "quit"]
    assert client.status == 0 and list(lines) == ["list", "list"]


def test_close_answers_what_was_sent(program: Path, tmp_path: Path) -> None:
    client = Client(program, directory=tmp_path)
    next(client.send_many(["class car 3", *["list"] * 5_000, 'save "all"']))
    assert client.close() == 0 and client.close() == 0
    assert client.last_reply is not None and client.last_reply.line == "list"


@pytest.mark.parametrize(
    ("text", "lines", "status"),
    [
        ("exec $DOMINO <.", ["list"], 3),
        ("exec $DOMINO >/dev/full", ["list"], 4),
        ("mkdir -p below/x; cd below; exec $DOMINO", ["list", 'save "x"'], 5),
        ("mkdir -p below/x; cd below; exec $DOMINO", ["list", "class car 1", 'import car "x"', "list"], 5),
        ("ulimit -v 20000; exec $DOMINO", ["class car 100000 point", *(f"insert car a{n}" for n in range(100_000))], 6),
        ("exec $DOMINO < <(head -c 1073741800 /dev/zero | tr '\\0' ' '; cat)", [";", *["list"] * 100], 7),
        ("kill -9 $$", ["list"], -9),
    ],
    ids=["read", "write", "save", "import", "memory", "input", "signal"],
)
def test_an_end_is_told(
    program: Path, tmp_path: Path, monkeypatch: pytest.MonkeyPatch, text: str, lines: list[str], status: int
) -> None:
    monkeypatch.setenv("DOMINO", str(program))
    replies: list[Reply] = []
    with Client(script(tmp_path, text), directory=tmp_path, patience=120) as client:
        with pytest.raises(Ended) as ended:
            replies.extend(client.send_many(lines))
        assert ended.value.status == client.status == status
        with pytest.raises(Ended) as again:
            client.send("list")
        assert again.value.status == status
    assert len(replies) < len(lines)
    assert ended.value.exit_status == (status if status > 0 else 1)


def test_the_last_reply_is_told(program: Path, tmp_path: Path) -> None:
    client = Client(script(tmp_path, f'mkdir below below/x; cd below; exec "{program}"'), directory=tmp_path)
    client.send("tick 3")
    with pytest.raises(Ended) as ended:
        client.send('save "x"')
    assert ended.value.status == 5
    assert ended.value.last_reply == Reply([], None, ["ok"], "tick 3", 3)


def test_a_reply_that_breaks_off_is_none(tmp_path: Path) -> None:
    client = Client(script(tmp_path, "read line; echo ok; read line; printf 'now a : 0..1\\nla'; exit 6"), directory=tmp_path)
    client.send("class car 3")
    with pytest.raises(Ended) as ended:
        client.send("show low")
    assert ended.value.status == 6 and ended.value.last_reply == Reply([], None, ["ok"], "class car 3", 0)


def test_replies_may_come_byte_by_byte(program: Path, tmp_path: Path) -> None:
    with Client(script(tmp_path, f'"{program}" | dd bs=1 status=none'), directory=tmp_path) as client:
        replies = list(client.send_many([*FLEET, LOW, "tick 20", "list"]))
    assert [len(reply.records) for reply in replies] == [0, 0, 0, 1, 1, 4]


def test_the_directory_is_that_of_the_start(
    program: Path, tmp_path: Path, monkeypatch: pytest.MonkeyPatch
) -> None:
    (tmp_path / "files" / "folder").mkdir(parents=True)
    monkeypatch.chdir(tmp_path)
    with Client(program, directory="files") as client:
        monkeypatch.chdir("/")
        with pytest.raises(BadName):
            client.send('save "folder"')
        assert told(client, 'save "evening"') == ["ok"]
    assert (tmp_path / "files" / "evening").exists()


def test_a_program_that_is_killed(program: Path, tmp_path: Path) -> None:
    client = Client(script(tmp_path, f'echo $$ >pid; exec "{program}"'), directory=tmp_path)
    client.send("list")
    os.kill(int((tmp_path / "pid").read_text()), signal.SIGKILL)
    with pytest.raises(Ended) as ended:
        for _ in range(1_000):
            client.send("list")
    assert ended.value.status == -9 and client.close() == -9


def test_a_fault_of_the_caller_ends_the_program(program: Path, tmp_path: Path) -> None:
    with pytest.raises(ZeroDivisionError), Client(program, directory=tmp_path) as client:
        client.send("list")
        raise ZeroDivisionError
    assert client.status == 0


@pytest.mark.parametrize("text", ["sleep 1000", "cat >/dev/null", "trap '' TERM; while read -r line; do :; done; sleep 1000"])
def test_patience_ends(tmp_path: Path, text: str) -> None:
    client = Client(script(tmp_path, f"exec 2>&-; {text}"), directory=tmp_path, patience=0.2)
    with pytest.raises(TooSlow):
        client.send("list")
    assert client.status is not None and client.status < 0


def test_a_program_that_does_not_end_is_ended(tmp_path: Path, monkeypatch: pytest.MonkeyPatch) -> None:
    monkeypatch.setattr("fleet.client._LAST_SECONDS", 0.2)
    with pytest.raises(ZeroDivisionError), Client(script(tmp_path, "exec sleep 1000"), directory=tmp_path) as client:
        raise ZeroDivisionError
    assert client.status == -9


@pytest.mark.parametrize("said", ["hello", "now a", "refused 7", "gain w : 1..2", "bad", "clock x"])
def test_what_is_no_reply_is_told(tmp_path: Path, said: str) -> None:
    with pytest.raises(BadReply):
        with Client(script(tmp_path, f"read line; printf '{said}\\n'; cat >/dev/null"), directory=tmp_path) as client:
            client.send("list")
            client.send("list")
    assert client.status is not None


def test_the_program_has_a_process_group_of_its_own(program: Path, tmp_path: Path) -> None:
    """So an interrupt at the terminal doesn't reach it."""
    with Client(script(tmp_path, f'ps -o pgid= -p $$ >group; exec "{program}"'), directory=tmp_path) as client:
        client.send("list")
    assert int((tmp_path / "group").read_text()) != os.getpgid(0)


# Sessions


def test_a_session_goes_on(client: Client, program: Path, tmp_path: Path) -> None:
    for line in (*FLEET, LOW, "keep gone 9 RETRIEVE o FROM car o WHERE TRUE", "drop gone", "tick 7", 'save "evening"'):
        client.send(line)
    with Client(program, session="evening", directory=tmp_path) as later:
        assert later.clock == 7 and later.queries == {"low": ("o",)}
        shown = later.send("show low")
        assert shown is not None and shown.records == [Row("later", ("a",), ((20, 100),), ("o",), 7)]


def test_bad_sessions(program: Path, tmp_path: Path) -> None:
    texts = {"header": ("x\n", 1), "line": ("domino-session 1\ntick 1\nbogus\nend\n", 3), "end": ("domino-session 1\n", 2)}
    for name, (text, _) in texts.items():
        (tmp_path / name).write_text(text)
    for name, number in [("none", 0), *((name, number) for name, (_, number) in texts.items())]:
        with pytest.raises(BadSession) as fault:
            Client(program, session=name, directory=tmp_path)
        assert fault.value.number == number and fault.value.exit_status == 2


@pytest.mark.parametrize("name", ["", ".", "..", "a/b", "/tmp/x", "folder"])
def test_session_names_are_checked(program: Path, tmp_path: Path, name: str) -> None:
    (tmp_path / "folder").mkdir()
    with pytest.raises(BadName):
        Client(program, session=name, directory=tmp_path)


# File names


@pytest.mark.parametrize("name", ["", ".", "..", "/", "a/b", "/tmp/fleet.csv", "./x", "folder", "fifo", "loop"])
@pytest.mark.parametrize("command", ["save", "import car", "export  car", "\tsave "])
def test_a_name_that_would_end_the_run_is_not_sent(client: Client, tmp_path: Path, command: str, name: str) -> None:
    (tmp_path / "folder").mkdir()
    os.mkfifo(tmp_path / "fifo")
    (tmp_path / "loop").symlink_to("loop")
    client.send("class car 3")
    with pytest.raises(BadName) as fault:
        client.send(f'{command} "{name}"')
    assert fault.value.name == name and name in str(fault.value)
    assert told(client, "list") == ["clock 0", "class car 0/3", "ok"]


@pytest.mark.parametrize(
    "line", ['save "a/b" 1', "save a/b", 'save "a/b', 'import "a/b"', 'save "' + "a/" * 17 + '"', 'save "é/"', '# save "a/b"']
)
def test_a_line_that_is_refused_anyway_is_sent(client: Client, line: str) -> None:
    reply = client.send(line)
    assert reply is None or not reply.ok
    assert told(client, "list") == ["clock 0", "ok"]


def test_files_are_those_of_the_directory(client: Client, tmp_path: Path) -> None:
    for line in (*FLEET, 'export car "cars.csv"', 'import car "cars.csv"', 'save "a b"'):
        assert told(client, line) == ["ok"]
    assert told(client, 'import car "none.csv"') == ["refused 19 NoFile"]
    assert sorted(path.name for path in tmp_path.iterdir()) == ["a b", "cars.csv"]


def test_files_that_may_not_be_used(client: Client, tmp_path: Path, monkeypatch: pytest.MonkeyPatch) -> None:
    client.send("class car 3")
    (tmp_path / "there").write_text("name\n")
    with (tmp_path / "large").open("wb") as large:
        large.truncate(536_870_913)
    monkeypatch.setattr(os, "access", lambda path, mode: False)
    for line in ('save "there"', 'save "new"', 'import car "there"', 'export car "there"'):
        with pytest.raises(BadName):
            client.send(line)
    monkeypatch.undo()
    with pytest.raises(BadName):
        client.send('import car "large"')
    assert told(client, "list") == ["clock 0", "class car 0/3", "ok"]


# The reader alone


def test_the_reader_takes_lines_one_by_one() -> None:
    reader = ReplyReader()
    assert reader.feed("now a b : 0..3 5..9") is None and not reader.is_between
    reply = reader.feed("ok")
    assert reply is not None and reader.is_between
    assert reply.records == [Row("now", ("a", "b"), ((0, 3), (5, 9)))]
    assert reply.text == ["now a b : 0..3 5..9", "ok"] and reply.tick is None and reply.line == ""


@pytest.mark.parametrize(
    "line",
    ["", " ok", "ok ", "OK", "refused", "refused 4", "refused x Y", "refused 4 Bad Syntax", "now a : ", "now : 1..2"]
    + ["now a : 1..2  3..4", "now a : 1.2", "now a : 1..", "now  a : 1..2", "gain w a", "enter w", "enter w a : 1..2"]
    + ["clock", "clock -1", "clock ١", "class car 1", "region yard", "watch w 1", "keep w 1..2..3", "nów a : 1..2", "lines 3"],
)
def test_the_reader_takes_nothing_else(line: str) -> None:
    with pytest.raises(BadReply):
        ReplyReader().feed(line)


def test_nothing_is_left_running() -> None:
    """By the process table: each client of these tests has ended its program."""
    said = subprocess.run(["ps", "-o", "args=", "--ppid", str(os.getpid())], capture_output=True, text=True, check=False)
    assert [line for line in said.stdout.splitlines() if not line.startswith("ps ")] == []
