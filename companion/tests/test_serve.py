"""The server: clients, pushes, numbers, crashes, patience, tokens, hostile bytes, rolls."""

import asyncio
import contextlib
import os
import resource
import signal
import socket
import stat
import subprocess
import sys
import time
from collections.abc import Iterator
from pathlib import Path

import pytest
from servers import (
    PATIENCE, WAIT, Gone, LineClient, Model, Serving, accepted, big_class, check_models, commands_of, flood, hanging,
    prepare_flood, programs_of, serving, until,
)  # fmt: skip

from fleet import cli
from fleet.client import Client
from fleet.serve.log import Log
from fleet.serve.wire import Refusal
from fleet.session_text import entries
from ways import Said, fleet

@pytest.fixture
def log(tmp_path: Path) -> Path:
    return tmp_path / "log"


@pytest.fixture
def server(program: Path, log: Path) -> Iterator[Serving]:
    with serving(program, log) as server:
        yield server


def test_it_tells_how_it_serves(server: Serving, log: Path) -> None:
    assert server.told[0].startswith("fleet serve 0.1.0")
    assert server.told[2] == f"log {log}/log-00000001: 0 entries, at tick 0, lines synced in groups"
    assert server.told[3] == f"patience {PATIENCE} seconds, ticks by clients alone"
    with server.client() as client:
        assert client.greeting == f"* fleet 1 clock 0 patience {PATIENCE}"


def test_replies_are_the_programs(server: Serving, program: Path, tmp_path: Path) -> None:
    lines = ["class van 3 point (fuel dyn)", "", "# a comment", "insert van a at (1,2) move (1,0)", "list", "foo"]
    lines += ["watch w 30 RETRIEVE o FROM van o WHERE o.x >= 3", "update a at (5,5)", "tick 4", "é", "show ?"]
    lines += ["tick 0", "x" * 4097]
    with server.client() as client:
        client.write(*lines)
        replies = [line for _ in range(len(lines) - 2) for line in client.reply()]
    run = subprocess.run([program], input="".join(f"{line}\n" for line in lines).encode(), capture_output=True)
    assert replies == run.stdout.decode().splitlines()


def test_changes_are_pushed_to_who_follows(server: Serving) -> None:
    with server.client() as writer, server.client() as all_of, server.client() as one, server.client() as none:
        assert all_of.asks(":follow *", ":ticks on") == [["ok"], ["ok"]]
        assert one.ask(":follow low other") == ["ok"]
        accepted(writer, "class van 3 point (fuel dyn)", "insert van a fuel = 10 rate -1")
        low = "watch low 20 RETRIEVE o FROM van o WHERE o.fuel <= 5"
        assert writer.asks(low, "tick 2", "update a fuel = 5", "keep far 4 RETRIEVE o FROM van o WHERE o.x > 3") == [
            ["later a : 5..20", "ok"],
            ["ok"],
            ["gain low a : 2..4", "enter low a", "ok"],
            ["ok"],
        ]
        accepted(one, "update a at (4,0)")
        assert writer.asks("tick 5", "drop low", "drop far") == [["leave far a", "ok"], ["ok"], ["ok"]]
        assert all_of.ask("list")[0] == "clock 7"
        assert all_of.told == [
            "* 0 watch low 0..20",
            "* 2 tick",
            "* 2 gain low a : 2..4",
            "* 2 enter low a",
            "* 2 keep far 2..6",
            "* 2 gain far a : 2..6",
            "* 2 enter far a",
            "* 7 tick",
            "* 7 leave far a",
            "* 7 expired far",
            "* 7 drop low",
            "* 7 drop far",
        ]
        one.ask("list")
        assert one.told == ["* 0 watch low 0..20", "* 2 gain low a : 2..4", "* 2 enter low a", "* 7 drop low"]
        assert none.ask("list") and none.told == [] and writer.told == []
        assert all_of.asks(":follow", ":ticks off") == [["ok"], ["ok"]]
        accepted(writer, low, "tick 1")
        assert all_of.ask("list") and len(all_of.told) == 12


def test_words_of_the_server(server: Serving) -> None:
    with server.client() as client:
        bad = ":", ":foo", ":follow 1a", ":follow class", ":ticks", ":client a b", ":client ü", "@ list", "@0 list"
        for line in bad:
            assert client.ask(line) == ["refused 102 BadWord"], line
        assert client.asks("@7 # a comment", "@x tick 1", "@1 tick 1") == [["refused 102 BadWord"]] * 3
        assert client.ask(":token whatever") == ["ok"]
        assert client.ask(":status") == ["ok"]
        assert client.told[0] == "* status clock 0" and client.told[1] == "* status clients 1"
        assert client.ask("quit now") == ["refused 4 BadSyntax"]
        assert client.ask("quit") == ["ok"]
        assert client.rest() == []
    assert server.process.poll() is None


def test_a_line_that_is_cut_off_is_none(server: Serving) -> None:
    with server.client() as client:
        client.write_bytes(b"class van 3\ntick 1")
        client.socket.shutdown(socket.SHUT_WR)
        assert client.rest() == ["ok"]
    with server.client() as client:
        assert client.ask("list") == ["clock 0", "class van 0/3", "ok"]


def test_numbered_lines_are_carried_out_once(program: Path, log: Path) -> None:
    with serving(program, log) as server, server.client() as client:
        assert client.ask(":client me") == ["ok"] and client.told == ["* client me 0"]
        client.told.clear()
        first = ["@1 class van 3 point", "@2 insert van a move (1,0)", "@3 insert van a", "@4 tick 5"]
        assert client.asks(*first, first[3]) == [["ok"], ["ok"], ["refused 14 Presence"], ["ok"], ["ok"]]
        assert client.told == ["* again 4"]
        assert client.ask("@4 tick 6") == ["refused 107 NumberTaken"]
        assert client.ask("remove a") == ["ok"]
        server.kill()
    with serving(program, log) as server, server.client() as client:
        assert client.ask("@4 tick 5") == ["refused 102 BadWord"]
        assert client.ask(":client me") == ["ok"]
        assert client.told.pop() == "* client me 4"
        assert client.asks(*first) == [["ok"], ["ok"], ["refused 14 Presence"], ["ok"]]
        assert client.told == [f"* again {number}" for number in (1, 2, 3, 4)]
        assert client.ask("list") == ["clock 5", "class van 1/3", "ok"]
        assert client.ask(":client you") == ["ok"]
        assert client.ask("@4 tick 5") == ["ok"]
        assert client.asks("@5 list", "@5 list")[1][0] == "clock 10"


def test_numbers_that_are_not_answered_yet_wait(server: Serving) -> None:
    with server.client() as client, server.client() as other:
        client.ask(":client me")
        other.ask(":client me")
        client.write(*(f"@{number // 2} tick 1" for number in range(2, 42)))
        other.write(*(f"@{number // 2} tick 1" for number in range(2, 42)))
        assert [client.reply() for _ in range(40)] == [other.reply() for _ in range(40)] == [["ok"]] * 40
        assert client.ask("list")[0] == "clock 20"


def test_old_numbers_are_refused(server: Serving) -> None:
    with server.client() as client:
        client.ask(":client me")
        accepted(client, *(f"@{number} tick 1" for number in range(1, 300)))
        assert client.ask("@43 tick 1") == ["refused 106 NumberForgotten"]
        assert client.ask("@44 tick 1") == ["ok"]
        assert client.ask("list")[0] == "clock 299"


@pytest.mark.parametrize("sync", ["each", "group"])
def test_a_killed_server_goes_on_from_all_that_was_replied(program: Path, log: Path, sync: str) -> None:
    models = [Model(f"v{i}") for i in range(3)]
    for round_ in range(4):
        with serving(program, log, "--sync", sync) as server:
            if not round_:
                with server.client() as client:
                    accepted(client, "class van 10 point")
            for model in models:
                model.connect(server)
                model.send(9)
            models[round_ % 3].write(40)
            time.sleep(0.003 * round_)
            server.kill()
            until(lambda: not programs_of(log), "the end of the program")
    with serving(program, log, "--sync", sync) as server:
        for model in models:
            model.connect(server)
            while model.replied < 60:
                model.send(20)
        check_models(models, server)


def test_a_killed_program_is_not_noticed(program: Path, log: Path, server: Serving) -> None:
    models = [Model(f"v{i}") for i in range(3)]
    with server.client() as client:
        accepted(client, "class van 10 point")
    for model in models:
        model.connect(server)
    for _ in range(4):
        for model in models:
            model.send(17)
        for pid in programs_of(log):
            os.kill(pid, signal.SIGKILL)
    check_models(models, server)
    assert "the program was started anew from the log" in server.said()


def test_a_replied_line_is_in_the_log(program: Path, log: Path) -> None:
    for sync in ("each", "group"):
        with serving(program, log, "--sync", sync) as server, server.client() as client:
            for ticks in range(1, 20):
                accepted(client, f"tick {ticks}")
                text = max(log.glob("log-*")).read_text()
                assert text.splitlines()[-2] == f"tick {ticks}" and text.splitlines()[-1].startswith("#= ")


def test_an_import_begins_a_new_log(program: Path, log: Path) -> None:
    with serving(program, log) as server, server.client() as client:
        accepted(client, ":client me", "@1 class van 5 point", "watch w 30 RETRIEVE o FROM van o WHERE o.x >= 3")
        with server.client() as other:
            accepted(other, ":follow w")
            (log / "files" / "f.csv").write_text("name,x,x.rate\na,0,1\nb,10,0\n")
            assert client.ask('@2 import van "f.csv"') == ["gain w a : 3..30", "gain w b : 0..30", "enter w b", "ok"]
            assert other.ask("list")[-1] == "ok"
            assert other.told == ["* 0 gain w a : 3..30", "* 0 gain w b : 0..30", "* 0 enter w b"]
        assert client.ask('@2 import van "f.csv"') == ["ok"]
        assert client.asks('@3 import van "g.csv"', '@3 import van "g.csv"') == [["refused 19 NoFile"]] * 2
        assert [path.name for path in log.glob("log-*")] == ["log-00000002"]
        accepted(client, "tick 3")
        server.kill()
    with serving(program, log) as server, server.client() as client:
        assert client.ask("show w") == ["now a : 3..30", "now b : 3..30", "ok"]
        accepted(client, ":client me")
        client.told.clear()
        assert client.asks('@2 import van "f.csv"', "@1 class van 5 point") == [["ok"], ["ok"]]
        assert client.ask('@3 import van "g.csv"') == ["refused 19 NoFile"]
        assert client.told == ["* again 2", "* again 1", "* again 3"]


def test_names_of_files(server: Serving, log: Path) -> None:
    with server.client() as client:
        accepted(client, "class van 5 point")
        (log / "files" / "folder").mkdir()
        os.mkfifo(log / "files" / "fifo")
        for name in ("a/b", "/etc/passwd", "", ".", "..", "folder", "fifo", ".fleet-session", ".fleet-saved"):
            for line in (f'save "{name}"', f'export van "{name}"', f'import van"{name}"', f'  save"{name}"'):
                assert client.ask(line) == ["refused 103 FileName"], line
        assert client.ask('save "') == ["refused 3 BadToken"]
        assert client.ask('save "a/b" "c"') == ["refused 4 BadSyntax"]
        accepted(client, 'save "evening"', 'export van "e.csv"', 'import van "e.csv"')
    files = sorted(path.name for path in (log / "files").iterdir())
    assert files == ["e.csv", "evening", "fifo", "folder"]
    assert "started anew" not in server.said()


def test_a_line_may_take_as_long_as_the_patience(log: Path, tmp_path: Path) -> None:
    program, pid = hanging(tmp_path, 1)
    with serving(program, log, "--patience", "0.2") as server, server.client() as client:
        assert client.greeting == "* fleet 1 clock 0 patience 0.2"
        for _ in range(2):
            assert client.ask("tick 1") == ["refused 104 OutOfPatience"]
            until(lambda: not Path("/proc", pid.read_text()).exists(), "the end of the program")
        assert commands_of(log) == []


FAKE = """#!/bin/sh
# The program, but for lines on which it ends or sleeps.
exec {python} -u -c '
import subprocess, sys, time
program = subprocess.Popen([sys.argv[1], *sys.argv[2:]], stdin=subprocess.PIPE, stdout=subprocess.PIPE)
for line in sys.stdin.buffer:
    if line.startswith(b"export van") and b"full" in line:
        sys.exit(5)
    program.stdin.write(line)
    program.stdin.flush()
    while True:
        reply = program.stdout.readline()
        if not reply:
            sys.exit(program.wait())
        sys.stdout.buffer.write(reply)
        if reply == b"ok\\n" or reply.startswith(b"refused "):
            break
' {program} "$@"
"""


def test_a_line_with_which_the_program_ends_is_told(program: Path, log: Path, tmp_path: Path) -> None:
    fake = tmp_path / "fake"
    fake.write_text(FAKE.format(python=sys.executable, program=program))
    fake.chmod(fake.stat().st_mode | stat.S_IXUSR)
    with serving(fake, log) as server, server.client() as client:
        accepted(client, "class van 5 point", "insert van a")
        client.write("tick 1", 'export van "full"', "tick 2", "list")
        assert [client.reply()[-1] for _ in range(3)] == ["ok", "refused 105 ProgramEnded", "ok"]
        assert client.reply() == ["clock 3", "class van 1/5", "ok"]
        assert "the program ended with status 5" in server.said()


TOKEN = "a-word-of-24-characters"


def test_a_token_is_needed_where_it_is_asked_for(program: Path, log: Path, tmp_path: Path) -> None:
    (tmp_path / "token").write_text(f"{TOKEN}\n")
    with serving(program, log, "--token", str(tmp_path / "token")) as server:
        with server.client() as client:
            assert client.greeting == "* fleet 1 token"
            assert client.ask(f":token {TOKEN}") == ["ok"]
            assert client.ask("list") == ["clock 0", "ok"]
        for line in ("list", f":token {TOKEN}x", ":token", f":token {TOKEN[:-1]}", f"# {TOKEN}", ":follow *"):
            with server.client() as client:
                client.write(line, "tick 1")
                assert client.rest() == ["refused 101 NotAllowed", "* closed the token is wrong"]
        with server.client() as client:
            assert client.ask(f":token {TOKEN}") == ["ok"]
            assert client.ask("list") == ["clock 0", "ok"]


@pytest.mark.parametrize(
    ("options", "status", "cause"),
    [
        (["--host", "0.0.0.0"], 2, "other machines can reach 0.0.0.0: that needs --token"),
        (["--host", "no.such.host.invalid"], 2, "the address no.such.host.invalid can't be used"),
        (["--token", "short"], 2, "short has no token"),
        (["--token", "none"], 1, "No such file"),
        (["--session", "none"], 2, "bad session 0: there is none of that name"),
        (["--session", "faulty"], 2, "bad session 2: its line 2 is faulty"),
        (["--session", "refused"], 2, "bad session 3: its line 3 is faulty"),
        (["--program", "none"], 1, "there is no program that can be run at none"),
        (["--patience", "0"], 2, "0 seconds are too few"),
        (["--tick", "x"], 2, "x is no number of seconds"),
    ],
)
def test_bad_options(
    program: Path, tmp_path: Path, monkeypatch: pytest.MonkeyPatch, capsys: pytest.CaptureFixture[str],
    options: list[str], status: int, cause: str,
) -> None:  # fmt: skip
    monkeypatch.chdir(tmp_path)
    (tmp_path / "short").write_text("secret\n")
    (tmp_path / "faulty").write_text("domino-session 1\nlist\nend\n")
    (tmp_path / "refused").write_text("domino-session 1\nclass van 3\nclass van 3\nend\n")
    try:
        ended = cli.main(["serve", "--port", "0", "--program", str(program), *options])
    except SystemExit as end:
        ended = end.code
    told = capsys.readouterr()
    assert (ended, told.out) == (status, "")
    assert cause in told.err and "Traceback" not in told.err


def test_two_servers_on_one_log_are_refused(program: Path, log: Path, server: Serving) -> None:
    with serving(program, log) as second:
        assert second.process.wait(WAIT) == 1
        assert f"another server uses the folder {log}" in second.said()
    with serving(program, log.with_name("other"), "--files", str(log / "files")) as second:
        assert second.process.wait(WAIT) == 1
        assert f"another server uses the folder {log / 'files'}" in second.said()
    with serving(program, log.with_name("third"), "--port", str(server.address[1])) as third:
        assert third.process.wait(WAIT) == 1
        assert "address already in use" in third.said() and "Traceback" not in third.said()
    with server.client() as client:
        assert client.ask("list") == ["clock 0", "ok"]


def test_a_log_may_begin_from_a_saved_session(program: Path, log: Path, tmp_path: Path) -> None:
    text = "domino-session 2\nentries 3 clock 5\n# a comment\nclass   van 3 point\ntick 2\n\ntick 3\nend\n"
    (tmp_path / "saved").write_text(text)
    with serving(program, log, "--session", str(tmp_path / "saved")) as server, server.client() as client:
        assert client.ask("list") == ["clock 5", "class van 0/3", "ok"]
        accepted(client, "tick 1")
    with serving(program, log, "--session", str(tmp_path / "saved")) as server:
        assert server.process.wait(WAIT) == 2
        assert "has a log already" in server.said()
    assert commands_of(log) == ["class   van 3 point", "tick 2", "tick 3", "tick 1"]


def _commands(client: LineClient, count: int) -> list[str]:
    """The next commands of the log that a client is told of."""
    lines = [client.next_told() for _ in range(count)]
    assert all(line.startswith("* command ") for line in lines), lines
    return [line.removeprefix("* command ") for line in lines]


def test_a_client_is_told_of_the_log(program: Path, log: Path) -> None:
    first = ["class van 3 point", "insert van a", "tick 2"]
    with serving(program, log) as server, server.client() as writer, server.client() as reader:
        accepted(writer, *first)
        assert reader.ask(":log") == ["ok"]
        assert reader.next_told() == "* log log-00000001 0 3" and _commands(reader, 3) == first
        accepted(writer, ":client me", "@1  update  a at (1,2)", "list")
        assert writer.ask("insert van a") == ["refused 14 Presence"]
        writer.write("# fleet plane EPSG:32632")
        accepted(reader, "tick 1")
        assert _commands(reader, 1) == ["update  a at (1,2)"]
        assert {reader.next_told(), reader.next_told()} == {"* plane EPSG:32632", "* command tick 1"}
        for words, told, rest in (
            ("log-00000001 4", "log-00000001 4 5", ["tick 1"]),
            ("log-00000001 5", "log-00000001 5 5", []),
            ("log-00000001 6", "log-00000001 0 5", [*first, "update  a at (1,2)", "tick 1"]),
            ("log-00000002 4", "log-00000001 0 5", [*first, "update  a at (1,2)", "tick 1"]),
        ):
            with server.client() as other:
                assert other.ask(f":log {words}") == ["ok"] and other.next_told() == f"* log {told}"
                found = [line for line in (other.next_told() for _ in range(len(rest) + 1)) if "plane" not in line]
                assert [line.removeprefix("* command ") for line in found] == rest
        accepted(writer, 'export van "e.csv"', 'import van "e.csv"', "tick 4")
        assert reader.next_told() == "* log log-00000002 0 6" and reader.next_told() == "* plane EPSG:32632"
        assert _commands(reader, 7) == commands_of(log)
        assert reader.ask(":log log-00000002 7") == ["ok"]
        server.kill()
    with serving(program, log) as server, server.client() as reader:
        accepted(reader, ":log log-00000002 6")
        assert [reader.next_told() for _ in range(2)] == ["* log log-00000002 6 7", "* plane EPSG:32632"]
        assert _commands(reader, 1) == ["tick 4"]
        for word in (":log x", ":log log-1 2", ":log log-00000002", ":log log-00000002 -1", ":log log-00000002 1 2"):
            assert reader.ask(word) == ["refused 102 BadWord"], word


def test_a_log_that_is_taken_slowly_is_told_whole(program: Path, log: Path) -> None:
    begun = Log(log)
    begun.begin([b"class van 3 point", b"insert van a", *(b"update a at (%d,0)" % number for number in range(150_000))])
    begun.close()
    with serving(program, log, "--roll-at", "160000") as server, server.client() as writer:
        slow = LineClient(server.address, system_bytes=4_096)
        accepted(slow, ":follow *", ":log")
        assert slow.next_told() == "* log log-00000001 0 150002"
        accepted(writer, *["tick 1"] * 100, "watch w 5 RETRIEVE o FROM van o WHERE o.x > 0", "update a at (0,0)")
        wanted, commands, others = commands_of(log), [], []
        while len(commands) < len(wanted):
            line = slow.line()
            (commands if line.startswith("* command ") else others).append(line.removeprefix("* command "))
        assert commands == wanted
        assert others == ["* 100 watch w 100..105", "* 100 lose w a : 100..105", "* 100 leave w a"]
        assert _peak_bytes(server) < 200 << 20
        slow.close()
        assert writer.ask("list")[0] == "clock 100"


PLANE = "# fleet plane local 11.5755,48.1374"


def test_the_plane_is_kept(program: Path, log: Path) -> None:
    told = f"* plane {PLANE.removeprefix('# fleet plane ')}"
    with serving(program, log, "--roll-at", "120") as server, server.client() as client, server.client() as other:
        accepted(client, "class van 5 point")
        assert "the comment `# fleet plane EPSG:CODE`, sent to the server, is kept" in fleet("to", "geojson", log).told[0]
        client.write("# a comment", "# fleet plane EPSG:12", f"{PLANE}\r", PLANE)
        accepted(client, "insert van a at (10,20)")
        assert client.told == [told, told]
        other.write("# fleet plane EPSG:32632")
        assert other.ask("@1 # fleet plane EPSG:32632") == ["refused 102 BadWord"] and other.told == [told]
        assert fleet("to", "geojson", log) == fleet("to", "geojson", max(log.glob("log-*"))) == _written(program, log)
        accepted(client, 'export van "e.csv"', 'import van "e.csv"')
        assert max(log.glob("log-*")).read_text().count("# fleet plane") == 1
        client.told.clear()
        while not any(line.startswith("* rolled") for line in client.told):
            accepted(client, "tick 1", "update a at (10,20)")
        assert fleet("to", "geojson", log) == _written(program, log)
        server.kill()
    (past,) = log.glob("past-*")
    for each in (past, max(log.glob("log-*"))):
        assert each.read_text().count("# fleet plane") == each.read_text().count(PLANE) == 1
    with serving(program, log) as server, server.client() as client:
        client.write("# fleet plane EPSG:32632")
        accepted(client, ":status")
        assert [line for line in client.told if "plane" in line] == [told, f"* status {told.removeprefix('* ')}"]


def _written(program: Path, log: Path) -> Said:
    """What `fleet to geojson` writes of what the server has, which the program saves."""
    with Client(program, directory=log.parent, patience=WAIT) as client:
        for _ in client.send_many([*commands_of(log), 'save "saved"']):
            pass
    return fleet("to", "geojson", log.parent / "saved", "--local", PLANE.split()[-1])


def test_the_plane_of_a_saved_session_is_kept(program: Path, log: Path, tmp_path: Path) -> None:
    (tmp_path / "saved").write_text(f"domino-session 1\nclass van 3 point\n{PLANE}\ninsert van a\nend\n")
    with serving(program, log, "--session", str(tmp_path / "saved")):
        assert fleet("to", "geojson", log) == fleet("to", "geojson", tmp_path / "saved")
    (tmp_path / "two").write_text(f"domino-session 1\n{PLANE}\n# fleet plane EPSG:32632\nend\n")
    with serving(program, tmp_path / "other", "--session", str(tmp_path / "two")) as server:
        assert server.process.wait(WAIT) == 1 and "it names two planes" in server.said()


def test_a_log_that_is_full_keeps_no_plane(program: Path, log: Path) -> None:
    with serving(program, log) as server, server.client() as client:
        pid, path = server.process.pid, max(log.glob("log-*"))
        limits = resource.prlimit(pid, resource.RLIMIT_FSIZE)
        resource.prlimit(pid, resource.RLIMIT_FSIZE, (path.stat().st_size + 5, limits[1]))
        client.write(PLANE, PLANE)
        assert [client.next_told() for _ in range(2)] == ["* plane none"] * 2
        resource.prlimit(pid, resource.RLIMIT_FSIZE, limits)
        until(lambda: client.ask("tick 1") == ["ok"], "room")
        client.write(PLANE)
        assert client.next_told() == f"* plane {PLANE.removeprefix('# fleet plane ')}"


HOSTILE = {
    "zero": (b"list\0\n", "a byte 0"),
    "zero after a line": (b"list\n\0\n", "a byte 0"),
    "bad UTF-8": (b"\xff\xfe\n", "bytes that are no UTF-8"),
    "half a character": (b"list \xc3\n", "bytes that are no UTF-8"),
    "long line": (b"x" * 8_193 + b"\n", "a line of more than 8192 bytes"),
    "endless line": (b"x" * 100_000, "a line of more than 8192 bytes"),
    "http": (b"POST / HTTP/1.1\r\nHost: localhost\r\n\r\ntick 1\n", "a request of HTTP"),
    "tls": (b"\x16\x03\x01\x02\x00\x01\x00\x01\xfc\x03\x03\n", "a byte 0"),
}


def test_hostile_bytes_end_their_connection_alone(server: Serving) -> None:
    with server.client() as good:
        for piece, cause in HOSTILE.values():
            with server.client() as bad:
                with contextlib.suppress(Gone):
                    bad.write_bytes(piece)
                rest = bad.rest()
                assert rest[-1:] in ([f"* closed the client sent {cause}"], []), piece[:20]
                assert (rest[:-1] == ["clock 0", "ok"]) == piece.startswith(b"list\n")
                address = ":".join(map(str, bad.socket.getsockname()))
                assert f"{address} sent {cause}" in server.said()
            assert good.ask("list") == ["clock 0", "ok"]


def test_a_client_that_reads_too_slowly_is_lost_alone(server: Serving) -> None:
    slow = LineClient(server.address, system_bytes=4_096)
    with slow, server.client() as writer, server.client() as reader:
        prepare_flood(writer)
        for follower in (reader, slow):
            accepted(follower, ":follow *")
        flood(writer, reader, lambda: "lost its connection: it takes" in server.said(), 200)
        assert writer.ask("list")[0] == "clock 0"
        with contextlib.suppress(Gone):
            slow.rest()


def test_a_client_that_takes_no_replies_waits_itself(server: Serving) -> None:
    silent = LineClient(server.address, system_bytes=4_096)
    with silent, server.client() as other:
        accepted(other, "class van 400 point", *(f"insert van v{i}" for i in range(400)))
        accepted(other, "watch w 90000 RETRIEVE o FROM van o WHERE o.x >= 0")
        silent.socket.setblocking(False)
        with contextlib.suppress(BlockingIOError):
            for _ in range(10_000):
                silent.socket.send(b"show w\n" * 100)
        assert other.ask("tick 1") == ["ok"]
        assert _peak_bytes(server) < 200 << 20
        silent.socket.settimeout(WAIT)
        assert len(silent.reply()) == 401


def _peak_bytes(server: Serving) -> int:
    """The most memory that the server has had at one time."""
    status = Path(f"/proc/{server.process.pid}/status").read_text()
    return next(int(line.split()[1]) << 10 for line in status.splitlines() if line.startswith("VmHWM:"))


def test_lines_of_a_client_that_floods_do_not_hold_others_up(server: Serving) -> None:
    with server.client() as flood, server.client() as other:
        accepted(flood, *big_class())
        ask = "ask 9000 RETRIEVE o FROM big o,big p,big q WHERE DIST(o,p) <= 5 AND DIST(p,q) <= 7"
        flood.write(*[ask] * 120)
        accepted(other, "tick 1")
        flood.socket.setblocking(False)
        got = b""
        with contextlib.suppress(BlockingIOError):
            while piece := flood.socket.recv(1 << 20):
                got += piece
        assert got.count(b"ok\n") < 120


def test_the_clock_goes_by_real_time(program: Path, log: Path) -> None:
    with serving(program, log, "--tick", "0.05") as server, server.client() as client:
        accepted(client, ":ticks on")
        assert [client.next_told().split()[2] for _ in range(5)] == ["tick"] * 5
        server.process.send_signal(signal.SIGSTOP)
        time.sleep(1)
        server.process.send_signal(signal.SIGCONT)
        until(lambda: any(int(line.split()[1]) > 10 for line in commands_of(log)), "a tick of so many")
        before = int(client.next_told().split()[1])
        ticks = [int(client.next_told().split()[1]) for _ in range(30)]
        assert before < ticks[0] and ticks == sorted(set(ticks))
    assert server.told[3] == f"patience {PATIENCE} seconds, a tick each 0.05 seconds"


def test_the_clock_stands_where_it_ends(program: Path, log: Path) -> None:
    with serving(program, log, "--tick", "0.05") as server, server.client() as client:
        reply = ["refused"]
        while reply != ["ok"]:
            # It is refused where the clock has gone on by more than that since.
            clock = int(client.ask("list")[0].split()[1])
            reply = client.ask(f"tick {1_000_000_000 - clock - 20}")
        while not (line := client.next_told()).startswith("* stands"):
            pass
        assert line == "* stands refused 13 ClockEnd"
        assert client.ask("list")[0] == "clock 1000000000"


def test_it_ends_cleanly(program: Path, log: Path) -> None:
    for number in (signal.SIGTERM, signal.SIGINT):
        with serving(program, log, "--tick", "0.01") as server, server.client() as client, server.client() as idle:
            client.write(*["tick 1"] * 100)
            server.process.send_signal(number)
            assert server.process.wait(WAIT) == 0
            replies = client.rest()
            assert replies[-1] == "* closed the server ends" == idle.rest()[-1]
            assert set(replies[:-1]) <= {"ok", "refused 109 Stopping"}
            until(lambda: not programs_of(log), "the end of the program")
        ticks = sum(int(line.split()[1]) for line in commands_of(log))
        with serving(program, log) as server, server.client() as client:
            assert client.ask("list")[0] == f"clock {ticks}"
            entries_told = f"{len(commands_of(log))} entries, at tick {ticks},"
            assert server.told[2].startswith(f"log {log}/log-00000001: {entries_told}")


def test_a_websocket_that_is_never_used_holds_no_end_up(program: Path, log: Path) -> None:
    with serving(program, log, "--ws-port", "0") as server:
        host, _, port = server.websocket.removeprefix("ws://").partition(":")
        with socket.create_connection((host, int(port))), _upgraded(server) as raw:
            assert server.stop() == 0
            raw.settimeout(WAIT)
            while raw.recv(65_536):
                pass


def test_a_program_that_is_not_there_yet_holds_no_end_up(fleet_command: list[str], log: Path, tmp_path: Path) -> None:
    program, pid = hanging(tmp_path, 0)
    words = [*fleet_command, "serve", "--port", "0", "--log", str(log), "--program", str(program)]
    process = subprocess.Popen(words, stdout=subprocess.PIPE)
    try:
        until(pid.exists, "the line with which it hangs")
        process.terminate()
        assert process.communicate(timeout=WAIT) == (b"", None) and process.returncode == 0
    finally:
        process.kill()
        process.communicate()
    until(lambda: not Path("/proc", pid.read_text()).exists(), "the end of the program")


def test_it_rolls_by_itself(program: Path, log: Path) -> None:
    with serving(program, log, "--roll-at", "200") as server, server.client() as client:
        accepted(client, ":client me", "@1 class van 5 point (fuel dyn)", "insert van gone", "remove gone")
        accepted(client, "insert van a move (1,0)", "watch old 1 RETRIEVE o FROM van o WHERE TRUE")
        accepted(client, "watch w 900000 RETRIEVE o FROM van o WHERE o.x >= 500")
        accepted(client, "keep k 900000 RETRIEVE o FROM van o WHERE o.x >= 500")
        ticks = 0
        while not any(line.startswith("* rolled kept") for line in client.told):
            accepted(client, "tick 1", f"update a fuel = {ticks}")
            ticks += 1
            assert ticks < 100_000
        told = [line for line in client.told if line.startswith("* rolled")]
        assert told[0].startswith("* rolled ") and told[0].endswith(f"at tick {told[0].split()[-1]}")
        assert told[1:] == [
            "* rolled class van: 1 removed name is forgotten",
            "* rolled expired queries are gone: old",
            "* rolled kept queries have lost their past: k",
        ]
        assert len(list(log.glob("past-*"))) == 1
        assert client.ask("@1 class van 5 point (fuel dyn)") == ["ok"]
        assert client.ask("list")[:2] == [f"clock {ticks}", "class van 1/5"]
        assert len(commands_of(log)) < 200 + 2 * ticks - 190
        assert client.ask('export van "e"') == ["ok"]
        assert (log / "files" / "e").read_text().splitlines()[1] == f"a,{ticks},1,0,0,{ticks - 1},0"
        accepted(client, "insert van gone")
        server.kill()
    with serving(program, log) as server, server.client() as client:
        assert client.ask("list")[:2] == [f"clock {ticks}", "class van 2/5"]
    (past,) = log.glob("past-*")
    with past.open("rb") as text:
        assert sum(1 for _ in entries(text)) >= 200


def test_a_full_disk_refuses_lines_and_loses_nothing(program: Path, log: Path) -> None:
    with serving(program, log) as server, server.client() as client:
        accepted(client, ":client me", "class van 5 point", "insert van a")
        pid, path = server.process.pid, max(log.glob("log-*"))
        limits = resource.prlimit(pid, resource.RLIMIT_FSIZE)
        resource.prlimit(pid, resource.RLIMIT_FSIZE, (path.stat().st_size + 5, limits[1]))
        assert client.ask("@1 update a at (5,5)") == ["refused 108 LogFull"]
        assert client.ask("@1 update a at (5,5)") == ["refused 108 LogFull"]
        resource.prlimit(pid, resource.RLIMIT_FSIZE, limits)
        assert client.ask("ask 0 RETRIEVE o FROM van o WHERE o.x = 0")[0] == "now a : 0..0"
        until(lambda: client.ask("@2 update a at (6,6)") == ["ok"], "room")
        assert client.ask("@1 update a at (5,5)") == ["ok"]
        server.kill()
    assert commands_of(log) == ["class van 5 point", "insert van a", "update a at (6,6)", "update a at (5,5)"]
    with serving(program, log) as server, server.client() as client:
        assert client.ask("ask 0 RETRIEVE o FROM van o WHERE o.x = 5")[0] == "now a : 0..0"


def test_no_more_clients_than_may_be(program: Path, log: Path) -> None:
    with serving(program, log, "--clients", "2") as server:
        with contextlib.ExitStack() as clients:
            first, _ = _let_in(server, clients), _let_in(server, clients)
            third = LineClient(server.address, greeted=False)
            assert third.rest() == ["* closed the server takes no more clients"]
            assert first.ask("list") == ["clock 0", "ok"]
        with contextlib.ExitStack() as clients:
            assert _let_in(server, clients).ask("list") == ["clock 0", "ok"]


def _let_in(server: Serving, clients: contextlib.ExitStack) -> LineClient:
    """A client, as soon as there is room: one that has gone counts until the server has seen that."""
    end = time.monotonic() + WAIT
    while True:
        client = clients.enter_context(LineClient(server.address, greeted=False))
        if client.line().startswith("* fleet"):
            return client
        assert time.monotonic() < end, "no room comes"
        time.sleep(0.01)


def test_websocket(program: Path, log: Path) -> None:
    import websockets
    from websockets.exceptions import InvalidStatusCode
    from websockets.client import connect

    async def talk(server: Serving) -> None:
        async with connect(server.websocket) as socket:
            assert await socket.recv() == f"* fleet 1 clock 0 patience {PATIENCE}"
            await socket.send("class van 3 point\n:follow *\r\nwatch w 9 RETRIEVE o FROM van o WHERE o.x > 3\n")
            assert await _lines(socket, 3) == ["ok", "ok", "ok"]
            with server.client() as client:
                accepted(client, "insert van a at (4,0)")
            assert await _lines(socket, 2) == ["* 0 gain w a : 0..9", "* 0 enter w a"]
            await socket.send(b"show w")
            assert await _lines(socket, 2) == ["now a : 0..9", "ok"]
            await socket.send("quit")
            assert await _lines(socket, 1) == ["ok"]
            with pytest.raises(websockets.ConnectionClosed):
                await socket.recv()
        with pytest.raises(InvalidStatusCode):
            await connect(server.websocket, origin="http://evil.example")
        async with connect(server.websocket, origin="http://good.example") as socket:
            await socket.recv()
        async with connect(server.websocket) as socket:
            await socket.recv()
            await socket.send("list\0")
            assert await _lines(socket, 1) == ["* closed the client sent a byte 0"]

    with serving(program, log, "--ws-port", "0", "--origin", "http://good.example") as server:
        asyncio.run(talk(server))
        for piece in (b"\xff" * 200, b"\x81\xfe\xff\xff" + b"x" * 70_000, b"\x83\x80abcd", b"\x81\x05hello"):
            with _upgraded(server) as raw:
                raw.sendall(piece)
                raw.shutdown(socket.SHUT_WR)
                with contextlib.suppress(OSError):
                    while raw.recv(65_536):
                        pass
        with server.client() as client:
            assert client.ask("list")[0] == "clock 0"
        assert "Traceback" not in server.said()


async def _lines(socket: object, count: int) -> list[str]:
    lines: list[str] = []
    while len(lines) < count:
        lines += (await asyncio.wait_for(socket.recv(), WAIT)).split("\n")  # type: ignore[attr-defined]
    return lines


def _upgraded(server: Serving) -> socket.socket:
    """A connection that speaks WebSocket from now on."""
    host, _, port = server.websocket.removeprefix("ws://").partition(":")
    raw = socket.create_connection((host, int(port)), timeout=WAIT)
    raw.sendall(
        f"GET / HTTP/1.1\r\nHost: {host}:{port}\r\nUpgrade: websocket\r\nConnection: Upgrade\r\n"
        "Sec-WebSocket-Key: dGhlIHNhbXBsZSBub25jZQ==\r\nSec-WebSocket-Version: 13\r\n\r\n".encode()
    )
    while not raw.recv(65_536).count(b"\r\n\r\n"):
        pass
    return raw


def test_websocket_alone_needs_its_package(fleet_command: list[str], program: Path, log: Path, tmp_path: Path) -> None:
    (tmp_path / "websockets.py").write_text("raise ModuleNotFoundError('no', name='websockets')\n")
    environment = {"PYTHONPATH": str(tmp_path)}
    with serving(program, log, environment=environment) as server, server.client() as client:
        assert client.ask("list") == ["clock 0", "ok"]
    words = [*fleet_command, "serve", "--port", "0", "--ws-port", "0", "--log", str(log), "--program", str(program)]
    run = subprocess.run(words, env=os.environ | environment, capture_output=True, text=True, timeout=WAIT)
    assert (run.returncode, run.stderr) == (1, "fleet: this part needs the Debian package python3-websockets\n")


PROTOCOL = Path(__file__).resolve().parents[2] / "docs" / "PROTOCOL.md"


def test_the_example_of_the_protocol(program: Path, log: Path) -> None:
    chapter = PROTOCOL.read_text().partition("\n## The server\n")[2]
    example = chapter.split("```")[1].strip().splitlines()
    with serving(program, log, "--patience", "10") as server:
        clients = {name: LineClient(server.address, greeted=False) for name in ("A", "B")}
        for line in example:
            name, sign, text = line.split(" ", 2)
            if sign == ">":
                clients[name].write(text)
            else:
                assert clients[name].line() == text, line
        assert clients["A"].rest() == []
        clients["B"].close()


def test_the_protocol_has_each_refusal_of_the_server() -> None:
    chapter = PROTOCOL.read_text().partition("\n## The server\n")[2]
    told = {line.split("`")[1] for line in chapter.splitlines() if line.startswith("| `refused 1")}
    assert told == {refusal.reply().decode().strip() for refusal in Refusal}
