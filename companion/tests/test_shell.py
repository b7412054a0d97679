"""The shell, on a terminal of its own and without one."""

import errno
import os
import re
import stat
import subprocess
import time
from pathlib import Path

import pexpect
import pytest
from prompt_toolkit.history import InMemoryHistory

from fleet import manual
from fleet.client import Client
from fleet.completion import LineCompleter
from fleet.explain import Explainer, answered_commands, pointed
from fleet.grammar import ALL_COMMANDS
from fleet.schema import Object, Schema
from fleet.terminal import Shell, attribute_lines, exported, help_on, history, history_path, schema_lines
from fleet.words import REFUSALS

PASTE_ON, PASTE_OFF = "\x1b[?2004h", "\x1b[?2004l"
"""What the terminal is sent as a line begins to be edited, and when it is done."""
ESCAPES = re.compile(r"\x1b\[[0-9;?]*[A-Za-z]")
CTRL_C, CTRL_D, UP, TAB = "\x03", "\x04", "\x1b[A", "\t"
SECONDS = 60


class Terminal:
    """The shell on a terminal of 100 columns."""

    def __init__(self, command: list[str], program: Path, folder: Path, *words: str) -> None:
        # without the variable the library asks the terminal for the place of its cursor, and this one doesn't answer
        environment = dict(os.environ, DOMINO=str(program), TERM="xterm", PROMPT_TOOLKIT_NO_CPR="1", NO_COLOR="1")
        self.child = pexpect.spawn(
            command[0],
            [*command[1:], *words],
            cwd=str(folder),
            env=environment,
            dimensions=(40, 100),
            encoding="utf-8",
            timeout=SECONDS,
        )
        self.banner = self._until_prompt()

    def _until_prompt(self) -> str:
        self.child.expect_exact(PASTE_ON)
        return self.child.before

    def key(self, keys: str) -> None:
        """Types keys."""
        self.child.send(keys)

    def output(self) -> str:
        """What is written from the end of the line that is edited to the begin of the next one."""
        self.child.expect_exact(PASTE_OFF)
        return ESCAPES.sub("", self._until_prompt()).replace("\r\n", "\n")

    def __call__(self, line: str) -> str:
        """Types a line and gives what is written in answer."""
        self.key(line + "\r")
        return self.output()

    def prompts(self, text: str) -> bool:
        """Whether the line that is edited begins with the text."""
        return self.child.expect_exact([text, pexpect.TIMEOUT], timeout=SECONDS) == 0

    def end(self) -> tuple[str, int | None]:
        """What is written up to the end, and the exit status."""
        self.child.expect(pexpect.EOF)
        text = ESCAPES.sub("", self.child.before)
        self.child.close()
        return text, self.child.exitstatus


class Shells:
    """Starts shells, and ends those that a test leaves."""

    def __init__(self, command: list[str], program: Path, folder: Path) -> None:
        self.command, self.program, self.folder = command, program, folder
        self._started: list[Terminal] = []

    def __call__(self, *words: str) -> Terminal:
        self._started.append(Terminal(self.command, self.program, self.folder, *words))
        return self._started[-1]

    def end(self) -> None:
        for each in self._started:
            each.child.close(force=True)


@pytest.fixture
def shells(fleet_command: list[str], program: Path, tmp_path: Path):
    shells = Shells(fleet_command, program, tmp_path)
    yield shells
    shells.end()


def stub(path: Path, cases: str) -> Path:
    """A program that answers each line by `ok`, but for some."""
    path.write_text(f'#!/bin/sh\nwhile read -r line; do\ncase $line in\n{cases}\n*) echo ok ;;\nesac\ndone\n')
    path.chmod(0o755)
    return path


def test_answers_and_shows_places_and_near_names(shells: Shells) -> None:
    shell = shells()
    assert "\\help" in shell.banner
    assert shell("class van 20 point (id num,fuel dyn,plate text)") == "ok\n"
    assert shell("  # a comment") == ""
    assert shell("ask 60 retrieve o from van o") == (
        "          ^~~~~~~~\nrefused 4 BadSyntax: expected RETRIEVE; upper and lower case count: RETRIEVE\n"
    )
    assert shell("ask 60 RETRIEVE o FROM van o WHERE o.feul < 3") == (
        "                                        ^~~~\nrefused 7 UnknownName: feul: no attribute of van; fuel?\n"
    )
    assert shell("range 5 van fuel 0 1") == (
        "               ^~~~\nrefused 7 UnknownName: fuel: no attribute of van that has an index\n"
    )
    assert shell("index van fuel 1") == "ok\n"
    assert shell("class van 3") == "         ^~~\nrefused 8 NameTaken: van is a class already\n"
    assert "three after it" in shell("insert van a x = 0.0001")
    assert "^" in shell("insert van zoë").splitlines()[0]
    assert shell("tick 4") == "ok\n"
    assert shell.prompts("4>")


def test_long_lines_are_shown_again_with_their_caret(shells: Shells) -> None:
    shell = shells()
    answer = shell("remove" + " " * 120 + "x y").splitlines()
    assert answer[0].endswith("x y") and answer[1].index("^") == answer[0].index("y")


def test_tells_objects_attributes_schema_and_queries(shells: Shells) -> None:
    shell = shells()
    assert shell("\\objects") == "there are no classes\n"
    assert shell("\\queries") == "no query is registered\n"
    (shells.folder / "f.csv").write_text("name,fuel\nv2,7\nv3,8\n")
    for line in (
        "class van 20 point (id num,fuel dyn,plate text)", "region yard (0,0) (4,0) (4,4.5)",
        'insert van v1 at (1,2) move (1,0) fuel = 40 rate -0.5 plate = "AB 1"', "tick 4",
        'import van "f.csv"', "remove v3",
        "watch low 40 RETRIEVE o FROM van o WHERE o.fuel < 3",
    ):
        assert shell(line).endswith("ok\n"), line
    files = sorted(each.name for each in shells.folder.iterdir())
    assert [line.split() for line in shell("\\get v1").splitlines()] == [
        ["v1", "of", "van", "at", "tick", "4"], ["x", "5", "rate", "1"], ["y", "2", "rate", "0"], ["id", "0"],
        ["fuel", "38", "rate", "-0.5"], ["plate", '"AB', '1"'],
    ]
    assert "fuel   7  rate 0" in shell("\\get v2")
    assert shell("\\get v3") == "v3 of van was removed\n"
    assert shell("\\get v11") == "v11: no object; v1?\n"
    assert shell("\\get").startswith("nothing: no object")
    assert shell("\\objects van") == "van: 2 present, 3 of 20 names\n    v1 v2\n"
    assert shell("\\objects vans") == "vans: no class; van?\n"
    assert shell("\\schema") == "class van 20 point (id num,fuel dyn,plate text)\nregion yard (0,0) (4,0) (4,4.5)\n"
    assert shell("\\queries") == "watch low 4..44\n    RETRIEVE o FROM van o WHERE o.fuel < 3\n"
    assert shell("tick 100") == "ok\n"
    assert shell("\\queries").startswith("watch low 4..44, expired\n")
    assert sorted(each.name for each in shells.folder.iterdir()) == files


def test_helps(shells: Shells) -> None:
    shell = shells()
    assert all(word in shell("\\help") for word in ("\\get", "\\schema", "ctrl-D"))
    assert "Makes an object present" in shell("\\help insert")
    assert "UnknownName" in shell("\\help 7") and "UnknownName" in shell("\\help unknownname")
    assert "both orders" in shell("\\help pairs")
    assert "Nothing stops by itself" in shell("\\help traps")
    assert shell("\\help isnert").startswith("there is no help on isnert; insert or ")
    assert shell("\\hlp") == "\\hlp is none of \\help \\objects \\get \\schema \\queries; \\help?\n"


def test_completes_words_and_names(shells: Shells) -> None:
    shell = shells()
    shell("class van 20 point (fuel dyn)")
    shell.key("ask 0 RETR" + TAB)
    shell.child.expect_exact("IEVE")
    shell.key(" o FROM van o WHERE o.fu" + TAB)
    shell.child.expect_exact("el")
    shell.key(" < 3\r")
    assert shell.output() == "ok\n"


def test_ctrl_c_clears_the_line_and_ends_nothing(shells: Shells) -> None:
    shell = shells()
    shell("class van 20")
    shell.key("bogus")
    shell.key(CTRL_C)
    shell.output()
    shell.key(CTRL_C)
    shell.output()
    assert shell("list") == "clock 0\nclass van 0/20\nok\n"


def test_ctrl_c_while_the_program_works_loses_nothing(fleet_command: list[str], tmp_path: Path) -> None:
    waits = "n=0; while [ ! -e go ] && [ $n -lt 1200 ]; do sleep 0.05; n=$((n+1)); done"
    slow = stub(tmp_path / "slow", f"list) touch began; {waits}; echo clock 0; echo ok ;;")
    shell = Terminal(fleet_command, slow, tmp_path)
    shell.key("list\r")
    end = time.monotonic() + SECONDS
    while not (tmp_path / "began").exists():
        assert time.monotonic() < end
        time.sleep(0.05)
    shell.key(CTRL_C)
    shell.child.expect_exact("the program is still at work")
    (tmp_path / "go").touch()
    shell.child.expect_exact("clock 0")
    shell._until_prompt()
    shell.key(CTRL_D)
    assert shell.end()[1] == 0


def test_leaving_asks_once_where_changes_are_unsaved(shells: Shells) -> None:
    shell = shells()
    shell("class van 20")
    shell("insert van a")
    shell.key(CTRL_D)
    shell.output()
    assert shell.prompts("2 changes since the last save will be lost. Leave? [y/N]")
    shell("n")
    shell.key("quit\r")
    shell.output()
    assert shell.prompts("Leave?")
    shell.key(CTRL_C)
    shell.output()
    assert shell("list").endswith("ok\n")
    shell.key(CTRL_D)
    shell.output()
    shell.key(CTRL_D)
    assert shell.end()[1] == 0


@pytest.mark.parametrize("last", [CTRL_D, "quit\r"])
def test_leaving_asks_nothing_after_a_save(shells: Shells, last: str) -> None:
    shell = shells()
    shell("class van 20")
    assert shell('save "s"') == "ok\n"
    shell("list")
    shell.key(last)
    assert shell.end()[1] == 0
    shell = shells("shell", "--session", "s")
    assert shell("\\schema") == "class van 20\n"
    shell("tick 5")
    shell.key(last)
    shell.output()
    shell.key("y\r")
    assert shell.end()[1] == 0


def test_refuses_file_names_that_end_the_program(shells: Shells) -> None:
    shell = shells()
    for line in ('save "a/b"', 'save ""', 'save ".."'):
        assert "nothing was sent" in shell(line)
    assert shell("list") == "clock 0\nok\n"


def test_keeps_the_history_over_sessions(shells: Shells) -> None:
    shell = shells()
    shell("list")
    shell.key(CTRL_D)
    shell.end()
    assert stat.S_IMODE(history_path().stat().st_mode) == 0o600
    shell = shells()
    shell.key(UP + "\r")
    assert shell.output() == "clock 0\nok\n"


def test_takes_a_paste_of_many_lines(shells: Shells) -> None:
    shell = shells()
    shell.key("\x1b[200~class van 20\ninsert van a\nbogus\nlist\x1b[201~\r")
    answer = shell.output()
    assert answer.startswith("ok\nok\n") and answer.endswith("clock 0\nclass van 1/20\nok\n")
    assert "bogus\n^~~~~\n" in answer


def test_an_end_of_the_program_is_told(fleet_command: list[str], tmp_path: Path) -> None:
    dying = stub(tmp_path / "dying", "list) exit 5 ;;")
    shell = Terminal(fleet_command, dying, tmp_path)
    assert shell("class van 2") == "ok\n"
    shell.key("list\r")
    text, status = shell.end()
    assert "ended with status 5" in text and "1 change since the last save are lost" in text
    assert status == 5


def test_without_a_terminal_it_is_the_program(fleet_command: list[str], program: Path, tmp_path: Path) -> None:
    environment = dict(os.environ, DOMINO=str(program))
    lines = b"class car 1\n# x\nbogus\nlist\r\nsave \"s\"\nquit\nlist\n"
    for options, text in ([], lines), (["--session", "s"], b"list"), (["--session", "t"], b"list"):
        alone, done = (
            subprocess.run(words, input=text, capture_output=True, cwd=tmp_path, env=environment, timeout=SECONDS)
            for words in ([program, *options], [*fleet_command, "shell", *options])
        )
        assert (done.stdout, done.stderr, done.returncode) == (alone.stdout, alone.stderr, alone.returncode)
    assert done.returncode == 2


# ---- Completion, without a terminal

FLEET = (
    "class van 20 point (fuel dyn,plate text)", "class depot 5 point", "region yard (0,0) (4,0) (4,4)", "insert van v1",
    "insert van v2", "remove v2", "insert depot north", "watch low 9 RETRIEVE o FROM van o WHERE o.fuel < 3",
    "index van fuel 1",
)
BUILT = ALL_COMMANDS


@pytest.mark.parametrize(
    ("before", "partial", "words"),
    [
        ("", "", sorted(BUILT)),
        ("in", "in", ["index", "insert"]),
        ("index van ", "", ["fuel", "x", "y"]),
        ("range 9 van ", "", ["fuel"]),
        ("range 9 depot ", "", []),
        ("insert ", "", ["depot", "van"]),
        ("insert van ", "", ["v2"]),
        ("insert van v2 ", "", ["at", "fuel", "move", "plate", "x", "y"]),
        ("update ", "", ["north", "v1"]),
        ("update v1 f", "f", ["fuel"]),
        ("remove N", "N", ["north"]),
        ("show ", "", ["low"]),
        ("class lorry 3 (load ", "", ["dyn", "num", "text"]),
        ("ask 3 retr", "retr", ["RETRIEVE"]),
        ("ask 3 RETRIEVE o FROM ", "", ["depot", "van"]),
        ("ask 3 RETRIEVE o FROM van o WHERE ins", "ins", ["INSIDE"]),
        ("ask 3 RETRIEVE o FROM van o,depot d WHERE DIST(", "", ["d", "o"]),
        ("ask 3 RETRIEVE o FROM van o,depot d WHERE INSIDE(o,", "", ["yard"]),
        ("ask 3 RETRIEVE o FROM van o,depot d WHERE d.", "", ["x", "y"]),
        ("ask 3 RETRIEVE o FROM van o,depot d WHERE o.fuel.", "", ["function", "updatetime", "value"]),
        ("ask 3 RETRIEVE o FROM van o WHERE [val <- o.x] va", "va", ["val"]),
        ("ask 3 RETRIEVE o FROM van o WHERE o.x < 3 U", "U", ["UNTIL", "UNTIL_AFTER", "UNTIL_WITHIN"]),
        ("bogus ", "", []),
        ("insert ? ", "", []),
        ("\\", "\\", ["\\get", "\\help", "\\objects", "\\queries", "\\schema"]),
        ("\\get ", "", ["north", "v1"]),
        ("\\objects v", "v", ["van"]),
        ("\\help unk", "unk", ["UnknownName"]),
        ('import van "f', "f", ["f.csv", "fleet.csv"]),
        ('save "', "", ["f.csv", "fleet.csv"]),
        ('update v1 plate = "f', "f", []),
    ],
)
def test_completes_what_may_come(tmp_path: Path, before: str, partial: str, words: list[str]) -> None:
    for name in ("f.csv", "fleet.csv", "n" * 33):
        (tmp_path / name).write_text("")
    (tmp_path / "folder").mkdir()
    completer = LineCompleter(Schema.of_lines(FLEET), BUILT, tmp_path)
    assert completer.completions(before) == (partial, words)


# ---- What is told, without a terminal


def test_asks_the_program_which_commands_it_answers(program: Path) -> None:
    assert answered_commands(program) == ALL_COMMANDS - manual.unanswered()


def test_get_tells_what_an_export_writes(client: Client) -> None:
    for line in (*FLEET, 'update v1 at (1,2) move [(1,0),2] (3,0) plate = "A,B" fuel = -0.5 rate 2', "tick 3"):
        assert client.send(line).ok
    before = sorted(client.directory.iterdir())
    fields = exported(client, Object("v1", "van"), 2)
    assert sorted(client.directory.iterdir()) == before
    assert client.send('export van "v.csv"').ok
    header, row = (client.directory / "v.csv").read_text().splitlines()
    assert ",".join(fields) == header and row == 'v1,6,3,2,0,5.5,2,"A,B"'
    lines = list(attribute_lines(Schema.of_lines(FLEET).classes["van"], fields))
    assert lines == ["x      6  rate 3", "y      2  rate 0", "fuel   5.5  rate 2", 'plate  "A,B"']


def test_get_sends_nothing_where_its_file_cant_be_made(client: Client) -> None:
    for line in FLEET:
        client.send(line)
    (client.directory / f".fleet_get_{os.getpid()}").write_text("mine")
    with pytest.raises(FileExistsError):
        exported(client, Object("v1", "van"), 2)
    assert (client.directory / f".fleet_get_{os.getpid()}").read_text() == "mine"
    assert client.send("list").ok


def test_get_sends_nothing_where_the_disk_has_no_room(client: Client, monkeypatch: pytest.MonkeyPatch) -> None:
    def full(file: int, start: int, size: int) -> None:
        raise OSError(errno.ENOSPC, os.strerror(errno.ENOSPC))

    for line in FLEET:
        client.send(line)
    before = sorted(client.directory.iterdir())
    monkeypatch.setattr(os, "posix_fallocate", full)
    with pytest.raises(OSError, match="No space"):
        exported(client, Object("v1", "van"), 2)
    assert sorted(client.directory.iterdir()) == before
    assert client.send("list").ok


def test_a_fault_of_the_shell_ends_nothing(
    client: Client, monkeypatch: pytest.MonkeyPatch, capsys: pytest.CaptureFixture[str]
) -> None:
    """Also where its history can't be written, or ctrl-C comes while a reply is shown."""
    lines = iter(["class van 2", "bogus", "\\get x", "list"])
    shell = Shell(client, Schema(), Explainer(Schema()))

    def typed(text: str) -> str:
        for line in lines:
            return line
        raise EOFError

    def faulty(*arguments: object) -> None:
        raise KeyError(arguments)

    def interrupted(name: str) -> None:
        raise KeyboardInterrupt

    monkeypatch.setattr(shell._prompt, "prompt", typed)
    monkeypatch.setattr(shell._explainer, "explain", faulty)
    monkeypatch.setitem(shell._backslash, "\\get", interrupted)
    monkeypatch.setattr(shell, "_may_leave", lambda: True)
    assert shell.run() == 0
    told = capsys.readouterr().out
    assert "the shell has a fault" in told and told.endswith("clock 0\nclass van 0/2\nok\n")


def test_a_history_that_cant_be_written_is_kept_for_the_session(capsys: pytest.CaptureFixture[str]) -> None:
    kept = history()
    history_path().unlink()
    history_path().mkdir()
    kept.append_string("list")
    assert kept.get_strings() == ["list"]
    history_path().rmdir()
    history_path().parent.rmdir()
    history_path().parent.write_text("")
    assert isinstance(history(), InMemoryHistory)
    assert "no history is kept" in capsys.readouterr().out


def test_has_help_on_all_that_can_be_asked() -> None:
    topics = ["", "commands", "refusals", "traps", *ALL_COMMANDS, *REFUSALS.values(), *map(str, REFUSALS)]
    topics += manual.traps()
    assert [topic for topic in topics if not help_on(topic)] == []
    assert help_on("no such topic") == ""


def test_schema_is_told_as_the_commands_that_made_it(client: Client) -> None:
    lines = [
        "class a 1", "class b 100000 point", "class c 7 (n num)", "class d 8 point (n num,t text,v dyn)",
        "region P (0,-0.001) (1000000000,0) (4,4.5)",
    ]
    schema = Schema.of_lines(lines)
    assert list(schema_lines(schema)) == lines
    assert all(reply.ok for reply in client.send_many(schema_lines(schema)))


def test_points_at_a_place_within_the_width() -> None:
    assert pointed("abc def", 4, 3, 60) == ["abc def", "    ^~~"]
    assert pointed("abc", 3, 0, 60) == ["abc", "   ^"]
    assert pointed(b"\ta\xc3\xab", 2, 1, 60) == [" a\xeb", "  ^"]
    for place in (0, 1, 30, 2_000, 3_999, 4_000):
        shown, caret = pointed("x" * place + "!" + "y" * (4_000 - place), place, 1, 60)
        assert len(shown) == 60 and shown[caret.index("^")] == "!" or place in (0, 1)
