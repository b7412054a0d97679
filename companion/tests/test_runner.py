"""`fleet run`: replies, places of refusals, and exit statuses."""

import json
import subprocess
from dataclasses import dataclass
from pathlib import Path

import pytest

from conftest import TOP
from fleet import cli

FLEET = """\
# a fleet
class van 3 point (fuel dyn,plate text)

insert van v1 at (0,0) fuel = 3
insert van zo\xeb
ask 60 retrieve o from van o
list;
ask 0 RETRIEVE o FROM van o WHERE o.feul < 3
range 5 van fuel 0 2.5
tick 0
region r (0,0) (4,0) (4,4) (0,0)
list
"""
TOLD = """\
fleet.domino:5: refused 2 NotAscii: the byte 0xC3 is neither printable ASCII nor a tab
    insert van zo\xeb
                 ^
fleet.domino:6: refused 4 BadSyntax: expected RETRIEVE; upper and lower case count: RETRIEVE
    ask 60 retrieve o from van o
           ^~~~~~~~
fleet.domino:7: refused 3 BadToken: no token begins here; a command ends with its line, without a semicolon
    list;
        ^
fleet.domino:8: refused 7 UnknownName: feul: no attribute of van; fuel?
    ask 0 RETRIEVE o FROM van o WHERE o.feul < 3
                                        ^~~~
fleet.domino:9: refused 7 UnknownName: fuel: no attribute of van that has an index
    range 5 van fuel 0 2.5
                ^~~~
fleet.domino:10: refused 5 NumberRange: a number of ticks is a whole number from 1 to 1,000,000,000
    tick 0
         ^
fleet.domino:11: refused 10 NotConvex: the first point stands again at the end: a region is closed by itself
    region r (0,0) (4,0) (4,4) (0,0)
                               ^~~~~
"""


@dataclass
class Done:
    """What a run has written, and its exit status."""

    returncode: int
    stdout: bytes
    stderr: bytes


class Runner:
    """Runs `fleet run` in a folder."""

    def __init__(self, command: list[str], folder: Path, captured: pytest.CaptureFixture[bytes]) -> None:
        self.folder = folder
        self._command = command
        self._captured = captured

    def __call__(self, *words: str, text: str = "") -> Done:
        if text:
            (self.folder / "fleet.domino").write_text(text, "utf-8")
        status = cli.main(["run", *(words or ("fleet.domino",))])
        return Done(status, *self._captured.readouterr())

    def begun(self, *words: str) -> subprocess.Popen[bytes]:
        """A run as a process of its own, whose input is written to while it runs."""
        pipe = subprocess.PIPE
        return subprocess.Popen([*self._command, "run", *words], stdin=pipe, stdout=pipe, stderr=pipe, cwd=self.folder)


@pytest.fixture
def run(
    fleet_command: list[str], program: Path, tmp_path: Path, monkeypatch: pytest.MonkeyPatch,
    capsysbinary: pytest.CaptureFixture[bytes],
) -> Runner:
    monkeypatch.chdir(tmp_path)
    monkeypatch.setenv("DOMINO", str(program))
    monkeypatch.setenv("COLUMNS", "100")
    return Runner(fleet_command, tmp_path, capsysbinary)


def test_tells_the_line_and_the_place_of_each_refusal(run: Runner) -> None:
    done = run(text=FLEET)
    assert done.stderr.decode() == TOLD
    assert done.returncode == 1


def test_writes_what_the_program_writes(run: Runner, program: Path) -> None:
    for example in sorted((TOP / "examples").glob("*.domino")):
        alone = subprocess.run([program], stdin=example.open("rb"), capture_output=True, cwd=run.folder, timeout=60)
        done = run(str(example))
        assert done.stdout == alone.stdout, example
        assert done.returncode == (1 if b"refused" in alone.stdout else 0), example


def test_echo_is_a_transcript(run: Runner) -> None:
    done = run("fleet.domino", "--echo", text="# one\n\nclass car 1\r\nbogus\n  list\n")
    assert done.stdout.decode() == (
        "# one\n\nclass car 1\n    ok\nbogus\n    refused 4 BadSyntax\n  list\n    clock 0\n    class car 0/1\n    ok\n"
    )


def test_echo_gives_the_transcript_of_the_readme(run: Runner) -> None:
    """The session in the README, whose replies stand indented after their lines, comes back as it stands there."""
    readme = (TOP / "README.md").read_text("utf-8")
    block = next(part for part in readme.split("\n\n") if "class truck 100 point" in part)
    lines = [line.removeprefix("    ") for line in block.splitlines()]
    done = run("fleet.domino", "--echo", text="\n".join(line for line in lines if not line.startswith(" ")) + "\n")
    assert done.stdout.decode().splitlines() == lines


def test_bail_stops_at_the_first_refusal(run: Runner) -> None:
    done = run("fleet.domino", "--bail", text=FLEET)
    assert done.stdout == b"ok\nok\nrefused 2 NotAscii\n"
    assert done.stderr.count(b"refused") == 1 and done.returncode == 1


def test_json_has_the_numbers_of_lines(run: Runner) -> None:
    done = run("fleet.domino", "--json", text='# x\nclass car 1\nbogus\nsave "a/b"\n')
    told = [json.loads(line) for line in done.stdout.splitlines()]
    assert [(each["kind"], each["line"]) for each in told] == [("ok", 2), ("refused", 3), ("bad_name", 4)]


def test_accepts_all_with_status_0(run: Runner) -> None:
    done = run(text="class car 1\n# refused\nlist")
    assert (done.returncode, done.stderr) == (0, b"")


def test_an_unsent_line_counts_as_refused_and_the_run_goes_on(run: Runner) -> None:
    text = 'class car 1\n# save\nsave "a/b"\n\nexport car "."\nlist\n'
    done = run("fleet.domino", "--echo", text=text)
    assert done.returncode == 1
    assert [line.split(b": ")[0] for line in done.stderr.splitlines()] == [b"fleet.domino:3", b"fleet.domino:5"]
    assert done.stdout.decode() == (
        'class car 1\n    ok\n# save\nsave "a/b"\n\nexport car "."\nlist\n    clock 0\n    class car 0/1\n    ok\n'
    )
    assert run("fleet.domino", "--bail", text=text).stdout == b"ok\n"


def test_explains_a_file_that_isnt_imported(run: Runner) -> None:
    (run.folder / "f.csv").write_text("name,x\nv1,1e-05\n")
    done = run(text='class van 2 point\nimport van "f.csv"\nimport van "g.csv"\n')
    first, *_, last = done.stderr.decode().splitlines()
    assert first == "fleet.domino:2: refused 20 BadFile: f.csv:2:2: 1e-05 is no number without an exponent"
    assert last == "fleet.domino:3: refused 19 NoFile: the text to be imported isn't there"


def test_knows_the_objects_of_an_import(run: Runner) -> None:
    (run.folder / "f.csv").write_text("name\nv1\n")
    for mode in ((), ("--bail",)):
        done = run("fleet.domino", *mode, text='class van 2 point\nimport van "f.csv"\nupdate v1 z = 1\n')
        assert done.stdout == b"ok\nok\nrefused 7 UnknownName\n"
        assert b"z: no attribute of van" in done.stderr


def test_goes_on_from_a_session(run: Runner) -> None:
    run(text='class van 2 (fuel num)\ninsert van v1\nsave "s"\n')
    done = run("fleet.domino", "--session", "s", text="update v1 feul = 1\n")
    assert b"fuel?" in done.stderr
    (run.folder / "s").write_bytes(b"domino-session 1\nbogus\nend\n")
    done = run("fleet.domino", "--session", "s")
    assert done.returncode == 2 and b"bad session 2" in done.stderr


def test_reads_standard_input_line_by_line(run: Runner) -> None:
    process = run.begun("-")
    for line, reply in ((b"class car 1", b"ok"), (b"bogus", b"refused 4 BadSyntax"), (b"quit", b"ok")):
        process.stdin.write(line + b"\n")
        process.stdin.flush()
        assert process.stdout.readline() == reply + b"\n"
    rest, told = process.communicate(b"list\n", timeout=60)
    assert rest == b"" and told.startswith(b"-:2: refused 4") and process.returncode == 1


def test_an_end_of_the_program_is_told(run: Runner) -> None:
    """The program can't write a file: its folder is taken away while it runs, and another put in its place."""
    folder = run.folder / "work"
    folder.mkdir()
    process = run.begun("-", "--directory", str(folder))
    process.stdin.write(b"class car 1\n")
    process.stdin.flush()
    assert process.stdout.readline() == b"ok\n"
    folder.rmdir()
    folder.mkdir()
    _, told = process.communicate(b'# now\nsave "s"\nlist\n', timeout=60)
    assert told == b"-:3: the program has ended with status 5: a file couldn't be read or written\n"
    assert process.returncode == 5


def test_a_file_that_isnt_there(run: Runner) -> None:
    done = run("nosuch.domino")
    assert (done.returncode, done.stderr) == (2, b"fleet: nosuch.domino: No such file or directory\n")


def test_runs_bytes_of_any_kind(run: Runner, program: Path) -> None:
    (run.folder / "odd").write_bytes(bytes(range(1, 256)) + b"\nlist\r\n\xff" + b"x" * 9000 + b"\n\x00\nclass c 1")
    alone = subprocess.run([program], stdin=(run.folder / "odd").open("rb"), capture_output=True, timeout=60)
    for mode in ((), ("--echo",), ("--json",)):
        done = run("odd", *mode)
        assert done.returncode == 1
        assert done.stderr.count(b"refused") == alone.stdout.count(b"refused")
    assert run("odd").stdout == alone.stdout
