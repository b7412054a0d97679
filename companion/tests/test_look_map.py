"""`fleet look map`: regions, objects and where they go, as SVG."""

from pathlib import Path
from xml.etree import ElementTree

import pytest

from fleet import cli
from sessions import example_session, made_session

Captured = pytest.CaptureFixture[bytes]
SVG = "{http://www.w3.org/2000/svg}"


def drawn(capsysbinary: Captured, session: Path, *words: object) -> str:
    assert cli.main(["look", "map", str(session), *map(str, words)]) == 0
    return capsysbinary.readouterr().out.decode()


def groups(picture: str, name: str) -> list[ElementTree.Element]:
    return [group for group in ElementTree.fromstring(picture).iter(f"{SVG}g") if group.get("class") == name]


def titles(picture: str, name: str) -> list[str]:
    return [group.findtext(f"{SVG}title", "") for group in groups(picture, name)]


def test_what_is_there_is_drawn_and_told(program: Path, capsysbinary: Captured, tmp_path: Path) -> None:
    made = drawn(capsysbinary, example_session(program, tmp_path), "--at", 80, "--query", "town")
    assert titles(made, "region") == ["region centre"]
    assert titles(made, "object") == [
        "van v1 at (720,300), moves (9,0) a tick; town: later v1 : 112..222",
        "van v2 at (1960,500), moves (-8,0) a tick; town: now v2 : 80..100000000",
        "van v3 at (1500,2400), moves (0,-10) a tick",
        "van v4 at (1500,1560), moves (0,12) a tick",
        "depot north at (1500,3000), at rest",
    ]
    marks = [circle.get("class") for circle in ElementTree.fromstring(made).iter(f"{SVG}circle") if circle.get("class")]
    assert marks == ["mark later", "mark now"]
    assert len(groups(made, "way")) == 4
    assert "town: now" in made and "town: later" in made and "the next 60 ticks" in made


def test_ways_follow_the_legs(program: Path, capsysbinary: Captured, tmp_path: Path) -> None:
    session = example_session(program, tmp_path)
    near = [way.find(f"{SVG}polyline") for way in groups(drawn(capsysbinary, session, "--at", 80), "way")]
    far = [way.find(f"{SVG}polyline") for way in groups(drawn(capsysbinary, session, "--at", 80, "--ahead", 100), "way")]
    counts = [[len((line.get("points") or "").split()) for line in lines if line is not None] for lines in (near, far)]
    # v2 stops after 70 more ticks and v3 after 60, where it ends
    assert counts == [[2, 2, 2, 2], [2, 3, 3, 2]]
    assert groups(drawn(capsysbinary, session, "--at", 80, "--ahead", 0), "way") == []


def test_it_is_as_it_was_and_as_it_will_be(program: Path, capsysbinary: Captured, tmp_path: Path) -> None:
    session = example_session(program, tmp_path)
    assert titles(drawn(capsysbinary, session, "--at", 10), "object")[0] == "van v1 at (100,300), moves (10,0) a tick"
    later = drawn(capsysbinary, session, "--at", 310)
    assert titles(later, "object")[0] == "van v1 at (2790,300), moves (9,0) a tick"
    assert "as the motions imply" in later and "as the motions imply" not in drawn(capsysbinary, session)


def test_an_answer_that_is_asked_for_is_ringed(program: Path, capsysbinary: Captured, tmp_path: Path) -> None:
    session = example_session(program, tmp_path)
    text = "RETRIEVE o,n FROM van o,van n WHERE DIST(o,n) <= 400 AND o.id < n.id"
    made = drawn(capsysbinary, session, "--at", 80, "--ahead", 60, "--ask", text)
    rows = [title.partition(": ")[2] for title in titles(made, "object")]
    assert rows == ["later v1 v2 : 133..140"] * 2 + ["later v3 v4 : 100..136"] * 2 + [""]


def test_trails_are_drawn_where_asked_for(program: Path, capsysbinary: Captured, tmp_path: Path) -> None:
    session = example_session(program, tmp_path)
    made = ElementTree.fromstring(drawn(capsysbinary, session, "--at", 80, "--back", 60))
    trails = [line for line in made.iter(f"{SVG}polyline") if line.get("class") == "trail"]
    assert len(trails) == 5 and "the last 60" in ElementTree.tostring(made, encoding="unicode")


@pytest.mark.parametrize("words", [(), ("--at", 3), ("--back", 50, "--ahead", 1000), ("--width", 400)])
def test_the_same_input_gives_the_same_bytes(
    program: Path, capsysbinary: Captured, tmp_path: Path, words: tuple[object, ...]
) -> None:
    session = made_session(program, tmp_path, 5, 120)
    first = drawn(capsysbinary, session, *words)
    ElementTree.fromstring(first)
    assert first == drawn(capsysbinary, session, *words)


def test_an_empty_session_is_an_empty_map(capsysbinary: Captured, tmp_path: Path) -> None:
    (tmp_path / "empty").write_text("domino-session 1\nend\n")
    made = drawn(capsysbinary, tmp_path / "empty")
    assert titles(made, "object") == titles(made, "region") == []


def test_what_is_no_session_is_told(capsys: pytest.CaptureFixture[str], tmp_path: Path) -> None:
    (tmp_path / "words").write_text("class van 3 point\n")
    assert cli.main(["look", "map", str(tmp_path / "words")]) == 2
    assert capsys.readouterr().err == "fleet: line 1 of the session isn't that of a saved session\n"
    assert cli.main(["look", "map", str(tmp_path / "none")]) == 1
