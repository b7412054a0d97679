"""`fleet look play`: the page in a browser, against what the program exports and shows."""

import http.server
import json
import re
import threading
import tomllib
from collections.abc import Iterator
from pathlib import Path
from typing import Any

import pytest
from selenium.webdriver.common.action_chains import ActionChains
from selenium.webdriver.common.by import By
from selenium.webdriver.common.keys import Keys

from browsers import Browser, browsing
from conftest import TOP
from fleet import cli
from fleet.look.history import History
from fleet.look.page import FOLDER, SCRIPTS, bundled, part
from fleet.look.tiles import on_tiles
from fleet.ways.planes import Local
from fleet.ways.projection import Projection
from sessions import (
    POINT_CLASSES, at_tick, commands_of, example_session, exported, made_session, place_texts, saved_session,
)  # fmt: skip

SHARED = ("sheet.js", "drawing.js", "map.js")
"""The scripts that this page has in common with the one that runs the program, of which `page/build` makes copies."""


@pytest.fixture(scope="module")
def browser(tmp_path_factory: pytest.TempPathFactory) -> Iterator[Browser]:
    with browsing(tmp_path_factory.mktemp("browser")) as browser:
        yield browser


def page_of(session: Path, *words: str) -> Path:
    page = session.with_name("page.html")
    assert cli.main(["look", "play", str(session), "-o", str(page), *words]) == 0
    return page


def data_in(page: Path) -> dict[str, Any]:
    found = re.search(r'id="recording">(.*?)</script>', page.read_text(), re.DOTALL)
    assert found is not None
    data: dict[str, Any] = json.loads(found.group(1))
    return data


def slider(browser: Browser) -> int:
    """The tick of the slider, which the page tells in words too."""
    found = browser.driver.find_element(By.ID, "slider")
    tick = int(found.get_attribute("value") or "")
    assert browser.text("tick") == f"tick {tick}"
    assert (found.get_attribute("aria-valuetext") or "").startswith(f"tick {tick}, ")
    return tick


def test_places_are_those_that_the_program_exports(browser: Browser, program: Path, tmp_path: Path) -> None:
    session = made_session(program, tmp_path, 6, 160)
    clock = History.of(commands_of(session)).clock
    browser.open(page_of(session, "--to", str(clock + 200)).as_uri())
    for tick in (clock // 3, clock, clock + 101):
        browser.run("look.go(arguments[0])", tick)
        places = browser.run("return look.recording.places(look.tick)")
        with at_tick(program, session, tick) as client:
            for class_name in POINT_CLASSES:
                found = {
                    place["name"]: place_texts((place["x"], place["y"]), (place["dx"], place["dy"]))
                    for place in places
                    if place["className"] == class_name
                }
                assert found == exported(client, class_name), f"{class_name} at {tick}"


def test_the_table_tells_what_the_map_shows(browser: Browser, program: Path, tmp_path: Path) -> None:
    session = example_session(program, tmp_path)
    browser.open(page_of(session).as_uri())
    browser.driver.find_element(By.CSS_SELECTOR, "#table summary").click()
    for tick in (0, 80, 333):
        browser.run("look.go(arguments[0])", tick)
        rows = [row.text.split() for row in browser.driver.find_elements(By.CSS_SELECTOR, "#table-rows tr")]
        with at_tick(program, session, tick) as client:
            places = {name: found for each in POINT_CLASSES for name, found in exported(client, each).items()}
        assert {row[0]: tuple(row[2:]) for row in rows} == places


def test_the_clock_moves_by_keys(browser: Browser, program: Path, tmp_path: Path) -> None:
    browser.open(page_of(example_session(program, tmp_path)).as_uri())
    assert slider(browser) == 300
    steps = [
        (Keys.ARROW_LEFT, 299), (Keys.ARROW_RIGHT, 300), (Keys.HOME, 0), (Keys.ARROW_LEFT, 0), (Keys.PAGE_UP, 90),
        (Keys.ARROW_UP, 91), (Keys.ARROW_DOWN, 90), (Keys.PAGE_DOWN, 0), (Keys.END, 900), ("n", 300),
    ]  # fmt: skip
    for key, tick in steps:
        browser.press(key)
        assert slider(browser) == tick
    browser.run("document.getElementById('slider').focus()")
    for key, tick in steps:
        browser.press(key)
        assert slider(browser) == tick


def test_it_plays_and_pauses_by_space(browser: Browser, program: Path, tmp_path: Path) -> None:
    browser.open(page_of(example_session(program, tmp_path)).as_uri())
    browser.press(Keys.HOME, Keys.SPACE)
    assert browser.run("return look.isPlaying")
    browser.wait("return look.tick >= 20")
    browser.press(Keys.SPACE)
    assert not browser.run("return look.isPlaying")
    tick = slider(browser)
    assert tick >= 20 and browser.run("return look.frames.length") > 0
    browser.run("document.getElementById('pace').value = 100; look.go(890); look.play()")
    browser.wait("return !look.isPlaying")
    assert slider(browser) == 900


def test_the_arrows_move_the_map_while_it_has_the_focus(browser: Browser, program: Path, tmp_path: Path) -> None:
    browser.open(page_of(example_session(program, tmp_path)).as_uri())
    browser.run("document.getElementById('map').focus()")
    browser.press(Keys.ARROW_LEFT)
    assert slider(browser) == 300
    browser.press(Keys.HOME)
    assert slider(browser) == 0


def test_rows_move_with_the_clock(browser: Browser, program: Path, tmp_path: Path) -> None:
    browser.open(page_of(example_session(program, tmp_path)).as_uri())
    told = {}
    for tick in (0, 80, 300):
        browser.run("look.go(arguments[0])", tick)
        told[tick] = browser.labels("#timeline [role=listitem]")[:3]
    assert told[0] == ["v1: 100 to 200", "v2: 75 to 100000000", "v4: 0 to 16, now"]
    assert told[80] == ["v1: 112 to 222", "v2: 75 to 100000000, now", "v4: 0 to 16"]
    assert told[300] == told[80]
    browser.run("look.go(80)")
    assert browser.text("holding") == "town: v2; soon: v1; silent: none"


def test_a_timeline_goes_on_as_one_that_is_drawn_anew(browser: Browser, program: Path, tmp_path: Path) -> None:
    browser.open(page_of(made_session(program, tmp_path, 6, 160)).as_uri())
    last = browser.run("return look.recording.to")
    for tick in (0, 1, 2, last // 9, last // 9 + 1, last, last // 2, 0):
        browser.run("look.go(arguments[0])", tick)
        gone_on = browser.run("return document.getElementById('timeline').innerHTML")
        # an element of which the page doesn't know what it shows
        browser.run("const old = document.getElementById('timeline'); old.replaceWith(old.cloneNode(false))")
        browser.run("look.go(look.tick)")
        assert browser.run("return document.getElementById('timeline').innerHTML") == gone_on, tick


def test_an_answer_that_is_asked_for_is_shown(browser: Browser, program: Path, tmp_path: Path) -> None:
    session = example_session(program, tmp_path)
    browser.open(page_of(session, "--ask", "RETRIEVE o FROM van o WHERE o.x >= 3000", "--to", "500").as_uri())
    browser.run("look.go(300)")
    assert browser.labels("#timeline [role=listitem]")[-1] == "v1: 334 to 500"


def test_a_click_on_the_timeline_chooses_its_tick(browser: Browser, program: Path, tmp_path: Path) -> None:
    browser.open(page_of(example_session(program, tmp_path), "--to", "600").as_uri())
    timeline = browser.driver.find_element(By.ID, "timeline")
    width = timeline.size["width"]
    middle = 132 + (width - 148) / 2
    actions = ActionChains(browser.driver, duration=0)
    actions.move_to_element_with_offset(timeline, round(middle - width / 2), 0).click().perform()
    assert abs(slider(browser) - 300) <= 2


def test_it_has_all_in_itself_and_may_load_nothing(browser: Browser, program: Path, tmp_path: Path) -> None:
    page = page_of(example_session(program, tmp_path))
    text = page.read_text()
    policy = re.search(r'http-equiv="Content-Security-Policy" content="([^"]*)"', text)
    assert policy is not None and policy.group(1).startswith("default-src &#x27;none&#x27;")
    assert set(re.findall(r'(?:src|href)="([^"]*)"', text)) == {"data:,"}
    browser.open(page.as_uri())
    loaded = browser.run("return performance.getEntriesByType('resource').map((entry) => entry.name)")
    assert [name for name in loaded if not name.startswith("data:")] == []


def test_an_empty_session_is_an_empty_page(browser: Browser, tmp_path: Path) -> None:
    (tmp_path / "empty").write_text("domino-session 1\nend\n")
    browser.open(page_of(tmp_path / "empty").as_uri())
    assert slider(browser) == 0
    browser.press(Keys.END)
    assert slider(browser) == 600 and browser.text("no-queries") == "No query is registered at this tick."


def test_names_can_not_end_the_data(browser: Browser, program: Path, tmp_path: Path) -> None:
    session = example_session(program, tmp_path)
    evil = session.rename(session.with_name("<!--<script>&amp;\"'"))
    browser.open(page_of(evil).as_uri())
    assert browser.driver.title == evil.name
    assert browser.driver.find_element(By.TAG_NAME, "h1").text == evil.name


def test_the_same_session_gives_the_same_bytes(program: Path, tmp_path: Path) -> None:
    session = made_session(program, tmp_path, 7, 120)
    assert page_of(session).read_bytes() == page_of(session).read_bytes()
    assert [each["name"] for each in data_in(page_of(session))["classes"]] == list(POINT_CLASSES)


def test_a_window_leaves_out_what_was_before_it(program: Path, tmp_path: Path) -> None:
    page = page_of(example_session(program, tmp_path), "--from", "100", "--to", "310")
    data = data_in(page)
    assert (data["from"], data["to"], data["clock"]) == (100, 310, 300)
    assert data["classes"][0]["objects"][0]["motions"] == [[20, 180_000, 300_000, 9000, 0]]


def test_scripts_become_one_script() -> None:
    script = bundled(SCRIPTS)
    assert "import {" not in script and not re.search(r"^export ", script, re.MULTILINE)
    assert "const { motionAt, placeBy } = motion_js;" in script


def test_what_a_page_is_made_of_is_installed() -> None:
    with (TOP / "companion" / "pyproject.toml").open("rb") as text:
        settings = tomllib.load(text)["tool"]["setuptools"]
    assert "fleet.look" in settings["packages"]
    kinds = settings["package-data"]["fleet.look"]
    others = [path for path in FOLDER.iterdir() if path.suffix not in (".py", "") and path.is_file()]
    assert len(others) >= 8 and all(any(path.match(kind) for kind in kinds) for path in others)


def test_the_page_of_the_program_finds_its_drawing_here() -> None:
    taken: set[tuple[str, str]] = set()
    for script in (TOP / "page").glob("*.js"):
        found = re.findall(r'^import \{ ([^}]*) \} from "\./out/(.*)";$', script.read_text(encoding="utf-8"), re.MULTILINE)
        taken |= {(of, name) for names, of in found for name in names.split(", ")}
    assert taken and {of for of, _ in taken} <= set(SHARED)
    exported = {(of, name) for of in SHARED for name in re.findall(r"^export [a-z]+ (\w+)", part(of), re.MULTILINE)}
    assert taken <= exported


PIXEL = bytes.fromhex(
    "89504e470d0a1a0a0000000d49484452000000010000000108060000001f15c4890000000d49444154789c63f8ffff3f0300"
    "08fc02fe1c45e4d50000000049454e44ae426082"
)
"""A picture of one point."""


class Tiles(http.server.BaseHTTPRequestHandler):
    """A server of tiles that are all alike, and the tiles that it was asked for."""

    asked: list[str] = []

    def do_GET(self) -> None:
        self.asked.append(self.path)
        self.send_response(200)
        self.send_header("Content-Type", "image/png")
        self.end_headers()
        self.wfile.write(PIXEL)

    def log_message(self, *_: object) -> None:
        pass


@pytest.fixture
def tiles() -> Iterator[str]:
    """The address of a server of tiles."""
    Tiles.asked.clear()
    with http.server.ThreadingHTTPServer(("127.0.0.1", 0), Tiles) as server:
        threading.Thread(target=server.serve_forever, daemon=True).start()
        yield f"http://127.0.0.1:{server.server_port}/{{z}}/{{x}}/{{y}}.png"
        server.shutdown()


def test_a_base_map_lies_under_the_places(browser: Browser, program: Path, tmp_path: Path, tiles: str) -> None:
    session = example_session(program, tmp_path)
    session.write_bytes(session.read_bytes().replace(b"class van", b"# fleet plane local 11.5755,48.1374\nclass van", 1))
    page = page_of(session, "--tiles", tiles, "--attribution", "Nobody's tiles")
    browser.open(page.as_uri())
    browser.wait("return [...document.querySelectorAll('#tiles img')].some((tile) => tile.complete)")
    assert re.fullmatch(r"/[0-9]+/[0-9]+/[0-9]+\.png", Tiles.asked[0])
    told = browser.driver.find_element(By.CSS_SELECTOR, "#tiles .leaflet-control-attribution").text
    assert told.endswith("Nobody's tiles")
    # the places that the grid gives, against those of the projection itself
    projection = Projection(Local(11.5755, 48.1374))
    for x, y in [(0, 300), (1960, 500), (1500, 3000), (2222.2, 1234.5)]:
        found = browser.run("return look.map.onGround(arguments[0], arguments[1])", x, y)
        assert found == pytest.approx(on_tiles(*projection.point(x * 1000, y * 1000)), abs=0.1)
    assert page.read_bytes() == page_of(session, "--tiles", tiles, "--attribution", "Nobody's tiles").read_bytes()


def test_without_a_plane_there_is_no_base_map(program: Path, capsys: pytest.CaptureFixture[str], tmp_path: Path) -> None:
    session = example_session(program, tmp_path)
    tiles = "https://tiles.example/{z}/{x}/{y}.png"
    words = ["look", "play", str(session), "-o", str(tmp_path / "page.html"), "--tiles", tiles]
    assert cli.main(words) == 1
    assert "fleet doesn't say on which plane its places lie" in capsys.readouterr().err
    assert not (tmp_path / "page.html").exists()
    assert cli.main([*words, "--local", "11.5,48.1"]) == 0
    assert 'img-src data: https://tiles.example"' in (tmp_path / "page.html").read_text()


@pytest.mark.parametrize(
    "address", ["tiles", "https://a.b/{z}/{x}.png", "https://{x}.b/{z}/{x}/{y}.png", "file:///{z}/{x}/{y}"]
)
def test_addresses_that_are_none_of_tiles_are_refused(capsys: pytest.CaptureFixture[str], address: str) -> None:
    with pytest.raises(SystemExit):
        cli.main(["look", "play", "-", "--tiles", address])
    assert "argument --tiles: " in capsys.readouterr().err
