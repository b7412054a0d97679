"""`fleet look timeline` and `fleet look diff`: bars over ticks, in characters and in SVG."""

import json
from pathlib import Path
from xml.etree import ElementTree

import pytest

from hypothesis import given
from hypothesis import strategies as st

from fleet import cli
from fleet.look.answers import union
from fleet.look.chart import Bar, svg_of, text_of, ticks_of_axis
from fleet.look.reading import NoAnswer, answers_in, clock_of
from fleet.look.timeline import chart_of, group_of
from fleet.replies import Row, When
from sessions import example_session

SVG = "{http://www.w3.org/2000/svg}"
NO_REPLY = "this is no line of a reply, or ends a faulty one"
NO_JSON = "{}: this is no line of JSON that tells of a reply"
REPLIES = """\
past v4 : 0..4
now v1 v2 : 2..3 8..12
later v3 : 14..100000000
ok
"""
TRANSCRIPT = """\
# three vans
class van 3 point
    ok
ask 30 RETRIEVE o FROM van o WHERE TRUE
    now a : 0..30
    ok
ask 30 RETRIEVE o FROM van o WHERE o.x < 0
    refused 7 UnknownName
tick 6
    leave low a
    ok
show low
    later a : 9..12
    ok
"""


def drawn(capsysbinary: pytest.CaptureFixture[bytes], *words: object) -> str:
    """What `fleet look` writes with these words."""
    assert cli.main(["look", *map(str, words)]) == 0
    out, err = capsysbinary.readouterr()
    assert err == b""
    return out.decode()


def failed(capsysbinary: pytest.CaptureFixture[bytes], *words: object) -> tuple[int, str]:
    """The status with which `fleet look` fails with these words, and what it says."""
    status = cli.main(["look", *map(str, words)])
    return status, capsysbinary.readouterr().err.decode()


def rows_of(picture: str) -> list[tuple[str, str, list[str]]]:
    """What is told of each row, its word, and the kinds of its bars with the arrows of those that go on."""
    root = ElementTree.fromstring(picture)
    assert root.tag == f"{SVG}svg" and root.get("role") == "img" and root.find(f"{SVG}title") is not None
    rows = []
    for row in root.iter(f"{SVG}g"):
        if row.get("role") == "listitem":
            bars = [bar.get("class", "") for bar in row if bar.tag in (f"{SVG}rect", f"{SVG}polygon")]
            rows.append((row.findtext(f"{SVG}title", ""), row.get("class", "").split()[-1], bars))
    return rows


def test_bars_stand_under_their_ticks(capsysbinary: pytest.CaptureFixture[bytes], tmp_path: Path) -> None:
    (tmp_path / "reply").write_text(REPLIES)
    made = drawn(capsysbinary, "timeline", tmp_path / "reply", "--at", 10, "--width", 38, "--to", 22)
    assert made.splitlines() == [
        "Answers of reply",
        "              0                   20",
        "              ┬─────────┼─────────┬──",
        "reply 1",
        "  v4    past  ─────     │",
        "  v1 v2 now     ──    ──███",
        "  v3    later           │   ▒▒▒▒▒▒▒▒▒›",
        "─ past  █ now  ▒ later  │ now 10",
    ]


def test_what_passed_holds_and_comes_differs_in_shape_and_word(
    capsysbinary: pytest.CaptureFixture[bytes], tmp_path: Path
) -> None:
    (tmp_path / "reply").write_text(REPLIES)
    made = drawn(capsysbinary, "timeline", tmp_path / "reply", "--at", 10, "--svg")
    assert rows_of(made) == [
        ("past v4 : 0..4", "past", ["past"]),
        ("now v1 v2 : 2..3 8..12", "now", ["past", "past", "now"]),
        ("later v3 : 14..100000000", "later", ["later", "on"]),
    ]
    bars = {bar.get("class"): bar for bar in ElementTree.fromstring(made).iter(f"{SVG}rect")}
    heights = {kind: float(bar.get("height", "")) for kind, bar in bars.items() if kind}
    assert heights["past"] < heights["now"] == heights["later"]
    assert bars["later"].get("stroke") and not bars["now"].get("stroke")
    assert "now 10" in made and made == drawn(capsysbinary, "timeline", tmp_path / "reply", "--at", 10, "--svg")


def test_without_its_clock_a_reply_is_drawn_by_its_words(
    capsysbinary: pytest.CaptureFixture[bytes], tmp_path: Path
) -> None:
    (tmp_path / "reply").write_text(REPLIES)
    made = drawn(capsysbinary, "timeline", tmp_path / "reply", "-o", "-", "--svg")
    assert [bars for _, _, bars in rows_of(made)] == [["past"], ["now", "now"], ["later", "on"]]
    assert 'class="clock"' not in made


def test_a_transcript_tells_commands_and_its_clock() -> None:
    answers = answers_in(TRANSCRIPT.encode(), "fleet.out")
    assert [(answer.title, answer.clock, len(answer.rows)) for answer in answers] == [
        ("ask 30 RETRIEVE o FROM van o WHERE TRUE", 0, 1),
        ("show low", 6, 1),
    ]


def test_lines_of_json_tell_the_clock() -> None:
    row = {"kind": "row", "when": "later", "columns": ["o"], "objects": ["a"], "spans": [[9, 12]], "tick": 6}
    refused = {"kind": "refused", "number": 7, "name": "UnknownName", "line": 1, "text": "", "tick": 6}
    lines = [row, refused, row, {"kind": "ok", "line": 4, "tick": 6}]
    (answer,) = answers_in("\n".join(map(json.dumps, lines)).encode(), "out")
    assert (answer.title, answer.clock, answer.rows) == ("line 4", 6, [Row("later", ("a",), ((9, 12),), ("o",), 6)])


@pytest.mark.parametrize(
    ("rows", "clock"),
    [
        ([("now", [(5, 16)])], None),
        ([("now", [(5, 5)])], 5),
        ([("now", [(5, 16)]), ("past", [(0, 15)])], 16),
        ([("later", [(5, 16)])], None),
        ([("now", [(1, 3), (5, 5)])], None),
        ([], None),
    ],
)  # fmt: skip
def test_a_clock_is_known_where_the_rows_leave_one(
    rows: list[tuple[When, list[tuple[int, int]]]], clock: int | None
) -> None:
    assert clock_of([Row(when, ("a",), tuple(spans)) for when, spans in rows]) == clock


def test_what_is_no_reply_is_told_with_its_line(capsysbinary: pytest.CaptureFixture[bytes], tmp_path: Path) -> None:
    texts = {
        "words": ("ok\nwhat\n", f"words:2: {NO_REPLY}: what"),
        "late": (f"now a : 0..{10**20}\nok\n", f"late:2: {NO_REPLY}: ok"),
        "long": (f"now a : 0..{'9' * 5000}\nok\n", f"long:1: {NO_REPLY}: now a : 0..{'9' * 89}"),
        "json": ('{"kind":"ok","line":1,"tick":0}\n{"kind":"row"}\n', NO_JSON.format("json:2")),
        "turned": (JSON[0].replace("[1,3]", "[3,1]"), NO_JSON.format("turned:1")),
        "empty": ("", "empty has no reply"),
        "cut": ("now a : 0..3\n", "cut has no reply"),
    }
    for name, (text, told) in texts.items():
        (tmp_path / name).write_text(text)
        assert failed(capsysbinary, "timeline", tmp_path / name) == (1, f"fleet: {told}\n")


LINES = [
    "now a b : 0..3 7..9", "later a : 5..5", "past c : 0..2", "ok", "refused 4 BadSyntax", "gain w a : 3..4", "clock 7",
    "", "# x",
]  # fmt: skip
JSON = [
    '{"kind":"row","when":"now","columns":[],"objects":["a"],"spans":[[1,3]],"tick":2}',
    '{"kind":"ok","line":1,"tick":2}', '{"kind":"ok"}', "[1]", "{}",
]  # fmt: skip
PARTS = st.one_of(
    st.sampled_from(LINES),
    st.sampled_from([f"    {line}" for line in LINES]),
    st.sampled_from(JSON),
    st.text(max_size=8),
)


@given(st.lists(PARTS, max_size=12), st.binary(max_size=12))
def test_any_text_is_drawn_or_refused(lines: list[str], more: bytes) -> None:
    try:
        answers = answers_in("\n".join(lines).encode("utf-8", "surrogatepass") + more, "text")
    except NoAnswer:
        return
    groups = []
    for answer in answers:
        rows = [(row.objects, row.when, row.spans) for row in answer.rows]
        groups.append(group_of(answer.title, "", rows, answer.clock, 3))
    made = chart_of("text", groups, None, None)
    ElementTree.fromstring(svg_of(made, 400))
    assert text_of(made, 60).endswith("\n")


def test_titles_may_have_any_bytes(capsysbinary: pytest.CaptureFixture[bytes], tmp_path: Path) -> None:
    (tmp_path / "reply").write_bytes(b"ask \xff\x01<&\"\n    now a : 0..3\n    ok\n")
    ElementTree.fromstring(drawn(capsysbinary, "timeline", tmp_path / "reply", "--svg"))


def test_a_picture_is_as_wide_as_its_labels_need(
    capsysbinary: pytest.CaptureFixture[bytes], tmp_path: Path
) -> None:
    (tmp_path / "reply").write_text(f"later {' '.join(['v' * 32] * 4)} : 3..6\nok\n")
    picture = ElementTree.fromstring(drawn(capsysbinary, "timeline", tmp_path / "reply", "--svg", "--width", 20))
    assert float(picture.get("width", "")) > 400
    drawn(capsysbinary, "timeline", tmp_path / "reply", "--width", 20)


def test_many_rows_are_cut_and_counted(capsysbinary: pytest.CaptureFixture[bytes], tmp_path: Path) -> None:
    (tmp_path / "reply").write_text("".join(f"later v{i} : {i}..{i + 5}\n" for i in range(1, 90)) + "ok\n")
    assert "  and 29 more\n" in drawn(capsysbinary, "timeline", tmp_path / "reply")
    assert "and 86 more<" in drawn(capsysbinary, "timeline", tmp_path / "reply", "--rows", 3, "--svg")


def test_a_session_has_the_rows_of_its_queries(
    program: Path, capsysbinary: pytest.CaptureFixture[bytes], tmp_path: Path
) -> None:
    session = example_session(program, tmp_path)
    made = drawn(capsysbinary, "timeline", session, "--at", 80, "--svg", "--query", "town")
    assert rows_of(made) == [
        ("later v1 : 112..222", "later", ["later"]),
        ("now v2 : 75..100000000", "now", ["past", "now", "on"]),
        ("past v4 : 0..16", "past", ["past"]),
    ]
    (tmp_path / "reply").write_text(REPLIES)
    told = failed(capsysbinary, "timeline", tmp_path / "reply", "--query", "town")
    assert told == (1, "fleet: --query names a query of a saved session, and reply is none\n")
    told = failed(capsysbinary, "timeline", session, "--query", "towm")
    assert told == (1, "fleet: no query of the name towm is registered at tick 300\n")


@pytest.mark.parametrize(
    ("spans", "clock", "axis"),
    [
        ([(0, 16), (75, 100_000_000), (112, 222)], 80, (0, 259)),
        ([(0, 600)], 0, (0, 600)),
        ([(300, 100_000_000)], 300, (300, 100_000_000)),
        ([(10, 15)], None, (10, 15)),
        ([], 7, (7, 7)),
        ([], None, (0, 0)),
    ],
)  # fmt: skip
def test_the_axis_shows_what_changes(spans: list[tuple[int, int]], clock: int | None, axis: tuple[int, int]) -> None:
    assert ticks_of_axis(spans, [clock], None, None) == axis


def test_a_difference_is_what_was_gained_and_lost(
    capsysbinary: pytest.CaptureFixture[bytes], tmp_path: Path
) -> None:
    (tmp_path / "a").write_text("now same : 0..9\nlater v1 : 3..6 8..8\nlater v2 : 0..2\nok\n")
    (tmp_path / "b").write_text("now same : 0..9\nlater v1 : 5..7\nlater v3 : 1..1\nok\n")
    made = drawn(capsysbinary, "diff", tmp_path / "a", tmp_path / "b", "--svg")
    assert rows_of(made) == [
        ("v1 : kept 5..6, lost 3..4 8..8, gained 7..7", "changed", ["kept", "lost", "lost", "gained"]),
        ("v2 : lost 0..2", "lost", ["lost"]),
        ("v3 : gained 1..1", "gained", ["gained"]),
    ]
    assert "1 row alike" in made and made == drawn(capsysbinary, "diff", tmp_path / "a", tmp_path / "b", "--svg")
    text = drawn(capsysbinary, "diff", tmp_path / "a", tmp_path / "b", "--width", 26, "--all")
    assert text.splitlines()[3:] == [
        "reply 1",
        "  same same    ==========",
        "  v1   changed    --==+-",
        "  v2   lost    ---",
        "  v3   gained   +",
        "= in both  - lost  + gained",
    ]


def test_an_empty_answer_has_lost_all(capsysbinary: pytest.CaptureFixture[bytes], tmp_path: Path) -> None:
    (tmp_path / "a").write_text("later v1 : 3..6\nok\n")
    (tmp_path / "b").write_text("ok\n")
    assert "v1 lost" in drawn(capsysbinary, "diff", tmp_path / "a", tmp_path / "b")
    assert "no rows" in drawn(capsysbinary, "diff", tmp_path / "b", tmp_path / "b")


def test_other_numbers_of_answers_are_not_compared(capsysbinary: pytest.CaptureFixture[bytes], tmp_path: Path) -> None:
    (tmp_path / "a").write_text("later v1 : 3..6\nok\nlater v1 : 3..6\nok\n")
    (tmp_path / "b").write_text("later v1 : 3..6\nok\n")
    assert failed(capsysbinary, "diff", tmp_path / "a", tmp_path / "b") == (1, "fleet: a has 2 answers, and b 1 answer\n")


def test_a_bar_is_a_run_of_ticks() -> None:
    assert Bar(3, 3, "now").first == 3 and union(((3, 3),), ((4, 4),)) == ((3, 4),)
