"""Bars over ticks: what timelines and differences are drawn as, in SVG or in characters."""

from collections.abc import Collection, Iterable
from dataclasses import dataclass
from typing import Literal

from fleet.look import svg
from fleet.look.svg import Element, add, add_text
from fleet.replies import Span

Kind = Literal["past", "now", "later", "kept", "lost", "gained"]

MOST_ROWS = 60
"""The most rows of a group that are drawn, where no other number is asked for."""
_LEAST_ROOM = 200
"""The least pixels of the axis: a picture is made wider where labels leave less."""
_LEAST_SHARE = 0.3
"""The share of the axis that what changes has at least: an answer may go on long after its last change."""
_ROW, _HEAD, _AXIS, _FOOT, _EDGE = 22, 30, 30, 34, 16
_TALL, _LOW = 12, 4

LEGEND: dict[Kind, str] = {
    "past": "past", "now": "now", "later": "later", "kept": "in both", "lost": "lost", "gained": "gained",
}  # fmt: skip
CHARACTERS: dict[Kind, str] = {"past": "─", "now": "█", "later": "▒", "kept": "=", "lost": "-", "gained": "+"}


@dataclass(frozen=True, slots=True)
class Bar:
    """A run of ticks and what it shows."""

    first: int
    last: int
    kind: Kind


@dataclass(frozen=True, slots=True)
class Line:
    """A row: its label, the word beside it, its bars, and what is told of it in words."""

    label: str
    word: str
    bars: tuple[Bar, ...]
    told: str
    is_strong: bool = False


@dataclass(frozen=True, slots=True)
class Group:
    """Rows under a heading; `clock` is their present tick, None where it isn't known, and `more` counts the rows that
    aren't drawn."""

    title: str
    note: str
    lines: tuple[Line, ...]
    clock: int | None = None
    more: int = 0


@dataclass(frozen=True, slots=True)
class Chart:
    """Groups of rows over the ticks `first` to `last`."""

    title: str
    first: int
    last: int
    groups: tuple[Group, ...]

    @property
    def clock(self) -> int | None:
        """The present tick that all groups have; None where they have several, or it isn't known."""
        clocks = {group.clock for group in self.groups}
        return clocks.pop() if len(clocks) == 1 else None

    def shows(self, tick: int) -> bool:
        """Whether the axis has the tick."""
        return self.first <= tick <= self.last

    def note_of(self, group: Group) -> str:
        """What stands beside the heading of a group."""
        told = f"now {group.clock}" if self.clock is None and group.clock is not None else ""
        return f"{group.note}  {told}".strip()

    @property
    def kinds(self) -> list[Kind]:
        """The kinds of the bars that can be seen, in the order of the legend."""
        bars = [bar for group in self.groups for line in group.lines for bar in line.bars]
        there = {bar.kind for bar in bars if bar.first <= self.last and bar.last >= self.first}
        return [kind for kind in LEGEND if kind in there]


def ticks_of_axis(
    spans: Collection[Span], clocks: Iterable[int | None], first: int | None, last: int | None
) -> Span:
    """The ticks that the axis shows where they aren't given: from the first to the last, or, where the last is far off,
    to somewhat after the last change before it."""
    told = {clock for clock in clocks if clock is not None}
    end = max([each[1] for each in spans] + list(told), default=0)
    turns = told | {each[0] for each in spans} | {each[1] for each in spans if each[1] < end}
    start = min(turns, default=0)
    if first is None:
        first = start if last is None else min(start, last)
    if last is None:
        change = max(turns, default=first) - first
        last = end if change <= 0 or (end - first) * _LEAST_SHARE <= change else first + change + max(change // 6, 1)
    return first, max(first, last)


# ---- SVG


@dataclass(slots=True)
class _Layout:
    """Where things stand: the axis from `left` to `right`, and the next row at `top`."""

    chart: Chart
    width: float
    left: float
    top: float = 0

    @property
    def right(self) -> float:
        return self.width - _EDGE - 8

    def at(self, tick: float) -> float:
        """The pixel of a tick; a half more or less is its end or its beginning."""
        count = self.chart.last - self.chart.first + 1
        part = (tick - self.chart.first + 0.5) / count
        return self.left + min(max(part, 0), 1) * (self.right - self.left)


def svg_of(chart: Chart, width: float) -> str:
    """The chart as the text of an SVG file."""
    lines = [line for group in chart.groups for line in group.lines]
    longest = max((len(svg.cut(line.label, 30)) for line in lines), default=6)
    left = _EDGE + longest * svg.CHARACTER + 62
    width = max(width, left + _LEAST_ROOM)
    heads = sum(_HEAD + _ROW * (len(group.lines) + (group.more > 0 or not group.lines)) for group in chart.groups)
    height = _EDGE + 20 + _AXIS + heads + _FOOT
    picture = svg.drawing(width, height, chart.title, _told(chart))
    layout = _Layout(chart, width, left, _EDGE + 20)
    add_text(picture, _EDGE, _EDGE + 6, svg.cut(chart.title, int(width / 8)), font_weight=600, font_size=15)
    _add_axis(picture, layout, height - _FOOT)
    layout.top += _AXIS
    for group in chart.groups:
        _add_group(picture, layout, group)
    _add_clock(picture, layout)
    _add_legend(picture, layout, height - _FOOT / 2)
    return svg.text_of(picture)


def _told(chart: Chart) -> str:
    clock = "" if chart.clock is None else f" The present tick is {chart.clock}."
    return f"Ticks {chart.first} to {chart.last}.{clock}"


def _add_axis(picture: Element, layout: _Layout, bottom: float) -> None:
    chart = layout.chart
    room = layout.right - layout.left
    step = max(svg.nice_step((chart.last - chart.first + 1) * 70 / room), 1)
    axis = add(picture, "g", fill=svg.QUIET, stroke_width=1)
    for tick in svg.steps(chart.first, chart.last, step):
        x = layout.at(tick)
        add(axis, "line", x1=x, x2=x, y1=layout.top + _AXIS - 4, y2=bottom, stroke=svg.GRID)
        if chart.clock is None or abs(x - layout.at(chart.clock)) > 44:
            add_text(axis, x, layout.top + 14, svg.number(tick), text_anchor="middle")


def _add_group(picture: Element, layout: _Layout, group: Group) -> None:
    made = add(picture, "g", role="list", aria_label=group.title)
    top, note = layout.top, layout.chart.note_of(group)
    layout.top += _HEAD
    for line in group.lines:
        _add_line(made, layout, line)
        layout.top += _ROW
    if group.more or not group.lines:
        words = f"and {group.more} more" if group.more else "no rows"
        add_text(made, _EDGE + 8, layout.top + _ROW / 2, words, fill=svg.QUIET)
        layout.top += _ROW
    if group.clock is not None and layout.chart.shows(group.clock):
        x = layout.at(group.clock)
        add(made, "line", x1=x, x2=x, y1=top, y2=layout.top, stroke=svg.MARK, stroke_width=1.5, class_="clock")
    # the heading is written last, so that no line runs through it
    most = int((layout.width - 2 * _EDGE) / svg.CHARACTER) - len(note) - 3
    head = add_text(made, _EDGE, top + _HEAD / 2 + 2, svg.cut(group.title, most), font_weight=600)
    if note:
        add(head, "tspan", note, font_weight=400, fill=svg.QUIET, dx=8)
    _clear(head)


def _clear(text: Element) -> None:
    """Lets a text stand out against lines under it."""
    text.attrib |= {"stroke": svg.GROUND, "stroke-width": "4", "paint-order": "stroke"}


def _add_line(parent: Element, layout: _Layout, line: Line) -> None:
    row = add(parent, "g", role="listitem", aria_label=line.told, class_=f"row {line.word}")
    add(row, "title", line.told)
    middle = layout.top + _ROW / 2
    add_text(row, _EDGE + 8, middle, svg.cut(line.label, 30), font_weight=600 if line.is_strong else 400)
    add_text(row, layout.left - 12, middle, line.word, text_anchor="end", fill=svg.QUIET, font_size=11)
    for bar in line.bars:
        if bar.last >= layout.chart.first and bar.first <= layout.chart.last:
            _add_bar(row, layout, bar, middle)


def _add_bar(row: Element, layout: _Layout, bar: Bar, middle: float) -> None:
    start, end = layout.at(bar.first - 0.5), layout.at(bar.last + 0.5)
    _add_shape(row, bar.kind, start, max(end - start, 2.5), middle)
    for is_cut, edge, away in (
        (bar.first < layout.chart.first, start - 3, -1),
        (bar.last > layout.chart.last, end + 3, 1),
    ):
        if is_cut:
            half = _TALL / 2
            head = [(edge, middle - half), (edge + away * half, middle), (edge, middle + half)]
            add(row, "polygon", points=svg.points(head), class_="on", **_style(bar.kind))


def _add_shape(parent: Element, kind: Kind, x: float, wide: float, middle: float) -> None:
    tall = _LOW if kind in ("past", "kept") else _TALL
    add(
        parent, "rect", x=x, y=middle - tall / 2, width=wide, height=tall, rx=min(2, wide / 2), class_=kind,
        **_style(kind),
    )  # fmt: skip


def _style(kind: Kind) -> dict[str, svg.Attribute]:
    match kind:
        case "past" | "kept":
            return {"fill": svg.BAR_PAST}
        case "now":
            return {"fill": svg.BAR_NOW}
        case "later":
            return {"fill": svg.BAR_LATER, "stroke": svg.BAR_LATER_LINE, "stroke_width": 1.2}
        case "lost":
            return {"fill": svg.LOST, "stroke": svg.MARK, "stroke_width": 1.4, "stroke_dasharray": "3 2"}
    return {"fill": svg.GAINED}


def _add_clock(picture: Element, layout: _Layout) -> None:
    """Adds the label of the present tick, where it is one."""
    clock = layout.chart.clock
    if clock is not None and layout.chart.shows(clock):
        add_text(
            picture, layout.at(clock), _EDGE + 34, f"now {clock}", text_anchor="middle", fill=svg.MARK, font_weight=600
        )  # fmt: skip


def _add_legend(picture: Element, layout: _Layout, middle: float) -> None:
    x: float = layout.left
    legend = add(picture, "g", fill=svg.QUIET, font_size=11, class_="legend")
    for kind in layout.chart.kinds:
        _add_shape(legend, kind, x, 26, middle)
        add_text(legend, x + 32, middle, LEGEND[kind])
        x += 48 + len(LEGEND[kind]) * svg.CHARACTER
    if any(bar.last > layout.chart.last for group in layout.chart.groups for line in group.lines for bar in line.bars):
        add(legend, "polygon", points=svg.points([(x, middle - 6), (x + 6, middle), (x, middle + 6)]))
        add_text(legend, x + 12, middle, "goes on")


# ---- characters


def text_of(chart: Chart, width: int) -> str:
    """The chart in characters, in lines of at most `width`."""
    lines = [line for group in chart.groups for line in group.lines]
    labels = min(max((len(line.label) for line in lines), default=0), 30)
    words = max((len(line.word) for line in lines), default=0)
    left = 2 + labels + 1 + words + 1
    cells = max(width - left - 1, 10)
    made = [chart.title, *_axis_text(chart, left, cells)]
    for group in chart.groups:
        note = chart.note_of(group)
        made.append(f"{svg.cut(group.title, width - len(note) - 1)} {note}")
        for line in group.lines:
            head = f"  {svg.cut(line.label, 30):{labels}} {line.word:{words}} "
            made.append(head + "".join(_cells(chart, group.clock, line.bars, cells)))
        if group.more or not group.lines:
            made.append(f"  and {group.more} more" if group.more else "  no rows")
    made.append(_legend_text(chart))
    return "".join(f"{line.rstrip()}\n" for line in made)


def _cell(chart: Chart, tick: int, cells: int) -> int:
    """The cell in which a tick begins."""
    return (tick - chart.first) * cells // (chart.last - chart.first + 1)


def _cells(chart: Chart, clock: int | None, bars: Iterable[Bar], cells: int) -> list[str]:
    """The characters of a row, and one more that says whether it goes on."""
    made = [" "] * cells + [" "]
    if clock is not None and chart.shows(clock):
        made[_cell(chart, clock, cells)] = "│"
    for bar in sorted(bars, key=lambda bar: list(CHARACTERS).index(bar.kind)):
        if bar.last < chart.first or bar.first > chart.last:
            continue
        first = _cell(chart, max(bar.first, chart.first), cells)
        after = -_cell_back(chart, min(bar.last, chart.last) + 1, cells)
        made[first : max(after, first + 1)] = CHARACTERS[bar.kind] * max(after - first, 1)
        if bar.last > chart.last:
            made[cells] = "›"
    return made


def _cell_back(chart: Chart, tick: int, cells: int) -> int:
    """Minus the first cell that begins at a tick or after it."""
    return (chart.first - tick) * cells // (chart.last - chart.first + 1)


def _axis_text(chart: Chart, left: int, cells: int) -> list[str]:
    step = max(svg.nice_step((chart.last - chart.first + 1) * 12 / cells), 1)
    numbers, line = [" "] * (left + cells + 12), [" "] * left + ["─"] * cells
    for tick in svg.steps(chart.first, chart.last, step):
        at = left + _cell(chart, int(tick), cells)
        line[at] = "┬"
        words = svg.number(tick)
        numbers[at : at + len(words)] = words
    if chart.clock is not None and chart.shows(chart.clock):
        line[left + _cell(chart, chart.clock, cells)] = "┼"
    return ["".join(numbers), "".join(line)]


def _legend_text(chart: Chart) -> str:
    parts = [f"{CHARACTERS[kind]} {LEGEND[kind]}" for kind in chart.kinds]
    if chart.clock is not None:
        parts.append(f"│ now {chart.clock}")
    return "  ".join(parts)
