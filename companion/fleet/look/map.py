"""`fleet look map`: where the objects of a session are at a tick and go in the next ones."""

import argparse
from collections.abc import Callable, Iterable, Iterator
from dataclasses import dataclass, field
from functools import partial
from io import BytesIO

from fleet.look import svg
from fleet.look.answers import ask_at, query_at
from fleet.look.history import History, Motion, Place, Track, commands_in
from fleet.look.options import add_output, add_session, add_ways, add_width, read_input, svg_width, tick, write_output
from fleet.look.svg import Element, add, add_text
from fleet.look.timeline import spans_text
from fleet.present import number_text
from fleet.program import add_program_argument
from fleet.replies import Row, When
from fleet.words import TICK_LIMIT

DESCRIPTION = """
Draws the regions of a saved session and its objects at a tick, and by dashes where each goes in the next ticks by the
motion that was known then. The objects of the answer of a query are ringed: with a full ring where a row holds now, with
a dashed one where it comes, and with a dotted one where it has passed.
"""
_TOP, _LEFT, _EDGE, _FOOT, _LEGEND_LINE = 44, 58, 14, 38, 22
_LEAST_TALL, _MOST_TALL = 260, 780
_TITLE_SIZE = 15
_MANY = 400
"""More objects than these have small symbols and rings, and few of them names."""
_MOST_LABELS = 60
_DASHES: dict[When, str] = {"now": "none", "later": "4 3", "past": "1.5 3"}

Box = tuple[float, float, float, float]


def add_arguments(parser: argparse.ArgumentParser) -> None:
    """Adds the options of the word."""
    parser.description = DESCRIPTION
    add_session(parser)
    parser.add_argument("--at", metavar="TICK", type=tick, help="the tick to be drawn (the session's clock)")
    add_ways(parser, ahead=60, back=0)
    asked = parser.add_mutually_exclusive_group()
    asked.add_argument("--query", metavar="NAME", help="ring the objects of this registered query")
    asked.add_argument(
        "--ask", metavar="TEXT", help="ring those of this one, which begins with RETRIEVE, asked over the ticks ahead"
    )
    add_width(parser)
    add_output(parser)
    add_program_argument(parser)


def main(arguments: argparse.Namespace) -> int:
    """Draws, and gives the exit status."""
    text, name = read_input(arguments.session)
    commands = commands_in(BytesIO(text))
    history = History.of(commands)
    at = history.clock if arguments.at is None else arguments.at
    rows: list[Row] = []
    if arguments.query:
        rows = query_at(commands, at, arguments.query, arguments.program)
    elif arguments.ask:
        rows = ask_at(commands, at, f"ask {arguments.ahead} {arguments.ask}", arguments.program)
    asked = arguments.query or arguments.ask or ""
    scene = scene_of(history, at, min(arguments.ahead, TICK_LIMIT - at), arguments.back)
    title = f"{name} at tick {at}" + (", as the motions imply" if at > history.clock else "")
    write_output(svg_of(scene, title, asked, rows, svg_width(arguments)), arguments.output)
    return 0


@dataclass(slots=True)
class Thing:
    """An object as it is drawn: its motion, where it goes, and where it was."""

    track: Track
    number_of_class: int
    motion: Motion
    way: list[Place]
    trails: list[list[Place]]


@dataclass(slots=True)
class Scene:
    """What is there at a tick."""

    at: int
    ahead: int
    back: int
    regions: list[tuple[str, tuple[Place, ...]]]
    classes: list[str]
    things: list[Thing] = field(default_factory=list)

    @property
    def has_many(self) -> bool:
        return len(self.things) > _MANY

    def places(self) -> Iterable[Place]:
        """All places that must be seen."""
        for _, corners in self.regions:
            yield from corners
        for thing in self.things:
            yield from (thing.motion.place, *thing.way, *(place for trail in thing.trails for place in trail))


def scene_of(history: History, at: int, ahead: int, back: int) -> Scene:
    """What is there at a tick, where it goes in the next ticks, and where it was in those before."""
    regions = [(region.name, region.corners) for region in history.regions if region.tick <= at]
    scene = Scene(at, ahead, back, regions, history.classes)
    for number_of_class, class_name in enumerate(history.classes):
        for track in history.tracks_of(class_name):
            motion = track.at(at)
            if motion is not None:
                way = [place for _, place in motion.turns(ahead)] if ahead else []
                trails = track.ways_before(at, back) if back else []
                scene.things.append(Thing(track, number_of_class, motion, way, trails))
    return scene


class _Plane:
    """From places to pixels: y goes up on the plane and down in the picture."""

    def __init__(self, places: Iterable[Place], width: int) -> None:
        places = list(places) or [(0, 0)]
        left, right = min(x for x, _ in places), max(x for x, _ in places)
        low, high = min(y for _, y in places), max(y for _, y in places)
        self.width, wide = width, width - _LEFT - _EDGE
        across, up = max(right - left, 1000) * 1.12, max(high - low, 1000) * 1.12
        self.tall = min(max(wide * up / across, _LEAST_TALL), _MOST_TALL)
        self.scale = min(wide / across, self.tall / up)
        self._x, self._y = (left + right) / 2, (low + high) / 2
        self._middle = (_LEFT + wide / 2, _TOP + self.tall / 2)

    @property
    def frame(self) -> Box:
        """The left, the top, the right and the bottom of the map."""
        return _LEFT, _TOP, self.width - _EDGE, _TOP + self.tall

    def at(self, place: tuple[float, float]) -> tuple[float, float]:
        x, y = place
        return self._middle[0] + (x - self._x) * self.scale, self._middle[1] - (y - self._y) * self.scale

    def place(self, left: float, top: float) -> tuple[float, float]:
        """The place of a pixel."""
        return self._x + (left - self._middle[0]) / self.scale, self._y - (top - self._middle[1]) / self.scale


def svg_of(scene: Scene, title: str, asked: str, rows: list[Row], width: int) -> str:
    """The map as the text of an SVG file."""
    plane, marks = _Plane(scene.places(), width), _marks(rows)
    items = list(_flowed(_legend(scene, asked, {when for when, _ in marks.values()}), width))
    height = plane.frame[3] + _FOOT + _LEGEND_LINE * (1 + max((line for _, line, _ in items), default=0))
    told = f"{len(scene.regions)} regions and {len(scene.things)} objects." + (f" Ringed: {asked}." if asked else "")
    picture = svg.drawing(width, height, title, told)
    add_text(picture, _EDGE + 2, _TOP / 2, svg.cut(title, width // 9), font_weight=600, font_size=_TITLE_SIZE)
    inside = _framed(picture, plane)
    _add_grid(picture, inside, plane)
    for name, corners in scene.regions:
        _add_region(inside, plane, name, corners)
    for thing in scene.things:
        _add_ways(inside, plane, thing)
    for thing in scene.things:
        _add_object(inside, plane, thing, scene, marks.get(thing.track.name), asked)
    _add_labels(inside, plane, scene, marks)
    _add_legend(picture, plane.frame[3] + _FOOT, items)
    return svg.text_of(picture)


def _framed(picture: Element, plane: _Plane) -> Element:
    """The part of the picture that is the map: nothing of it is drawn beside it."""
    left, top, right, bottom = plane.frame
    clip = add(add(picture, "defs"), "clipPath", id="frame")
    size = {"x": left, "y": top, "width": right - left, "height": bottom - top}
    add(clip, "rect", **size)
    made = add(picture, "g", clip_path="url(#frame)")
    add(picture, "rect", **size, fill="none", stroke=svg.AXIS)
    return made


def _add_grid(picture: Element, inside: Element, plane: _Plane) -> None:
    left, top, right, bottom = plane.frame
    x0, y0 = plane.place(left, bottom)
    x1, y1 = plane.place(right, top)
    step = max(svg.nice_step(80 / plane.scale), 1)
    lines = add(inside, "g", stroke=svg.GRID, class_="grid")
    numbers = add(picture, "g", fill=svg.QUIET, font_size=11)
    for x in svg.steps(x0, x1, step):
        at = plane.at((x, 0))[0]
        add(lines, "line", x1=at, x2=at, y1=top, y2=bottom)
        add_text(numbers, at, bottom + 12, number_text(round(x)), text_anchor="middle")
    for y in svg.steps(y0, y1, step):
        at = plane.at((0, y))[1]
        add(lines, "line", x1=left, x2=right, y1=at, y2=at)
        add_text(numbers, left - 6, at, number_text(round(y)), text_anchor="end")


def _add_region(inside: Element, plane: _Plane, name: str, corners: tuple[Place, ...]) -> None:
    made = add(inside, "g", class_="region")
    add(made, "title", f"region {name}")
    shape = svg.points(map(plane.at, corners))
    add(made, "polygon", points=shape, fill=svg.REGION, stroke=svg.REGION_LINE, stroke_width=1.25)
    x, y = plane.at(min(corners, key=lambda corner: (-corner[1], corner[0])))
    add_text(made, x + 2, y - 9, name, fill=svg.REGION_LINE, font_style="italic")


def _add_ways(inside: Element, plane: _Plane, thing: Thing) -> None:
    colour = svg.CLASSES[thing.number_of_class % len(svg.CLASSES)]
    for trail in thing.trails:
        shape = svg.points(map(plane.at, trail))
        style: dict[str, svg.Attribute] = {"stroke": colour, "stroke_opacity": 0.35, "stroke_width": 2}
        add(inside, "polyline", points=shape, fill="none", class_="trail", **style)
    way = [plane.at(place) for place in (thing.motion.place, *thing.way)]
    if len(set(way)) < 2:
        return
    made = add(inside, "g", class_="way", stroke=colour, stroke_width=1.5, fill="none", stroke_linecap="round")
    add(made, "polyline", points=svg.points(way), stroke_dasharray="1.5 4")
    for place in way[1:-1]:
        add(made, "circle", cx=place[0], cy=place[1], r=2.5, fill=svg.GROUND)
    _add_head(made, way)


def _add_head(way: Element, places: list[tuple[float, float]]) -> None:
    """Adds the head of an arrow where a way ends, and a bar where the object stands from there on."""
    (x, y), before = places[-1], next((place for place in reversed(places) if place != places[-1]), places[-1])
    length = ((x - before[0]) ** 2 + (y - before[1]) ** 2) ** 0.5
    if length < 1:
        return
    along, up = (x - before[0]) / length, (y - before[1]) / length
    if places[-2] == places[-1]:
        add(way, "polyline", points=svg.points([(x - 5 * up, y + 5 * along), (x + 5 * up, y - 5 * along)]))
        return
    back = (x - 7 * along, y - 7 * up)
    sides = [(back[0] - 4 * up, back[1] + 4 * along), (x, y), (back[0] + 4 * up, back[1] - 4 * along)]
    add(way, "polyline", points=svg.points(sides))


def _marks(rows: list[Row]) -> dict[str, tuple[When, list[str]]]:
    """For each object of an answer the first word that one of its rows has, and its rows in words."""
    marks: dict[str, tuple[When, list[str]]] = {}
    for when in _DASHES:
        for row in rows:
            if row.when == when:
                words = f"{row.when} {' '.join(row.objects)} : {spans_text(row.spans)}"
                for name in dict.fromkeys(row.objects):
                    marks.setdefault(name, (when, []))[1].append(words)
    return marks


def _add_object(
    inside: Element, plane: _Plane, thing: Thing, scene: Scene, mark: tuple[When, list[str]] | None, asked: str
) -> None:
    x, y = plane.at(thing.motion.place)
    made = add(inside, "g", class_="object")
    add(made, "title", _told(thing, scene, mark, asked))
    if mark is not None:
        radius = 6 if scene.has_many else 11
        add(made, "circle", cx=x, cy=y, r=radius, fill="none", class_=f"mark {mark[0]}", **_ring(mark[0]))
    svg.add_symbol(made, x, y, thing.number_of_class, 3 if scene.has_many else 5.5)


def _ring(when: When) -> dict[str, svg.Attribute]:
    return {"stroke": svg.MARK, "stroke_width": 2, "stroke_dasharray": _DASHES[when]}


def _told(thing: Thing, scene: Scene, mark: tuple[When, list[str]] | None, asked: str) -> str:
    """What is told of an object in words."""
    name = f"{scene.classes[thing.number_of_class]} {thing.track.name} at {_pair(thing.motion.place)}"
    motion = ", at rest" if thing.motion.slope == (0, 0) else f", moves {_pair(thing.motion.slope)} a tick"
    rows = "" if mark is None else f"; {asked}: {', '.join(mark[1][:5])}"
    return name + motion + rows


def _pair(place: Place) -> str:
    return f"({number_text(place[0])},{number_text(place[1])})"


def _add_labels(inside: Element, plane: _Plane, scene: Scene, marks: dict[str, tuple[When, list[str]]]) -> None:
    """Adds the names that have room, those of the answer's objects first."""
    left, top, right, bottom = plane.frame
    taken: set[tuple[int, int]] = set()
    labels = add(inside, "g", class_="labels", stroke=svg.GROUND, stroke_width=3, paint_order="stroke")
    for thing in sorted(scene.things, key=lambda thing: thing.track.name not in marks):
        if scene.has_many and len(labels) == _MOST_LABELS:
            break
        name = thing.track.name
        x, y = plane.at(thing.motion.place)
        if not (left <= x <= right and top <= y <= bottom):
            continue
        x, y = x + (13 if name in marks else 9), y - 10
        cells = {(int(x + step) // 20, round(y / 16)) for step in range(0, int(len(name) * svg.CHARACTER) + 1, 5)}
        if not cells & taken:
            taken |= cells
            add_text(labels, x, y, name, font_weight=600 if name in marks else 400)


@dataclass(frozen=True, slots=True)
class _Item:
    """A part of the legend: how its sample is drawn at a place, how wide that is, and its words."""

    draw: Callable[[Element, float, float], object]
    wide: float
    words: str


def _legend(scene: Scene, asked: str, words: set[When]) -> list[_Item]:
    """What the symbols, the dashes and the rings mean."""
    items = []
    for number_of_class, name in enumerate(scene.classes):
        count = sum(thing.number_of_class == number_of_class for thing in scene.things)
        items.append(_Item(partial(_add_sample, number_of_class), 16, f"{name} {count}"))
    if scene.ahead:
        dots = {"stroke_width": 1.5, "stroke_dasharray": "1.5 4"}
        items.append(_Item(partial(_add_stroke, dots), 30, f"the next {scene.ahead} ticks"))
    if scene.back:
        pale = {"stroke_width": 2, "stroke_opacity": 0.5}
        items.append(_Item(partial(_add_stroke, pale), 30, f"the last {scene.back}"))
    items += [_Item(partial(_add_ring, when), 20, f"{svg.cut(asked, 40)}: {when}") for when in _DASHES if when in words]
    return items


def _add_sample(number_of_class: int, legend: Element, x: float, y: float) -> None:
    svg.add_symbol(legend, x + 6, y, number_of_class)


def _add_stroke(style: dict[str, svg.Attribute], legend: Element, x: float, y: float) -> None:
    add(legend, "line", x1=x, x2=x + 24, y1=y, y2=y, stroke=svg.QUIET, **style)


def _add_ring(when: When, legend: Element, x: float, y: float) -> None:
    add(legend, "circle", cx=x + 8, cy=y, r=7, fill="none", **_ring(when))


def _flowed(items: list[_Item], width: float) -> Iterator[tuple[float, int, _Item]]:
    """The items with their places from the left and the lines on which they stand."""
    x, line = float(_LEFT), 0
    for item in items:
        wide = item.wide + len(item.words) * 6 + 18
        if x > _LEFT and x + wide > width:
            x, line = _LEFT, line + 1
        yield x, line, item
        x += wide


def _add_legend(picture: Element, top: float, items: list[tuple[float, int, _Item]]) -> None:
    legend = add(picture, "g", fill=svg.QUIET, font_size=11, class_="legend")
    for x, line, item in items:
        y = top + line * _LEGEND_LINE
        item.draw(legend, x, y)
        add_text(legend, x + item.wide, y, item.words)
