"""SVG files: elements with numbers in few digits, so that the same input gives the same bytes, and the common style."""

import math
import re
from collections.abc import Iterable
from xml.etree import ElementTree

Element = ElementTree.Element
Attribute = str | int | float

_NO_XML = re.compile("[^\t\n\r\x20-\ud7ff\ue000-\ufffd\U00010000-\U0010ffff]")
NAMESPACE = "http://www.w3.org/2000/svg"
FONT = "system-ui, 'Segoe UI', 'DejaVu Sans', sans-serif"
CHARACTER = 6.6
"""About the pixels that a character of the usual size is wide."""

GROUND, CARD_LINE, GRID, AXIS = "#fcfcfa", "#dde1dc", "#e8eae6", "#c9cec8"
INK, QUIET, MARK = "#1c2830", "#55616a", "#b3261e"
REGION, REGION_LINE = "#e9f1f1", "#3d7f88"
BAR_NOW, BAR_LATER, BAR_LATER_LINE, BAR_PAST = "#0d4f5c", "#d8ebed", "#2f7f8a", "#a9bcc0"
GAINED, LOST = "#1d6b3a", "#fbeeec"
CLASSES = ("#0b62a3", "#a14a00", "#00735a", "#8f3f7d", "#6b5b00", "#44505a")
"""The colours of the classes, each with a form of its own."""


def number(value: Attribute) -> str:
    """A number with at most two digits after the point; a text as it is."""
    if isinstance(value, str):
        return _allowed(value)
    text = f"{value:.2f}".rstrip("0").rstrip(".")
    return "0" if text == "-0" else text


def add(parent: Element, name: str, words: str = "", /, **attributes: Attribute) -> Element:
    """Adds an element; of the names of attributes `_` stands for `-`, and one at the end is left out."""
    made = ElementTree.SubElement(
        parent, name, {key.rstrip("_").replace("_", "-"): number(value) for key, value in attributes.items()}
    )
    made.text = _allowed(words) or None
    return made


def _allowed(words: str) -> str:
    """The words, with another character for those that XML hasn't."""
    return _NO_XML.sub("\N{REPLACEMENT CHARACTER}", words)


def add_text(parent: Element, x: float, y: float, words: str, /, **attributes: Attribute) -> Element:
    """Adds a text whose middle is at this height."""
    return add(parent, "text", words, x=x, y=y + 4, **attributes)


def drawing(width: float, height: float, title: str, description: str) -> Element:
    """An empty picture on a card, with what a screen reader tells of it."""
    picture = ElementTree.Element(
        "svg",
        {
            "xmlns": NAMESPACE, "width": number(width), "height": number(height),
            "viewBox": f"0 0 {number(width)} {number(height)}", "role": "img",
            "font-family": FONT, "font-size": "12", "fill": INK,
        },
    )  # fmt: skip
    picture.set("aria-label", _allowed(title))
    add(picture, "title", title)
    add(picture, "desc", description)
    add(picture, "rect", x=0.5, y=0.5, width=width - 1, height=height - 1, rx=8, fill=GROUND, stroke=CARD_LINE)
    return picture


def text_of(picture: Element) -> str:
    """The bytes of the file, as text."""
    ElementTree.indent(picture, " ")
    return ElementTree.tostring(picture, encoding="unicode") + "\n"


def points(places: Iterable[tuple[float, float]]) -> str:
    """Points as SVG writes them."""
    return " ".join(f"{number(x)},{number(y)}" for x, y in places)


def cut(words: str, most: int) -> str:
    """The words, cut off where they have more characters."""
    return words if len(words) <= most else words[: most - 1] + "…"


def nice_step(least: float) -> float:
    """The least of 1, 2, 5, 10, 20 .. and their tenths that isn't below the number."""
    power = 10.0 ** math.floor(math.log10(least))
    return next(step * power for step in (1, 2, 5, 10) if step * power >= least * 0.999)


def steps(first: float, last: float, step: float) -> list[float]:
    """The multiples of the step from first to last."""
    return [at * step for at in range(math.ceil(first / step), math.floor(last / step) + 1)]


def add_symbol(parent: Element, x: float, y: float, number_of_class: int, radius: float = 5.5) -> Element:
    """Adds the symbol of the class with this number: classes differ in form as well as in colour."""
    form = _FORMS[number_of_class % len(_FORMS)]
    colour = CLASSES[number_of_class % len(CLASSES)]
    style: dict[str, Attribute] = {"fill": colour, "stroke": GROUND, "stroke_width": 1.5}
    if not form:
        return add(parent, "circle", cx=x, cy=y, r=radius, **style)
    return add(parent, "polygon", points=points((x + radius * a, y + radius * b) for a, b in form), **style)


_FORMS: tuple[tuple[tuple[float, float], ...], ...] = (
    (),
    ((-0.9, -0.9), (0.9, -0.9), (0.9, 0.9), (-0.9, 0.9)),
    ((0, -1.15), (1.1, 0.85), (-1.1, 0.85)),
    ((0, -1.25), (1.25, 0), (0, 1.25), (-1.25, 0)),
    ((0, 1.15), (1.1, -0.85), (-1.1, -0.85)),
    (
        (-1.2, -0.45), (-0.45, -0.45), (-0.45, -1.2), (0.45, -1.2), (0.45, -0.45), (1.2, -0.45),
        (1.2, 0.45), (0.45, 0.45), (0.45, 1.2), (-0.45, 1.2), (-0.45, 0.45), (-1.2, 0.45),
    ),
)  # fmt: skip
"""A circle, and polygons about (0,0) of about the radius 1."""
