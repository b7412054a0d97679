"""Warnings of lines that the program takes, but that most likely mean something else than was meant.

Each has the heading of its part in the chapter 'Traps' of the manual.
"""

from collections.abc import Iterator
from dataclasses import dataclass
from itertools import combinations

from lark import Token as Leaf, Tree

from fleet.judge import span_limit
from fleet.schema import Schema
from fleet.trees import leaf, name_in, optional_part, part, parts, place_of, whole_in
from fleet.words import TICK_LIMIT

BOUND = "A bound past the span"
EXPIRY = "A watch that has expired"
OBJECT = "The name of an object in FROM"
PAIRS = "Pairs"

_BOUNDED = frozenset(("eventually_within", "eventually_after", "always_for", "until_within", "until_after"))


@dataclass(frozen=True, slots=True)
class Trap:
    """A warning: the heading of the manual, the part of the line that it is about, and the matter in words."""

    heading: str
    place: int
    length: int
    message: str


def traps(tree: Tree, schema: Schema) -> Iterator[Trap]:
    """The warnings about a command that the program takes."""
    query = optional_part(tree, "query")
    if query is None:
        return
    yield from _bound(query, whole_in(tree, "span"))
    yield from _objects(query, schema)
    yield from _pairs(query)
    if tree.data == "watch":
        yield from _expiry(query, part(tree, "span"), schema)


def _trap(heading: str, where: Tree | Leaf, message: str) -> Trap:
    return Trap(heading, *place_of(where), message)


# ---- Bounds


def _bound(query: Tree, span: int) -> Iterator[Trap]:
    reach, outermost = _reach(query.children[-1])
    if reach > span:
        message = f"its bounds together look {reach:,} ticks ahead, and nothing looks past the span of {span:,}"
        yield _trap(BOUND, outermost or query, message)


def _reach(tree: Tree | Leaf) -> tuple[int, Tree | None]:
    """How many ticks ahead the bounds of a formula look together, and the number of the outermost on that way."""
    if isinstance(tree, Leaf):
        return 0, None
    reach, outermost = max(map(_reach, tree.children), key=lambda each: each[0], default=(0, None))
    if tree.data in _BOUNDED:
        return reach + whole_in(tree, "bound"), part(tree, "bound")
    return (reach + 1 if tree.data == "nexttime" else reach), outermost


# ---- Variables


def _objects(query: Tree, schema: Schema) -> Iterator[Trap]:
    for each in parts(part(query, "from"), "from_part"):
        variable, class_name = name_in(each, "new_name"), name_in(each, "class_name")
        if variable in schema.objects:
            message = f"{variable} is also an object, but here it stands for each object of {class_name}"
            yield _trap(OBJECT, variable, message)


def _pairs(query: Tree) -> Iterator[Trap]:
    targets = {str(leaf(target)) for target in parts(part(query, "targets"), "variable_name")}
    for first, second in combinations(parts(part(query, "from"), "from_part"), 2):
        if name_in(first, "class_name") != name_in(second, "class_name"):
            continue
        names = (str(name_in(first, "new_name")), str(name_in(second, "new_name")))
        signs = set(_compared(query, names))
        faults = [] if signs else ["each object is also taken with itself"]
        if signs <= {"!="} and targets.issuperset(names):
            faults.append("each pair comes in both orders")
        if faults:
            yield _trap(PAIRS, second, f"{' and '.join(faults)}, unless an attribute orders them: {_ordered(names)}")


def _ordered(names: tuple[str, str]) -> str:
    return " < ".join(f"{name}.id" for name in names)


def _compared(query: Tree, names: tuple[str, str]) -> Iterator[str]:
    """The signs by which one attribute of the two variables is compared and that keep an object apart from itself."""
    for compare in query.find_data("compare"):
        left, right = (_attribute(term) for term in parts(compare, "term"))
        sign = str(leaf(part(compare, "comparison")))
        if left and right and {left[0], right[0]} == set(names) and left[1] == right[1] and sign in ("<", ">", "!="):
            yield sign


def _attribute(term: Tree) -> tuple[str, str] | None:
    """The variable and the attribute, where the term is an attribute and nothing else."""
    factor = term.children[0]
    if len(term.children) != 1 or not isinstance(factor, Tree) or optional_part(factor, "multiplier"):
        return None
    reference = optional_part(factor, "reference")
    if reference is None or len(reference.children) != 2:
        return None
    return str(name_in(reference, "variable_name")), str(name_in(reference, "attribute_name"))


# ---- The end of a watch


def _expiry(query: Tree, span: Tree, schema: Schema) -> Iterator[Trap]:
    ticks = int(leaf(span))
    longest = min(span_limit(query), TICK_LIMIT - schema.clock)
    if ticks < longest:
        last = schema.clock + ticks
        message = f"after tick {last:,} it tells nothing more, and doesn't say so; the longest span is {longest}"
        yield _trap(EXPIRY, span, message)
