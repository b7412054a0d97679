"""Which refusal of 7 to 18 a command meets, by the names that are there, and what exactly it is about.

The command must have passed the refusals 1 to 6. Not judged are how many bytes the journal has, and the two refusals
of a file's content.
"""

from collections.abc import Callable, Iterator, Sequence
from dataclasses import dataclass

from lark import Token as Leaf, Tree

from fleet.names import unknown_names
from fleet.query_kinds import QueryKinds
from fleet.schema import ObjectClass, Schema
from fleet.tokens import thousandths
from fleet.trees import leaf, name_in, optional_part, part, parts, place_of, whole_in
from fleet.words import (
    CLASS_LIMIT,
    INDEX_LIMIT,
    INDEX_TICKS,
    JOURNAL_ENTRIES,
    KEPT_COMMANDS,
    PRODUCT_LIMIT,
    PRODUCT_SUM_LIMIT,
    QUERY_LIMIT,
    REGION_LIMIT,
    TICK_LIMIT,
)

SPAN_LIMIT = 100_000_000
CIRCLE_SPAN_LIMIT = 100_000
"""That of a query with a WITHIN_SPHERE of three names or more."""
ASSIGNMENT_SPAN_LIMIT = 10_000
"""That of a query with an assignment."""
NEAREST_SPAN_LIMIT = 1_000_000
"""That of `nearest`."""
BLURRED_SPAN_LIMIT = 10_000
"""That of `must` and `may`."""
BLURRED_PRODUCT_LIMIT = 10_000
"""The most that the capacities of the classes of `must` and `may` may multiply to."""


@dataclass(frozen=True, slots=True)
class Verdict:
    """The refusal that a command meets: its number, the part of the line that it is about, and the cause in words.

    `is_of_objects` is true where it depends on which objects there are.
    """

    number: int
    place: int
    length: int
    message: str
    is_of_objects: bool = False


def first_refusal(tree: Tree, schema: Schema, knows_objects: bool = True) -> Verdict | None:
    """The first refusal of 7 to 18 that holds, None where none does.

    Where it isn't known which objects there are, what depends on them is passed over.
    """
    found = [each for each in _refusals(tree, schema) if knows_objects or not each.is_of_objects]
    return min(found, key=lambda each: (each.number, each.place)) if found else None


def _refusals(tree: Tree, schema: Schema) -> Iterator[Verdict]:
    unknown = unknown_names(tree, schema)
    for each in unknown:
        yield Verdict(7, each.place, len(each.word), each.message, each.kind == "object")
    if not unknown:
        yield from _JUDGES.get(str(tree.data), _nothing)(tree, schema)
        if tree.data in KEPT_COMMANDS and schema.entries >= JOURNAL_ENTRIES:
            yield _at(18, tree, f"the journal has {JOURNAL_ENTRIES:,} commands already")


def _at(number: int, where: Tree | Leaf, message: str, is_of_objects: bool = False) -> Verdict:
    return Verdict(number, *place_of(where), message, is_of_objects)


def _nothing(tree: Tree, schema: Schema) -> Iterator[Verdict]:
    yield from ()


def _repeated_attributes(names: Sequence[Leaf]) -> Iterator[Verdict]:
    for index, name in enumerate(names):
        if name in names[:index]:
            yield _at(8, name, f"the attribute {name} is given twice")


# ---- Classes and regions


def _class(tree: Tree, schema: Schema) -> Iterator[Verdict]:
    name = name_in(tree, "new_name")
    if name in schema.classes:
        yield _at(8, name, f"{name} is a class already")
    attributes = [name_in(each, "new_name") for each in parts(tree, "attribute")]
    if optional_part(tree, "point_word"):
        for each in attributes:
            if each in ("x", "y"):
                yield _at(8, each, f"a point class has the attribute {each} already")
    yield from _repeated_attributes(attributes)
    if len(schema.classes) >= CLASS_LIMIT:
        yield _at(16, name, f"{CLASS_LIMIT} classes are there already")


def _region(tree: Tree, schema: Schema) -> Iterator[Verdict]:
    name = name_in(tree, "new_name")
    if name in schema.regions:
        yield _at(8, name, f"{name} is a region already")
    points = parts(tree, "point")
    corners = [corner_of(point) for point in points]
    if not is_region(corners):
        yield _not_convex(points, corners)
    if len(schema.regions) >= REGION_LIMIT:
        yield _at(16, name, f"{REGION_LIMIT:,} regions are there already")


Corner = tuple[int, int]
"""A point in thousandths."""


def corner_of(point: Tree) -> Corner:
    """The corner that a point is."""
    x, y = (_number(value) for value in parts(point, "value"))
    return x, y


def _number(value: Tree) -> int:
    """The thousandths of a number with a sign or none."""
    size = thousandths(leaf(value))
    assert size is not None
    return -size if len(value.children) > 1 else size


def is_region(corners: Sequence[Corner]) -> bool:
    """Whether the corners, one way round or the other, name a region."""
    return _goes_round(corners) or _goes_round(corners[::-1])


def _goes_round(corners: Sequence[Corner]) -> bool:
    """Whether each edge has two ends, no corner on its right, and some edge has one on its left."""
    sides = [_side(*edge, corner) for edge in _edges(corners) for corner in corners]
    return all(first != last for first, last in _edges(corners)) and min(sides) >= 0 and max(sides) > 0


def _edges(corners: Sequence[Corner]) -> list[tuple[Corner, Corner]]:
    return list(zip(corners, [*corners[1:], corners[0]]))


def _side(first: Corner, last: Corner, corner: Corner) -> int:
    """Above 0 where the corner is on the left of the edge, below 0 on the right, 0 on its line."""
    return (last[0] - first[0]) * (corner[1] - first[1]) - (last[1] - first[1]) * (corner[0] - first[0])


def _not_convex(points: Sequence[Tree], corners: Sequence[Corner]) -> Verdict:
    if corners[0] == corners[-1]:
        return _at(10, points[-1], "the first point stands again at the end: a region is closed by itself")
    for index in range(1, len(corners)):
        if corners[index] == corners[index - 1]:
            return _at(10, points[index], "this point stands twice in a row")
    turns = [
        _side(corners[index - 2], corners[index - 1], corners[index]) for index in range(len(corners))
    ]
    if not any(turns):
        return _at(10, points[0], "the points are on one line")
    usual = 1 if sum(turn > 0 for turn in turns) >= sum(turn < 0 for turn in turns) else -1
    odd = next((index for index, turn in enumerate(turns) if turn * usual < 0), None)
    if odd is None:
        return _at(10, points[0], "the sides cross")
    return _at(10, points[odd - 1], "at this point the outline turns inwards, or its sides cross")


# ---- Objects


def _insert(tree: Tree, schema: Schema) -> Iterator[Verdict]:
    name = name_in(tree, "object_name")
    its_class = schema.classes[name_in(tree, "class_name")]
    known = schema.objects.get(name)
    if known and known.class_name != its_class.name:
        yield _at(8, name, f"{name} is the name of an object of {known.class_name}", is_of_objects=True)
    yield from _settings(tree, its_class)
    if known and known.is_present:
        yield _at(14, name, f"{name} is present already", is_of_objects=True)
    if not known and its_class.names >= its_class.capacity:
        message = f"{its_class.name} has had as many names as its capacity, {its_class.capacity:,}"
        yield _at(15, name, message, is_of_objects=True)


def _update(tree: Tree, schema: Schema) -> Iterator[Verdict]:
    name = name_in(tree, "object_name")
    known = schema.objects.get(name)
    if known:
        yield from _settings(tree, schema.classes[known.class_name])
    yield from _remove(tree, schema)


def _remove(tree: Tree, schema: Schema) -> Iterator[Verdict]:
    name = name_in(tree, "object_name")
    known = schema.objects.get(name)
    if known and not known.is_present:
        yield _at(14, name, f"{name} was removed", is_of_objects=True)


def _settings(tree: Tree, its_class: ObjectClass) -> Iterator[Verdict]:
    settings = parts(tree, "setting")
    names = [name_in(setting, "attribute_name") for setting in settings]
    places = [*parts(tree, "at"), *parts(tree, "move")]
    yield from _repeated_attributes(names)
    for name in names:
        if places and name in ("x", "y"):
            yield _at(8, name, f"{places[0].data} gives {name} already")
    if places and not its_class.is_point:
        yield _at(9, places[0], f"{its_class.name} is no point class")
    for name, setting in zip(names, settings):
        yield from _setting_kind(name, setting, its_class)


def _setting_kind(name: Leaf, setting: Tree, its_class: ObjectClass) -> Iterator[Verdict]:
    kind = its_class.attributes[name]
    for value in parts(setting, "value") if kind == "text" else ():
        yield _at(9, value, f"{name} is a text, and this is a number")
    for text in parts(setting, "text") if kind != "text" else ():
        yield _at(9, text, f"{name} is a number, and this is a text")
    for rate in parts(setting, "rate") if kind != "dyn" else ():
        yield _at(9, rate, f"{name} isn't dynamic, so it has no rate")


# ---- The clock and queries


def _tick(tree: Tree, schema: Schema) -> Iterator[Verdict]:
    if schema.clock + whole_in(tree, "ticks") > TICK_LIMIT:
        yield _at(13, part(tree, "ticks"), f"the clock, at {schema.clock:,}, would pass {TICK_LIMIT:,}")


def _span(tree: Tree, schema: Schema, most: int, what: str) -> Iterator[Verdict]:
    """Judges the span of a command; `what` says what the limit is of."""
    span, ticks = part(tree, "span"), whole_in(tree, "span")
    if ticks > most:
        yield _at(12, span, f"the span of such a {what} is at most {most:,}")
    elif schema.clock + ticks > TICK_LIMIT:
        yield _at(12, span, f"the last tick, {schema.clock + ticks:,}, would pass {TICK_LIMIT:,}")


def _capacities(tree: Tree, schema: Schema, most: int) -> Iterator[Verdict]:
    """Judges the product of the capacities of a query's classes."""
    query = part(tree, "query")
    product = query_product(query, schema)
    if product > most:
        message = f"the capacities of its classes multiply to {product:,}, and at most {most:,} is allowed"
        yield _at(17, part(query, "from"), message)


def _kinds(tree: Tree, schema: Schema) -> Iterator[Verdict]:
    """Judges what a query names and compares."""
    for where, number, message in QueryKinds(part(tree, "query"), schema).faults():
        yield _at(number, where, message)


def _ask(tree: Tree, schema: Schema) -> Iterator[Verdict]:
    yield from _kinds(tree, schema)
    yield from _span(tree, schema, span_limit(part(tree, "query")), "query")
    yield from _capacities(tree, schema, PRODUCT_LIMIT)


def _register(tree: Tree, schema: Schema) -> Iterator[Verdict]:
    name, query = name_in(tree, "new_name"), part(tree, "query")
    if name in schema.queries:
        yield _at(8, name, f"{name} is a registered query already")
    yield from _ask(tree, schema)
    if len(schema.queries) >= QUERY_LIMIT:
        yield _at(16, name, f"{QUERY_LIMIT} queries are registered already")
    total = schema.product + query_product(query, schema)
    if total > PRODUCT_SUM_LIMIT:
        message = f"with it the products of capacities of all registered queries sum to {total:,}, and at most"
        yield _at(17, part(query, "from"), f"{message} {PRODUCT_SUM_LIMIT:,} is allowed")


def _nearest(tree: Tree, schema: Schema) -> Iterator[Verdict]:
    name, class_name = part(tree, "object_name"), part(tree, "class_name")
    known = schema.objects.get(name_in(tree, "object_name"))
    if known and not schema.classes[known.class_name].is_point:
        yield _at(9, name, f"{known.class_name}, the class of {leaf(name)}, isn't a point class", is_of_objects=True)
    among = schema.classes[name_in(tree, "class_name")]
    if not among.is_point:
        yield _at(9, class_name, f"{leaf(class_name)} isn't a point class")
    yield from _span(tree, schema, NEAREST_SPAN_LIMIT, "command")
    if among.capacity**2 > PRODUCT_LIMIT:
        message = f"the capacity of {leaf(class_name)} times itself is {among.capacity**2:,}, and at most"
        yield _at(17, class_name, f"{message} {PRODUCT_LIMIT:,} is allowed")


def _blurred(tree: Tree, schema: Schema) -> Iterator[Verdict]:
    yield from _kinds(tree, schema)
    for rule, word in (("not", "NOT"), ("within_sphere", "WITHIN_SPHERE")):
        for where in part(tree, "query").find_data(rule):
            yield _at(9, where, f"{word} has no answer where positions may be off")
    yield from _span(tree, schema, BLURRED_SPAN_LIMIT, "command")
    yield from _capacities(tree, schema, BLURRED_PRODUCT_LIMIT)


def _index(tree: Tree, schema: Schema) -> Iterator[Verdict]:
    class_name, attribute = name_in(tree, "class_name"), name_in(tree, "attribute_name")
    last = schema.indexes.get((class_name, attribute))
    if last is not None and schema.clock <= last:
        yield _at(8, attribute, f"{attribute} of {class_name} has an index, which ends at the tick {last:,}")
    if schema.classes[class_name].attributes[attribute] != "dyn":
        yield _at(9, attribute, f"{attribute} isn't dynamic, so it has no index")
    if schema.clock + INDEX_TICKS - 1 > TICK_LIMIT:
        yield _at(12, tree, f"the last tick of the index, {schema.clock + INDEX_TICKS - 1:,}, would pass {TICK_LIMIT:,}")
    if last is None and len(schema.indexes) >= INDEX_LIMIT:
        yield _at(16, tree, f"{INDEX_LIMIT} indexes are there already")


def _range(tree: Tree, schema: Schema) -> Iterator[Verdict]:
    class_name, attribute = name_in(tree, "class_name"), name_in(tree, "attribute_name")
    last = schema.indexes[class_name, attribute]
    if schema.clock + whole_in(tree, "span") > last:
        yield _at(12, part(tree, "span"), f"the index of {attribute} ends at the tick {last:,}")


def query_product(query: Tree, schema: Schema) -> int:
    """The product of the capacities of the query's classes, which are there."""
    return schema.product_of(name_in(each, "class_name") for each in parts(part(query, "from"), "from_part"))


def span_limit(query: Tree) -> int:
    """The largest span of the query."""
    if any(query.find_data("assign")):
        return ASSIGNMENT_SPAN_LIMIT
    circles = query.find_data("within_sphere")
    return CIRCLE_SPAN_LIMIT if any(len(parts(each, "variable_name")) >= 3 for each in circles) else SPAN_LIMIT


_JUDGES: dict[str, Callable[[Tree, Schema], Iterator[Verdict]]] = {
    "class": _class,
    "region": _region,
    "insert": _insert,
    "update": _update,
    "remove": _remove,
    "tick": _tick,
    "ask": _ask,
    "watch": _register,
    "keep": _register,
    "nearest": _nearest,
    "must": _blurred,
    "may": _blurred,
    "index": _index,
    "range": _range,
}
