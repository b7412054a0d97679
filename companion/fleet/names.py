"""Which names of a command aren't known, and which known ones are like them."""

from collections.abc import Callable, Collection, Iterable, Iterator
from dataclasses import dataclass

from lark import Token as Leaf, Tree

from fleet.hints import near
from fleet.schema import Schema
from fleet.trees import leaf, name_in, optional_part, part, parts, place_of


@dataclass(frozen=True, slots=True)
class Unknown:
    """A name that isn't known where it stands: its place in the line, from 0, what it should name, and likely names."""

    place: int
    word: str
    kind: str
    near: tuple[str, ...]

    @property
    def message(self) -> str:
        """It in words."""
        meant = f"; {' or '.join(self.near)}?" if self.near else ""
        return f"{self.word}: no {self.kind}{meant}"


def unknown_names(tree: Tree, schema: Schema) -> list[Unknown]:
    """The names of the command that aren't known, in the order of writing; the program refuses it by the first."""
    found = list(_FINDERS.get(str(tree.data), _none)(tree, schema))
    query = optional_part(tree, "query")
    if query:
        found += QueryNames(query, schema).unknown()
    return sorted(found, key=lambda unknown: unknown.place)


def _missing(name: Leaf, kind: str, known: Collection[str]) -> Iterator[Unknown]:
    if name not in known:
        yield Unknown(place_of(name)[0], str(name), kind, near(name, known))


class QueryNames:
    """The names of a query. `variables` has the class of each variable of FROM, of the first of those of one name."""

    def __init__(self, query: Tree, schema: Schema) -> None:
        self._query = query
        self._schema = schema
        self.variables: dict[str, str] = {}
        for each in parts(part(query, "from"), "from_part"):
            self.variables.setdefault(name_in(each, "new_name"), name_in(each, "class_name"))

    def unknown(self) -> Iterator[Unknown]:
        """The names that aren't known: those of targets and classes, and then those of the formula."""
        for target in parts(part(self._query, "targets"), "variable_name"):
            yield from self._missing_variable(leaf(target), frozenset())
        for each in parts(part(self._query, "from"), "from_part"):
            yield from _missing(name_in(each, "class_name"), "class", self._schema.classes)
        yield from self._walk(self._query.children[-1], frozenset())

    def _walk(self, tree: Tree | Leaf, values: frozenset[str]) -> Iterator[Unknown]:
        """Those of a part of the formula in which assignments give the names `values`."""
        if isinstance(tree, Leaf):
            return
        match tree.data:
            case "assign":
                _, term, body = tree.children
                yield from self._walk(term, values)
                yield from self._walk(body, values | {name_in(tree, "new_name")})
            case "reference":
                yield from self._reference(tree, values)
            case "variable_name":
                yield from self._missing_variable(leaf(tree), values)
            case "region_name":
                yield from _missing(leaf(tree), "region", self._schema.regions)
            case _:
                for child in tree.children:
                    yield from self._walk(child, values)

    def _reference(self, tree: Tree, values: frozenset[str]) -> Iterator[Unknown]:
        variable = name_in(tree, "variable_name")
        attribute = optional_part(tree, "attribute_name")
        if variable not in self.variables:
            yield from self._missing_variable(variable, values, is_alone=attribute is None)
        elif attribute:
            yield from _missing_attribute(leaf(attribute), self.variables[variable], self._schema)

    def _missing_variable(self, name: Leaf, values: frozenset[str], is_alone: bool = False) -> Iterator[Unknown]:
        """Where it stands alone in a term it may be an attribute of which the variable was left out."""
        if name in self.variables or name in values:
            return
        owners = [variable for variable, class_name in self.variables.items() if self._has(class_name, name)]
        likely = tuple(f"{variable}.{name}" for variable in owners) if is_alone else ()
        likely = likely or near(name, [*self.variables, *values])
        yield Unknown(place_of(name)[0], str(name), "variable of FROM", likely)

    def _has(self, class_name: str, attribute: str) -> bool:
        known = self._schema.classes.get(class_name)
        return known is not None and attribute in known.attributes


# ---- The names of a command outside its query

Finder = Callable[[Tree, Schema], Iterator[Unknown]]


def _none(tree: Tree, schema: Schema) -> Iterator[Unknown]:
    yield from ()


def _class(tree: Tree, schema: Schema) -> Iterator[Unknown]:
    yield from _missing(name_in(tree, "class_name"), "class", schema.classes)


def _object(tree: Tree, schema: Schema) -> Iterator[Unknown]:
    yield from _missing(name_in(tree, "object_name"), "object", schema.objects)


def _registered(tree: Tree, schema: Schema) -> Iterator[Unknown]:
    yield from _missing(name_in(tree, "query_name"), "registered query", schema.queries)


def _missing_attribute(name: Leaf, class_name: str, schema: Schema) -> Iterator[Unknown]:
    known = schema.classes.get(class_name)
    if known:
        yield from _missing(name, f"attribute of {class_name}", known.attributes)


def _attributes(trees: Iterable[Tree], class_name: str, schema: Schema) -> Iterator[Unknown]:
    for tree in trees:
        yield from _missing_attribute(name_in(tree, "attribute_name"), class_name, schema)


def _insert(tree: Tree, schema: Schema) -> Iterator[Unknown]:
    yield from _class(tree, schema)
    yield from _attributes(parts(tree, "setting"), name_in(tree, "class_name"), schema)


def _update(tree: Tree, schema: Schema) -> Iterator[Unknown]:
    yield from _object(tree, schema)
    known = schema.objects.get(name_in(tree, "object_name"))
    if known:
        yield from _attributes(parts(tree, "setting"), known.class_name, schema)


def _nearest(tree: Tree, schema: Schema) -> Iterator[Unknown]:
    yield from _object(tree, schema)
    yield from _class(tree, schema)


def _index(tree: Tree, schema: Schema) -> Iterator[Unknown]:
    yield from _class(tree, schema)
    yield from _attributes([tree], name_in(tree, "class_name"), schema)


def _range(tree: Tree, schema: Schema) -> Iterator[Unknown]:
    yield from _index(tree, schema)
    class_name, attribute = name_in(tree, "class_name"), name_in(tree, "attribute_name")
    known = schema.classes.get(class_name)
    if known and attribute in known.attributes:
        indexed = [name for which, name in schema.indexes if which == class_name]
        yield from _missing(attribute, f"attribute of {class_name} that has an index", indexed)


_FINDERS: dict[str, Finder] = {
    "insert": _insert,
    "update": _update,
    "remove": _object,
    "show": _registered,
    "drop": _registered,
    "import": _class,
    "export": _class,
    "nearest": _nearest,
    "index": _index,
    "range": _range,
}
