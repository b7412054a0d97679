"""The kinds of what a query names, and the bounds of its terms: its faults by the refusals 8, 9 and 11."""

from collections.abc import Iterator, Mapping
from dataclasses import dataclass

from lark import Token as Leaf, Tree

from fleet.grammar import ATOMS, OPERATORS
from fleet.names import QueryNames
from fleet.schema import AttributeKind, Schema
from fleet.tokens import thousandths
from fleet.trees import leaf, name_in, optional_part, part, parts, whole_in

TERM_LIMIT = 10**18
"""The largest bound of a term, in thousandths."""
STORED = 10**12
"""The largest size of a static number, of a tick and of a literal, in thousandths."""
IMPLIED = 1_001 * 10**12
"""The largest size of an implied value, in thousandths."""
SLOPE = 10**6
"""The largest size of a slope, in thousandths a tick."""
_BOUNDS: dict[AttributeKind, int] = {"num": STORED, "text": 0, "dyn": IMPLIED}
_PART_BOUNDS: dict[str, int] = {"value": IMPLIED, "updatetime": STORED, "function": SLOPE}

Fault = tuple[Tree | Leaf, int, str]
"""What a fault is about, its refusal, and its cause in words."""


@dataclass(frozen=True, slots=True)
class Value:
    """What a term, or a value variable, is: a text, or a number of at most so many thousandths."""

    is_text: bool
    bound: int


Values = Mapping[str, Value]
"""The value variables at a place of a formula."""


class QueryKinds:
    """Judges a query all of whose names are known."""

    def __init__(self, query: Tree, schema: Schema) -> None:
        self._query = query
        self._schema = schema
        self._classes = QueryNames(query, schema).variables

    def faults(self) -> Iterator[Fault]:
        """All faults of the query. The program refuses it by one of those that have the lowest number."""
        targets = [leaf(target) for target in parts(part(self._query, "targets"), "variable_name")]
        variables = [name_in(each, "new_name") for each in parts(part(self._query, "from"), "from_part")]
        yield from self._repeated(variables, "variable")
        yield from self._repeated(targets, "target")
        yield from self._formula(self._query.children[-1], {})

    def _repeated(self, names: list[Leaf], what: str) -> Iterator[Fault]:
        for index, name in enumerate(names):
            if name in names[:index]:
                yield name, 8, f"the {what} {name} is given twice"

    def _formula(self, tree: Tree | Leaf, values: Values) -> Iterator[Fault]:
        if isinstance(tree, Leaf) or tree.data not in ATOMS | OPERATORS:
            return
        match tree.data:
            case "compare":
                yield from self._compare(tree, values)
            case "inside" | "outside" | "dist" | "within_sphere":
                for each in parts(tree, "variable_name"):
                    yield from self._point(leaf(each))
            case "assign":
                yield from self._assign(tree, values)
            case _:
                for child in tree.children:
                    yield from self._formula(child, values)

    def _assign(self, tree: Tree, values: Values) -> Iterator[Fault]:
        name = name_in(tree, "new_name")
        if name in self._classes or name in values:
            yield name, 8, f"the name {name} is a variable already"
        value, faults = self._term(part(tree, "term"), values)
        yield from faults
        yield from self._formula(tree.children[-1], {**values, str(name): value})

    def _compare(self, tree: Tree, values: Values) -> Iterator[Fault]:
        (left, left_faults), (right, right_faults) = (self._term(term, values) for term in parts(tree, "term"))
        yield from left_faults
        yield from right_faults
        comparison = part(tree, "comparison")
        if left.is_text != right.is_text:
            yield tree, 9, "a number and a text are compared"
        elif left.is_text and leaf(comparison) not in ("=", "!="):
            yield comparison, 9, "texts have no order: they are compared by = and != alone"

    def _point(self, name: Leaf) -> Iterator[Fault]:
        if name not in self._classes:
            yield name, 9, f"{name} is a value, and no object"
        elif not self._schema.classes[self._classes[name]].is_point:
            yield name, 9, f"{self._classes[name]}, the class of {name}, is no point class"

    def _term(self, tree: Tree, values: Values) -> tuple[Value, list[Fault]]:
        """What the term is, and its faults."""
        faults: list[Fault] = []
        factors = parts(tree, "factor")
        found = [self._factor(factor, values, faults) for factor in factors]
        is_text = any(value.is_text for _, value in found)
        bound = sum(times * value.bound for times, value in found)
        if is_text and (len(tree.children) > 1 or optional_part(factors[0], "multiplier")):
            faults.append((tree, 9, "a text stands alone in its term, without a sign, a multiplier or another part"))
        if bound > TERM_LIMIT:
            message = f"this term may come to {bound // 1000:,}, and at most {TERM_LIMIT // 1000:,} is allowed"
            faults.append((tree, 11, message))
        return Value(is_text, bound), faults

    def _factor(self, tree: Tree, values: Values, faults: list[Fault]) -> tuple[int, Value]:
        """How often the factor counts, and what it is."""
        times = whole_in(tree, "multiplier") if optional_part(tree, "multiplier") else 1
        literal, reference = optional_part(tree, "literal"), optional_part(tree, "reference")
        if literal:
            return 1, Value(False, thousandths(leaf(literal)) or 0)
        if optional_part(tree, "text"):
            return 1, Value(True, 0)
        return times, self._reference(reference, values, faults) if reference else Value(False, STORED)

    def _reference(self, tree: Tree, values: Values, faults: list[Fault]) -> Value:
        name = name_in(tree, "variable_name")
        attribute = optional_part(tree, "attribute_name")
        if attribute and name in self._classes:
            return self._attribute(leaf(attribute), self._classes[name], optional_part(tree, "part"), faults)
        if attribute is None and name in values:
            return values[name]
        what = "value, which has no attributes" if attribute else "object, and no number or text"
        faults.append((name, 9, f"{name} is {'a' if attribute else 'an'} {what}"))
        return Value(False, 0)

    def _attribute(self, name: Leaf, class_name: str, sub: Tree | None, faults: list[Fault]) -> Value:
        kind = self._schema.classes[class_name].attributes[name]
        if sub is None:
            return Value(kind == "text", _BOUNDS[kind])
        if kind != "dyn":
            faults.append((sub, 9, f"{name} of {class_name} isn't dynamic, so it has no {leaf(sub)}"))
        return Value(False, _PART_BOUNDS[leaf(sub)])
