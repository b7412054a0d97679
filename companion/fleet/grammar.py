"""The grammar of the manual: whether a line is a command, and where and why it is none.

`explain` says of a line what the program says by its refusals 1 to 6, and besides the place of the fault and what was
expected there. The syntax stands in grammar.lark; the ranges of numbers and the sizes are judged here on the tree.
"""

import functools
import importlib.resources
import re
from collections.abc import Iterable, Iterator, Sequence
from dataclasses import dataclass
from typing import Any

from lark import Lark, Token as Leaf, Tree
from lark.exceptions import UnexpectedToken
from lark.lexer import Lexer, PatternStr
from lark.parsers.lalr_analysis import Shift

from fleet import hints
from fleet.tokens import BadToken, Token, thousandths, tokens as tokens_of
from fleet.trees import leaf, parts, place_of
from fleet.words import COMMANDS, LATER_COMMANDS, LINE_LIMIT, NAME_LIMIT, REFUSALS

ALL_COMMANDS: frozenset[str] = frozenset(COMMANDS + LATER_COMMANDS)
"""The commands of the grammar, those that may not be answered yet among them."""

END = "the end of the line"
_END_TERMINAL = "$END"


@dataclass(frozen=True, slots=True)
class Fault:
    """Why the program refuses a line by one of its refusals 1 to 6.

    `place` is the byte of the line at which the fault is, from 0, and `length` how many bytes are at fault there, 0 at
    the end of the line. `expected` has what could stand there, and is empty where the fault isn't one of syntax.
    """

    number: int
    place: int
    length: int
    expected: tuple[str, ...]
    message: str

    @property
    def name(self) -> str:
        """The refusal's name."""
        return REFUSALS[self.number]


class Refused(Exception):
    """The line isn't read; `fault` says why."""

    def __init__(self, fault: Fault) -> None:
        super().__init__(fault.message)
        self.fault = fault


# ---- Kinds: the rules of the grammar for one name, text or number in its place

NAME_KINDS: dict[str, str] = {
    "new_name": "a new name",
    "class_name": "a class",
    "object_name": "an object",
    "attribute_name": "an attribute",
    "region_name": "a region",
    "query_name": "a registered query",
    "variable_name": "a variable",
}
TEXT_KINDS: dict[str, str] = {"file_name": "a file's name in quotes", "text": "a text in quotes"}


@dataclass(frozen=True, slots=True)
class NumberKind:
    """The range of a place of numbers: of whole numbers, or else of thousandths."""

    label: str
    least: int
    most: int
    is_whole: bool

    @property
    def meaning(self) -> str:
        """The range in words."""
        if self.is_whole:
            return f"a whole number from {self.least:,} to {self.most:,}"
        least = "at least 0.001, " if self.least > 0 else ""
        return f"{least}at most {self.most // 1000:,}, with at most ten digits before the point and three after it"


NUMBER_KINDS: dict[str, NumberKind] = {
    "value": NumberKind("a number", -(10**12), 10**12, False),
    "literal": NumberKind("a number", 0, 10**12, False),
    "slope": NumberKind("a slope", -(10**6), 10**6, False),
    "radius": NumberKind("a radius", 0, 10**6, False),
    "error": NumberKind("an error", 0, 10**6, False),
    "width": NumberKind("a width", 1, 10**12, False),
    "ticks": NumberKind("a number of ticks", 1, 10**9, True),
    "span": NumberKind("a span in ticks", 0, 10**9, True),
    "bound": NumberKind("a bound in ticks", 0, 10**9, True),
    "capacity": NumberKind("a capacity", 1, 100_000, True),
    "multiplier": NumberKind("a multiplier", 0, 1_000_000, True),
    "count": NumberKind("a number of objects", 1, 100, True),
}
KIND_LABELS: dict[str, str] = NAME_KINDS | TEXT_KINDS | {kind: each.label for kind, each in NUMBER_KINDS.items()}

# ---- Sizes: of which parts a rule has at most how many

_LIST_LIMITS: dict[str, tuple[str, int, str]] = {
    "class": ("attribute", 16, "attributes"),
    "region": ("point", 64, "points"),
    "move": ("slopes", 8, "legs"),
    "rate": ("slope", 8, "legs"),
    "from": ("from_part", 4, "variables after FROM"),
    "within_sphere": ("variable_name", 4, "names in WITHIN_SPHERE"),
    "term": ("factor", 16, "factors in a term"),
}
NODE_LIMIT = 256
DEPTH_LIMIT = 32
NESTING_LIMIT = 2
"""The most assignments on one way from the root of a formula."""

ATOMS: frozenset[str] = frozenset(("true", "false", "compare", "inside", "outside", "dist", "within_sphere"))
OPERATORS: frozenset[str] = frozenset(
    ("or", "and", "until", "until_within", "until_after", "not", "nexttime", "eventually", "always")
    + ("eventually_within", "eventually_after", "always_for", "assign")
)


def whole(text: str) -> int | None:
    """A whole number, None where it has a point, and where it has more than 18 digits after its zeros."""
    digits = text.lstrip("0")
    return int(digits or "0") if text.isdigit() and len(digits) <= 18 else None


# ---- The parser


class _Given(Lexer):
    """Hands the parser the tokens that it gets in place of a text."""

    __future_interface__ = True

    def __init__(self, lexer_conf: object) -> None:
        pass

    def lex(self, lexer_state: Any, parser_state: Any) -> Iterator[Leaf]:
        return iter(lexer_state.text)


@functools.cache
def parser() -> Lark:
    """The parser of commands, which takes a list of tokens in place of a text."""
    text = importlib.resources.files("fleet").joinpath("grammar.lark").read_text("utf-8")
    return Lark(text, parser="lalr", lexer=_Given, maybe_placeholders=False, propagate_positions=True)


@functools.cache
def terminals() -> dict[str, str]:
    """The grammar's own name of each word and symbol that it has."""
    return {each.pattern.value: each.name for each in parser().terminals if isinstance(each.pattern, PatternStr)}


def _leaf(token: Token, is_first: bool) -> Leaf:
    """The token as the parser takes it; commands that are no reserved words are words where a line begins alone."""
    is_word = token.kind in ("word", "symbol") or (is_first and token.text in LATER_COMMANDS)
    kind = terminals()[token.text] if is_word else token.kind.upper()
    return Leaf(kind, token.text, token.at, 1, token.at + 1, 1, token.end + 1, token.end)


def _leaves(tokens: Sequence[Token]) -> list[Leaf]:
    return [_leaf(token, index == 0) for index, token in enumerate(tokens)]


# ---- What may come next


@dataclass(frozen=True, slots=True)
class Possible:
    """What may come after some tokens: words and symbols, kinds of names, of texts and of numbers, and the end."""

    words: frozenset[str]
    kinds: frozenset[str]
    end: bool

    @property
    def labels(self) -> tuple[str, ...]:
        """All of it in words, with many words of one sort by the name of the sort."""
        left, sorts = self.words | self.kinds, []
        for sort, its_parts in _SORTS.items():
            if its_parts <= left:
                left -= its_parts
                sorts.append(sort)
        kinds = sorted({KIND_LABELS[kind] for kind in left & self.kinds})
        return (*sorts, *kinds, *sorted(left & self.words), *([END] if self.end else []))


_TERM = frozenset(("TIME", "-", "variable_name", "text", "literal", "multiplier"))
_SORTS: dict[str, frozenset[str]] = {
    "a command": ALL_COMMANDS,
    "a formula": _TERM
    | frozenset(("(", "[", "NOT", "NEXTTIME", "TRUE", "FALSE", "INSIDE", "OUTSIDE", "DIST", "WITHIN_SPHERE"))
    | frozenset(("EVENTUALLY", "EVENTUALLY_WITHIN", "EVENTUALLY_AFTER", "ALWAYS", "ALWAYS_FOR")),
    "a term": _TERM,
    "a comparison": hints.COMPARISONS,
    "num, text or dyn": frozenset(("num", "text", "dyn")),
}

_Stack = list[int]


def _table() -> Any:
    """The parser's table: of each state what it does with a terminal, and where a rule leads."""
    return parser().parser.parser._parse_table


def _take(stack: _Stack, terminal: str) -> bool:
    """Makes of the stack of states the one after one more terminal, and says whether it can follow."""
    table = _table()
    while True:
        action, argument = table.states[stack[-1]].get(terminal, (None, None))
        if action is None:
            return False
        if action is Shift:
            stack.append(argument)
            return True
        if argument.expansion:
            del stack[-len(argument.expansion) :]
        stack.append(table.states[stack[-1]][argument.origin.name][1])
        if terminal == _END_TERMINAL and stack[-1] == table.end_states["start"]:
            return True


def _takes(stack: _Stack, terminal: str) -> bool:
    return terminal in _table().states[stack[-1]] and _take(stack.copy(), terminal)


def _kinds(stack: _Stack, terminal: str) -> set[str]:
    """The kinds of a name, text or number that can follow."""
    after = stack.copy()
    if not _takes(stack, terminal) or not _take(after, terminal):
        return set()
    # after a sign the rule of the number has begun already, and its kind isn't told by what may follow
    return KIND_LABELS.keys() & _table().states[after[-2]].keys() or {"literal"}


def possible(tokens: Sequence[Token]) -> Possible | None:
    """What may come after the tokens, None where no command begins with them."""
    stack: _Stack = [_table().start_states["start"]]
    if not all(_take(stack, leaf.type) for leaf in _leaves(tokens)):
        return None
    words = frozenset(word for word, terminal in terminals().items() if _takes(stack, terminal))
    kinds = frozenset().union(*(_kinds(stack, terminal) for terminal in ("NAME", "TEXT", "NUMBER")))
    return Possible(words, kinds, _takes(stack, _END_TERMINAL))


# ---- Reading a line


def explain(line: str | bytes, answered: frozenset[str] = ALL_COMMANDS, limit: int = LINE_LIMIT) -> Fault | None:
    """Why the program refuses the line by one of its refusals 1 to 6, or None where it doesn't.

    `answered` has the commands that the program answers: it refuses the others of the grammar as well. `limit` is the
    most bytes of a line. One carriage return at the end of the line is dropped, as the program does it.
    """
    try:
        tree = read(line, limit)
    except Refused as refused:
        return refused.fault
    return None if tree is None else unbuilt(tree, answered)


def unbuilt(tree: Tree, answered: frozenset[str]) -> Fault | None:
    """The fault of a command that isn't among those that the program answers, None where it is."""
    word = str(tree.data)
    if word in answered:
        return None
    return Fault(4, place_of(tree)[0], len(word), (), f"{word} is not built yet: the program reads it and refuses it")


def read(line: str | bytes, limit: int = LINE_LIMIT) -> Tree | None:
    """The tree of a command, None of a blank line and of a comment. Raises Refused by the first refusal of 1 to 6."""
    sent = (line.encode("utf-8", "surrogateescape") if isinstance(line, str) else line).removesuffix(b"\r")
    _judge_bytes(sent, limit)
    text = sent.decode("ascii")
    try:
        tokens = tokens_of(text)
    except BadToken as bad:
        message = _joined("no token begins here", hints.of_bad_token(text[bad.at]))
        raise Refused(Fault(3, bad.at, 1, (), message)) from None
    if not tokens:
        return None
    tree = _parse(text, tokens)
    _judge_numbers(tree)
    _judge_sizes(tokens, tree)
    return tree


def _joined(message: str, more: str) -> str:
    return f"{message}; {more}" if more else message


def _judge_bytes(sent: bytes, limit: int) -> None:
    if len(sent) > limit:
        message = f"the line has more than {limit:,} bytes"
        raise Refused(Fault(1, limit, len(sent) - limit, (), message))
    other = re.search(rb"[^\t -~]", sent)
    if other:
        message = f"the byte 0x{other.group()[0]:02X} is neither printable ASCII nor a tab"
        raise Refused(Fault(2, other.start(), 1, (), message))


def _parse(text: str, tokens: list[Token]) -> Tree:
    given: Any = _leaves(tokens)
    try:
        return parser().parse(given)
    except UnexpectedToken as unexpected:
        at_end = unexpected.token.type == _END_TERMINAL
        place = len(text.rstrip(" \t")) if at_end else unexpected.token.start_pos
    index = sum(token.at < place for token in tokens)
    following = possible(tokens[:index])
    assert following is not None  # the parser stops at the first token that can't follow
    length = 0 if at_end else len(tokens[index].text)
    hint = hints.of_syntax(hints.Mistake(tokens, index, following.words, following.kinds))
    message = _joined(f"expected {_listed(following.labels)}", hint)
    raise Refused(Fault(4, place, length, following.labels, message))


def _listed(labels: Sequence[str]) -> str:
    return labels[0] if len(labels) == 1 else f"{', '.join(labels[:-1])} or {labels[-1]}"


def _judge_numbers(tree: Tree) -> None:
    """Raises Refused by the first number that is out of the form or the range of its place."""
    faults = [fault for part in tree.iter_subtrees() if part.data in NUMBER_KINDS for fault in _number_faults(part)]
    if faults:
        raise Refused(min(faults, key=lambda fault: fault.place))


def _number_faults(part: Tree) -> Iterator[Fault]:
    kind = NUMBER_KINDS[part.data]
    size = whole(leaf(part)) if kind.is_whole else thousandths(leaf(part))
    sign = -1 if len(part.children) > 1 else 1
    if size is None or not kind.least <= sign * size <= kind.most:
        yield Fault(5, *place_of(part), (), f"{kind.label} is {kind.meaning}")


# ---- Sizes


def _judge_sizes(tokens: Iterable[Token], tree: Tree) -> None:
    """Raises Refused by the first size, by its place, that passes its limit."""
    faults = [*_long_names(tokens), *_long_lists(tree), *_large_formulas(tree)]
    if faults:
        raise Refused(min(faults, key=lambda fault: fault.place))


def _long_names(tokens: Iterable[Token]) -> Iterator[Fault]:
    for token in tokens:
        if token.kind in ("name", "text") and len(token.value) > NAME_LIMIT:
            message = f"this {token.kind} has {len(token.value)} bytes, and at most {NAME_LIMIT} are allowed"
            yield Fault(6, token.at, len(token.text), (), message)


def _long_lists(tree: Tree) -> Iterator[Fault]:
    for part in tree.iter_subtrees():
        child_rule, most, what = _LIST_LIMITS.get(part.data, ("", 0, ""))
        items = parts(part, child_rule)
        if child_rule and len(items) > most:
            message = f"these are {len(items)} {what}, and at most {most} are allowed"
            yield Fault(6, *place_of(items[most]), (), message)


@dataclass(frozen=True, slots=True)
class Measures:
    """The sizes of a formula: its nodes, its depth, and the most assignments on one way from the root."""

    nodes: int
    depth: int
    nesting: int


def measures(formula: Tree) -> Measures:
    """The sizes of a formula."""
    found: dict[int, Measures] = {}
    for part in formula.iter_subtrees():  # the parts of each come before it
        if part.data in ATOMS:
            found[id(part)] = Measures(1, 1, 0)
        elif part.data in OPERATORS:
            below = [found[id(child)] for child in part.children if id(child) in found]
            nodes, depth = 1 + sum(each.nodes for each in below), 1 + max(each.depth for each in below)
            nesting = max(each.nesting for each in below) + (part.data == "assign")
            found[id(part)] = Measures(nodes, depth, nesting)
    return found[id(formula)]


def _large_formulas(tree: Tree) -> Iterator[Fault]:
    """A fault for each size of the command's formula that passes its limit."""
    for query in parts(tree, "query"):
        formula = query.children[-1]
        assert isinstance(formula, Tree)
        size = measures(formula)
        for count, most, what in (
            (size.nesting, NESTING_LIMIT, "assignments within one another"),
            (size.nodes, NODE_LIMIT, "operators, assignments and atoms"),
            (size.depth, DEPTH_LIMIT, "levels, the atoms among them"),
        ):
            if count > most:
                message = f"this formula has {count:,} {what}, and at most {most} are allowed"
                yield Fault(6, *place_of(formula), (), message)
