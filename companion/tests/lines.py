"""Makes lines for tests: commands that the grammar itself derives, and mutations of them."""

import random
from collections.abc import Sequence

from lark.grammar import NonTerminal, Rule

from fleet import grammar
from fleet.words import RESERVED

NAMES = ("car", "van", "a", "b", "o", "n", "x", "y", "fuel", "P", "w", "nearest", "index", "_1", "Zed_9", "m" * 32)
TEXTS = ('"AB 12"', '"f.csv"', '"s1"', '"#"', '"' + "t" * 32 + '"')
SPACES = (" ", " ", " ", "  ", "\t", " \t ")
SYMBOLS = ("(", ")", "[", "]", ",", ".", "+", "-", "*", "=", "!=", "<=", ">=", "<", ">", "<-")
ODD_PIECES = ('"', "?", "!", ";", "#", "'", "/", "0.", ".5", "1e3", "==", "é", "\x00", "\x7f", "\r", "AB-12", "00")
MOST_RULES = 50
"""After so many rules at most the shortest ones are chosen, so that each derivation ends."""


def _texts_of(kind: grammar.NumberKind) -> tuple[str, ...]:
    """Numbers of a place: usual ones, and those at its limits and past them."""
    if kind.is_whole:
        near_limits = (kind.least - 1, kind.least, kind.most, kind.most + 1)
        return ("1", "5", "007", "12", "0", "2.0", "1.5", "1" * 40, *(str(n) for n in near_limits if n >= 0))
    most = kind.most // 1000
    near_limits = (str(most), f"{most}.001", f"{most}.000", str(most + 1))
    return ("0", "1", "3.5", "0.001", "0.0001", "00000000005", "0000000005", "0.5000", *near_limits)


class Derivations:
    """Derives lines from the rules of the grammar at random."""

    def __init__(self, chance: random.Random, odd_numbers: float = 0.03) -> None:
        self.chance = chance
        self.odd_numbers = odd_numbers
        self._rules: dict[str, list[Rule]] = {}
        for rule in grammar.parser().rules:
            self._rules.setdefault(rule.origin.name, []).append(rule)
        self._spelled = {terminal: word for word, terminal in grammar.terminals().items()}
        self._depths = self._least_depths()
        self._budget = 0

    def line(self, command: str = "start") -> list[str]:
        """The tokens of a command; `command` may say of which."""
        self._budget = self.chance.randrange(MOST_RULES)
        return self._derive(command)

    def _least_depths(self) -> dict[str, int]:
        """The depth of the least tree of each rule's name."""
        depths: dict[str, int] = {}
        for _ in self._rules:
            for name, rules in self._rules.items():
                known = [depth for depth in (self._depth(rule, depths) for rule in rules) if depth is not None]
                if known:
                    depths[name] = min(known)
        return depths

    def _depth(self, rule: Rule, depths: dict[str, int]) -> int | None:
        below = [depths.get(part.name) for part in rule.expansion if isinstance(part, NonTerminal)]
        return None if None in below else 1 + max(below, default=0)

    def _derive(self, name: str) -> list[str]:
        self._budget -= 1
        rules = self._rules[name]
        if self._budget < 0:
            least = min(self._depth(rule, self._depths) for rule in rules)
            rules = [rule for rule in rules if self._depth(rule, self._depths) == least]
        found: list[str] = []
        for part in self.chance.choice(rules).expansion:
            found += self._derive(part.name) if isinstance(part, NonTerminal) else [self._terminal(part.name, name)]
        return found

    def _terminal(self, terminal: str, rule: str) -> str:
        if terminal == "NAME":
            return self.chance.choice(NAMES) if self.chance.random() > 0.004 else "n" * 33
        if terminal == "TEXT":
            return self.chance.choice(TEXTS) if self.chance.random() > 0.01 else '"' + "t" * 33 + '"'
        if terminal == "NUMBER":
            texts = _texts_of(grammar.NUMBER_KINDS[rule])
            return self.chance.choice(texts if self.chance.random() < self.odd_numbers else texts[:2])
        return self._spelled[terminal]


def mutated(tokens: Sequence[str], chance: random.Random) -> list[str]:
    """The tokens with one of them left out, doubled, swapped with the next, changed, or with one put in."""
    found = list(tokens)
    at = chance.randrange(len(found))
    how = chance.choice(("leave out", "double", "swap", "change", "put in", "cut"))
    if how == "leave out":
        del found[at]
    elif how == "double":
        found.insert(at, found[at])
    elif how == "swap" and at + 1 < len(found):
        found[at], found[at + 1] = found[at + 1], found[at]
    elif how == "cut":
        del found[at:]
    elif how == "put in":
        found.insert(at, any_token(chance))
    else:
        found[at] = any_token(chance)
    return found


def any_token(chance: random.Random) -> str:
    """A token of any kind, or what is none."""
    numbers = ("0", "1", "12", "1.5", "1000001", "1000000000.001", "9" * 20)
    return chance.choice(chance.choice((NAMES, TEXTS, numbers, SYMBOLS, tuple(sorted(RESERVED)), ODD_PIECES)))


def spelled(tokens: Sequence[str], chance: random.Random) -> bytes:
    """The tokens as a line, with spaces and tabs between them, and sometimes none where none is needed."""
    line = chance.choice(("", "", "", " ", "\t"))
    for index, token in enumerate(tokens):
        if index and (_must_part(tokens[index - 1], token) or chance.random() < 0.7):
            line += chance.choice(SPACES)
        line += token
    return line.encode("utf-8")


def _must_part(before: str, after: str) -> bool:
    """Whether two tokens would be other ones without a space between them."""
    joins = before[-1:].isalnum() or before[-1:] == "_" or before[-1:] in "<>!=."
    return joins and bool(after) and (after[0].isalnum() or after[0] in "_<>=-.")


def with_odd_byte(line: bytes, chance: random.Random) -> bytes:
    """The line with one byte changed into any other but a line feed."""
    at = chance.randrange(len(line) + 1)
    byte = chance.choice([byte for byte in range(256) if byte != 10])
    return line[:at] + bytes([byte]) + line[at + 1 :]


class Statements:
    """Makes commands over a small set of names, most of which are accepted, and some with a fault of any kind."""

    SETUP = (
        "class car 6 point (fuel dyn,plate text,seats num)",
        "class van 1100 (a num,x text,b dyn)",
        "class post 3 point (n num)",
        "insert car a plate = \"A\"",
        "insert car b",
        "remove b",
        "insert post p",
        "region P (0,0) (4,0) (4,4)",
        "watch w 3 RETRIEVE o FROM car o WHERE TRUE",
    )
    CLASSES = {"car": ("x", "y", "fuel", "plate", "seats"), "van": ("a", "x", "b"), "post": ("x", "y", "n")}

    def __init__(self, chance: random.Random, odds: float = 0.04) -> None:
        self.chance = chance
        self.odds = odds

    def line(self) -> str:
        """A command."""
        often = (self.ask, self.ask, self.ask, self.insert, self.insert)
        return self.chance.choice((*often, self.register, self.update, self.small, self.region))()

    def _or_odd(self, usual: str, *odd: str) -> str:
        return self.chance.choice(odd) if self.chance.random() < self.odds else usual

    def ask(self) -> str:
        """A question."""
        span = self._or_odd("5", "100000000", "100000001", "10001", "100001", "1000000000")
        return f"ask {span} {self.query()}"

    def register(self) -> str:
        """A query that is registered, or the end of one."""
        name = self.chance.choice(("w", "w2", "w3", "w4"))
        verb = self.chance.choice(("watch", "keep", "drop", "show"))
        return f"{verb} {name}" + (f" {self._or_odd('5', '10001')} {self.query()}" if verb in ("watch", "keep") else "")

    def insert(self) -> str:
        """An object that is inserted."""
        name = self._class()
        object_name = self.chance.choice("abcdefghpqr")
        return f"insert {name} {object_name}{self._change(self.CLASSES.get(name, ('x',)))}"

    def update(self) -> str:
        """An object that is updated or removed."""
        name = self.chance.choice("abcdefghpqr")
        if self.chance.random() < 0.3:
            return f"remove {name}"
        return f"update {name}{self._change(self.CLASSES[self.chance.choice(('car', 'car', 'post', 'van'))])}"

    def small(self) -> str:
        """A command of few words."""
        ticks = self._or_odd("1", "1000000000", "999999999")
        kind = self.chance.choice(("num", "text", "dyn"))
        name = self.chance.choice(("car", "k1", "k2", "k3"))
        point = self.chance.choice(("", " point"))
        attribute = self.chance.choice(("x", "y", "n", "m"))
        return self.chance.choice((f"tick {ticks}", "list", f"class {name} 2{point} (n num,{attribute} {kind})"))

    def region(self) -> str:
        """A region of corners that are most often those of a polygon."""
        name = self.chance.choice(("P", "Q", "R", "S", "T", "U"))
        shape = [(0, 0), (2, 0), (4, 0), (4, 4), (0, 4)]
        if self.chance.random() < 0.5:
            shape = [(self.chance.randrange(4), self.chance.randrange(4)) for _ in range(self.chance.randrange(3, 7))]
        if self.chance.random() < 0.2:
            shape = shape[::-1] + shape[-1:]
        return f"region {name} " + " ".join(f"({x},{y})" for x, y in shape)

    def _class(self) -> str:
        return self._or_odd(self.chance.choice(("car", "car", "post", "van")), "ship")

    def _change(self, attributes: Sequence[str]) -> str:
        change = self.chance.choice(("", "", " at (0,0)", " move (1,0)", " at (1,2) move [(1,0),3] (0,0)"))
        for _ in range(self.chance.randrange(3)):
            name = self._or_odd(self.chance.choice(attributes), "z")
            change += f" {name}" + self.chance.choice((" = 3", ' = "A"', " rate 2", " = 3 rate 1"))
        return change

    def query(self) -> str:
        """A query."""
        names = ["o", "n", "a"][: self.chance.choice((1, 1, 2, 2, 3))]
        self.variables = {name: self._class() for name in names}
        parts = ",".join(f"{its_class} {self._or_odd(name, 'o', 'n')}" for name, its_class in self.variables.items())
        targets = ",".join(self._or_odd(name, "o", "z", "v") for name in names[: self.chance.randrange(1, 3)])
        return f"RETRIEVE {targets} FROM {parts} WHERE {self.formula(3, ())}"

    def formula(self, depth: int, values: tuple[str, ...]) -> str:
        """A formula in which assignments give the values."""
        if depth == 0 or self.chance.random() < 0.4:
            return self._atom(values)
        if self.chance.random() < 0.2 and len(values) < 2:
            value = self._or_odd("uv"[len(values)], "o", "u")
            return f"[{value} <- {self._term(values)}] {self.formula(depth - 1, (*values, value))}"
        if self.chance.random() < 0.5:
            word = self.chance.choice(("NOT", "NEXTTIME", "EVENTUALLY_WITHIN 2", "ALWAYS_FOR 3"))
            return f"{word} ({self.formula(depth - 1, values)})"
        word = self.chance.choice(("AND", "OR", "UNTIL", "UNTIL_WITHIN 2"))
        return f"({self.formula(depth - 1, values)} {word} {self.formula(depth - 1, values)})"

    def _atom(self, values: tuple[str, ...]) -> str:
        region = self._or_odd("P", "N")
        sign = self.chance.choice(("<", "=", "!=", ">="))
        return self.chance.choice((
            f"INSIDE({self._variable()},{region})",
            f"DIST({self._variable()},{self._variable()}) <= 3",
            "WITHIN_SPHERE(3," + ",".join(self._variable() for _ in range(self.chance.randrange(1, 4))) + ")",
            *[f"{self._term(values)} {sign} {self._term(values)}"] * 3,
        ))

    def _variable(self) -> str:
        return self._or_odd(self.chance.choice(list(self.variables)), "u", "z")

    def _term(self, values: tuple[str, ...]) -> str:
        times = self._or_odd("", "2 * ", "998 * ", "999 * ", "1000 * ", "1000000 * ")
        more = self._or_odd("", " + 1", " - o.x", ' + "A"')
        name = self._variable()
        attribute = self._or_odd(self.chance.choice(self.CLASSES.get(self.variables.get(name, ""), ("x",))), "z")
        part = self.chance.choice(("value", "updatetime", "function"))
        units = [*(f"{times}{value}" for value in values), "3", '"A"', f"{times}TIME", f"{name}.{attribute}.{part}"]
        return self.chance.choice((*units, *[f"{times}{name}.{attribute}"] * 4, self._or_odd("4", name))) + more
