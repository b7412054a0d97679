"""What a usual mistake in a line most likely meant, and names that are like one that isn't known."""

import difflib
import heapq
import os
from collections.abc import Callable, Collection, Iterable, Sequence
from dataclasses import dataclass

from fleet.tokens import Token

COMPARISONS: frozenset[str] = frozenset(("<", "<=", "=", "!=", ">=", ">"))
MOST_NEAR = 3
MOST_COMPARED = 2_000
"""The most names that are compared with one that isn't known: comparing takes some microseconds each."""


def near(word: str, names: Iterable[str]) -> tuple[str, ...]:
    """The names that are most like the word, at most three, the nearest first. Case doesn't count.

    Of very many names those alone are compared that begin most like the word.
    """
    known = list(names)
    if len(known) > MOST_COMPARED:
        known = heapq.nlargest(MOST_COMPARED, known, key=lambda name: len(os.path.commonprefix([name, word])))
    by_case: dict[str, list[str]] = {}
    for name in known:
        by_case.setdefault(name.casefold(), []).append(name)
    found = difflib.get_close_matches(word.casefold(), by_case, MOST_NEAR)
    return tuple(name for folded in found for name in by_case[folded] if name != word)[:MOST_NEAR]


_BAD_TOKENS: dict[str, str] = {
    '"': "the text isn't closed by a second quote",
    "'": "a text stands in double quotes",
    ";": "a command ends with its line, without a semicolon",
    "#": "a comment has a line of its own",
    "!": "unequal is !=",
    "/": "there is no division",
    "\\": "a command ends with its line",
    "{": "the brackets are ( and [",
    "&": "and is AND",
    "|": "or is OR",
}


def of_bad_token(byte: str) -> str:
    """A hint where no token begins with the byte, empty where there is none."""
    return _BAD_TOKENS.get(byte, "")


@dataclass(frozen=True, slots=True)
class Mistake:
    """The token of `index`, or the end of the line, can't follow those before it; `words` and `kinds` could."""

    tokens: Sequence[Token]
    index: int
    words: Collection[str]
    kinds: Collection[str]

    def text(self, offset: int = 0) -> str:
        """The text of the faulty token, or of one so many places from it; empty where there is none."""
        place = self.index + offset
        return self.tokens[place].text if 0 <= place < len(self.tokens) else ""

    @property
    def kind(self) -> str:
        """The kind of the faulty token, empty at the end of the line."""
        return self.tokens[self.index].kind if self.index < len(self.tokens) else ""

    @property
    def touches(self) -> bool:
        """Whether nothing stands between the faulty token and the one before it."""
        return 0 < self.index < len(self.tokens) and self.tokens[self.index - 1].end == self.tokens[self.index].at

    @property
    def takes_name(self) -> bool:
        """Whether a name of any kind could stand here."""
        return any(kind.endswith("_name") and kind != "file_name" for kind in self.kinds)

    @property
    def takes_number(self) -> bool:
        """Whether a number could stand here."""
        return any(not kind.endswith("_name") and kind != "text" for kind in self.kinds)


def of_syntax(mistake: Mistake) -> str:
    """A hint at what was meant, empty where there is none."""
    return next((found for found in (rule(mistake) for rule in _RULES) if found), "")


def _case(mistake: Mistake) -> str:
    found = mistake.text()
    other = next((each for each in (found.upper(), found.lower()) if each != found and each in mistake.words), None)
    return f"upper and lower case count: {other}" if other else ""


def _comparison(mistake: Mistake) -> str:
    meant = {"==": "=", "=>": ">=", "=<": "<=", "<>": "!="}.get(mistake.text(-1) + mistake.text())
    return f"this comparison is written {meant}" if meant and mistake.touches else ""


def _arrow(mistake: Mistake) -> str:
    return "<- is one symbol: a space goes between < and -" if mistake.text() == "<-" and "<" in mistake.words else ""


def _brackets(mistake: Mistake) -> str:
    found = mistake.text()
    opens_term = found == "(" and "variable_name" in mistake.kinds
    closes_term = found == ")" and not COMPARISONS.isdisjoint(mistake.words)
    return "a term has no brackets" if opens_term or closes_term else ""


def _product(mistake: Mistake) -> str:
    return "a product is a whole number, * and one attribute: 2 * o.x" if mistake.text() == "*" else ""


def _leading_point(mistake: Mistake) -> str:
    return "a number begins with a digit: 0.5" if mistake.text() == "." and mistake.takes_number else ""


def _sign(mistake: Mistake) -> str:
    return "a number has no + before it" if mistake.text() == "+" and "-" in mistake.words and mistake.kinds else ""


def _quotes(mistake: Mistake) -> str:
    takes_text = "file_name" in mistake.kinds or "text" in mistake.kinds
    is_word = mistake.kind in ("name", "word") and not mistake.takes_name
    return f'a text stands in quotes: "{mistake.text()}"' if takes_text and is_word else ""


def _class_first(mistake: Mistake) -> str:
    verb = mistake.tokens[0].text if mistake.tokens else ""
    if verb == "insert" and mistake.index == 2 and mistake.kind != "name":
        return "the class stands before the name"
    follows_names = mistake.index >= 2 and mistake.tokens[mistake.index - 1].kind == "name"
    if verb in ("update", "remove") and mistake.index <= 3 and follows_names:
        return "an object's name says its class: it stands alone"
    return ""


def _at(mistake: Mistake) -> str:
    return "at stands before a place" if mistake.text() == "(" and "at" in mistake.words else ""


def _reserved(mistake: Mistake) -> str:
    is_word = mistake.kind == "word" and mistake.takes_name
    return f"{mistake.text()} is a reserved word, which is no name" if is_word else ""


def _digits(mistake: Mistake) -> str:
    is_number = mistake.kind == "number" and mistake.takes_name
    return "a name begins with a letter or _" if is_number else ""


def _name_parts(mistake: Mistake) -> str:
    follows_name = mistake.touches and mistake.tokens[mistake.index - 1].kind in ("name", "number")
    is_part = mistake.text() == "-" or mistake.kind == "name"
    return "a name has letters, digits and _ alone" if follows_name and is_part and "-" not in mistake.words else ""


def _spelling(mistake: Mistake) -> str:
    if mistake.kind not in ("name", "word"):
        return ""
    found = near(mistake.text(), [word for word in mistake.words if word.isidentifier()])
    return f"{' or '.join(found)}?" if found else ""


_RULES: tuple[Callable[[Mistake], str], ...] = (
    _case, _comparison, _arrow, _brackets, _product, _leading_point, _sign, _quotes, _digits, _name_parts,
    _class_first, _at, _reserved, _spelling,
)
