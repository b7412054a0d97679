"""The manual of the language by its parts: of a command, of a refusal, of a trap. All texts are markdown."""

import functools
import re
from pathlib import Path

from fleet.words import LATER_COMMANDS, REFUSALS

_HEADING = re.compile(r"^(#+) (.*)$")
_REFUSAL_ROW = re.compile(r"^\| `refused ([0-9]+) [A-Za-z]+` \| (.*) \|$", re.MULTILINE)
_MISTAKE_HEAD = ("| Reply | What was typed |", "|---|---|---|---|")
TRAPS = "Traps"
LATER = "What isn't answered yet"


@functools.cache
def text() -> str:
    """All of the manual: the one that was installed with the package, or in the repository that of its docs."""
    installed = Path(__file__).with_name("LANGUAGE.md")
    in_place = Path(__file__).parents[2] / "docs" / "LANGUAGE.md"
    return (installed if installed.exists() else in_place).read_text("utf-8")


@functools.cache
def sections() -> dict[tuple[str, str], str]:
    """Each part, up to the next heading, by the heading of its chapter and its own; the two are alike at its begin."""
    found: dict[tuple[str, str], str] = {}
    chapter = own = ""
    for line in text().splitlines(keepends=True):
        heading = _HEADING.match(line.rstrip("\n"))
        if heading:
            own = heading[2]
            chapter = own if len(heading[1]) <= 2 else chapter
        found[chapter, own] = found.get((chapter, own), "") + line
    return found


def of_command(word: str) -> str | None:
    """The part about a command, None where it is none of the language."""
    for (chapter, own), part in sections().items():
        if chapter == "Commands" and word in own.split(" and "):
            return part
    return sections().get((LATER, LATER)) if word in LATER_COMMANDS else None


@functools.cache
def unanswered() -> frozenset[str]:
    """The commands of the language that the manual says aren't answered yet."""
    return frozenset(re.findall(r"^\| `'([a-z]+)'", sections().get((LATER, LATER), ""), re.MULTILINE))


def refusal_number(topic: str) -> int | None:
    """The number of the refusal that is named by its number or its name, None where it is none."""
    for number, name in REFUSALS.items():
        if topic.casefold() in (str(number), name.casefold()):
            return number
    return None


def of_refusal(number: int) -> str:
    """When a line is refused by the refusal of this number, and the usual mistakes that lead to it."""
    name = REFUSALS[number]
    rows = [line for line in text().splitlines() if line.startswith(f"| {number} {name} |")]
    head = [line for line in text().splitlines() if line.startswith(_MISTAKE_HEAD[0])][:1]
    mistakes = "\n".join([*head, _MISTAKE_HEAD[1], *rows]) if head and rows else ""
    return f"**{number} {name}**: {_causes()[number]}.\n\n{mistakes}\n"


def refusal_numbers() -> list[int]:
    """The numbers of the refusals that the manual tells of, in their order."""
    return sorted(_causes())


def refusal_cause(number: int) -> str:
    """When a line is refused by the refusal of this number, in a line of plain text."""
    return _causes()[number].replace("`", "").replace("**", "")


@functools.cache
def _causes() -> dict[int, str]:
    return {int(number): cause for number, cause in _REFUSAL_ROW.findall(text())}


def traps() -> dict[str, str]:
    """The parts about traps by their headings."""
    return {own: part for (chapter, own), part in sections().items() if chapter == TRAPS and own != TRAPS}
