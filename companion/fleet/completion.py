"""What a line that is being typed may go on with: words of the language, and names of the right kind."""

import re
from collections.abc import Iterable, Iterator
from pathlib import Path

from prompt_toolkit.completion import CompleteEvent, Completer, Completion
from prompt_toolkit.document import Document

from fleet import grammar, manual
from fleet.schema import Schema
from fleet.tokens import BadToken, Token, tokens as tokens_of
from fleet.words import FILE_COMMANDS, LATER_COMMANDS, NAME_LIMIT, REFUSALS

_PARTIAL_NAME = re.compile(r"[A-Za-z_][A-Za-z0-9_]*$")
_PARTIAL_TEXT = re.compile(r'^[^"]*"([^"]*)$')
_BACKSLASH = re.compile(r"^\s*(\\[a-z]*)$")
_ARGUMENT = re.compile(r"^\s*\\(help|get|objects)\s+(.*)$")

BACKSLASH_WORDS = ("\\help", "\\objects", "\\get", "\\schema", "\\queries")


class LineCompleter(Completer):
    """Completes commands by the grammar and by the names that are there, and words with a backslash."""

    def __init__(self, schema: Schema, answered: frozenset[str], directory: Path) -> None:
        self._schema = schema
        self._unanswered = frozenset(LATER_COMMANDS) - answered
        self._directory = directory

    def get_completions(self, document: Document, complete_event: CompleteEvent) -> Iterator[Completion]:
        """The completions of what stands before the cursor."""
        partial, words = self.completions(document.text_before_cursor)
        for word in words:
            yield Completion(word, start_position=-len(partial))

    def completions(self, before: str) -> tuple[str, list[str]]:
        """What is to be completed, and the words that it may become; case counts nothing."""
        for form, found in ((_BACKSLASH, self._backslash), (_ARGUMENT, self._argument), (_PARTIAL_TEXT, self._files)):
            match = form.match(before)
            if match:
                partial, words = match[match.lastindex or 0], found(match)
                break
        else:
            match = _PARTIAL_NAME.search(before)
            partial = match[0] if match else ""
            words = self._words(before[: len(before) - len(partial)])
        return partial, sorted({word for word in words if word.casefold().startswith(partial.casefold())})

    def _backslash(self, match: re.Match[str]) -> Iterable[str]:
        return BACKSLASH_WORDS

    def _argument(self, match: re.Match[str]) -> Iterable[str]:
        if match[1] == "get":
            return (each.name for each in self._schema.present())
        return self._schema.classes if match[1] == "objects" else help_topics()

    def _files(self, match: re.Match[str]) -> Iterable[str]:
        """The files that the program may read and write, after the quote of a command with a file."""
        if match.string.split()[0] not in FILE_COMMANDS:
            return ()
        try:
            names = [each.name for each in self._directory.iterdir() if each.is_file()]
        except OSError:
            return ()
        return (name for name in names if len(name) <= NAME_LIMIT and name.isascii() and '"' not in name)

    def _words(self, before: str) -> Iterator[str]:
        try:
            tokens = tokens_of(before)
        except BadToken:
            return
        following = grammar.possible(tokens)
        if following is None:
            return
        yield from (word for word in following.words - self._unanswered if word.isidentifier())
        for kind in following.kinds & grammar.NAME_KINDS.keys():
            yield from Names(self._schema, tokens).of_kind(kind)


class Names:
    """The names that may follow some tokens."""

    def __init__(self, schema: Schema, tokens: list[Token]) -> None:
        self._schema = schema
        self._texts = [token.text for token in tokens]

    def of_kind(self, kind: str) -> Iterable[str]:
        """Those of a kind of the grammar."""
        match kind:
            case "class_name":
                return self._schema.classes
            case "region_name":
                return self._schema.regions
            case "query_name":
                return self._schema.queries
            case "object_name":
                return self._objects()
            case "variable_name":
                return self._variables()
            case "attribute_name":
                return self._attributes()
        return ()

    def _objects(self) -> Iterable[str]:
        """To insert: those of the class that were removed; else those that are present."""
        if self._texts[0] != "insert":
            return (each.name for each in self._schema.present())
        objects = self._schema.objects.values()
        return (each.name for each in objects if not each.is_present and each.class_name == self._texts[1])

    def _variables(self) -> dict[str, str]:
        """The variables of FROM with their classes, and the names that assignments give."""
        if "FROM" not in self._texts:
            return {}
        first = self._texts.index("FROM") + 1
        last = self._texts.index("WHERE") if "WHERE" in self._texts else len(self._texts)
        names = [text for text in self._texts[first:last] if text != ","]
        assigned = [name for name, sign in zip(self._texts[last:], self._texts[last + 1 :]) if sign == "<-"]
        return dict.fromkeys(assigned, "") | dict(zip(names[1::2], names[::2]))

    def _attributes(self) -> Iterable[str]:
        """Those of the class; to make an index the dynamic ones, and to ask one those that have one."""
        if self._texts[0] == "update":
            return self._schema.attributes_of(self._texts[1])
        if self._texts[0] == "range":
            return (attribute for its_class, attribute in self._schema.indexes if its_class == self._texts[2])
        class_name = self._variables().get(self._texts[-2], "") if self._texts[-1] == "." else self._texts[1]
        known = self._schema.classes.get(class_name)
        attributes = known.attributes if known else {}
        if self._texts[0] == "index":
            return (attribute for attribute, kind in attributes.items() if kind == "dyn")
        return attributes


def help_topics() -> list[str]:
    """What `\\help` takes: commands, refusals and traps."""
    return [*sorted(grammar.ALL_COMMANDS), *REFUSALS.values(), *manual.traps()]
