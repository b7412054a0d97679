"""The shell on a terminal."""

import argparse
import contextlib
import csv
import os
import shutil
import signal
import textwrap
from collections.abc import Callable, Collection, Iterator
from pathlib import Path

from prompt_toolkit import PromptSession
from prompt_toolkit.history import FileHistory, History, InMemoryHistory

from fleet import manual
from fleet.client import BadName, Client, Ended, client_of
from fleet.completion import BACKSLASH_WORDS, LineCompleter
from fleet.explain import Explainer, Explanation, pointed
from fleet.grammar import ALL_COMMANDS
from fleet.hints import near
from fleet.present import number_text
from fleet.replies import Refusal, Row
from fleet.schema import Object, ObjectClass, Schema, listing
from fleet.tokens import tokens
from fleet.words import KEPT_COMMANDS

MOST_FAULTS = 100
"""After so many faults of its own the shell ends: most likely each turn has one."""

_MOST_ROW_BYTES = 2_048
"""No row of an export is longer: a name, and 18 attributes with a value and a slope each."""

HELP = """\
A line is a command of the language, or one of these:

| | |
|---|---|
| `\\help [TOPIC]` | this; or what the manual says of a command, a refusal by its number or name, or a trap |
| `\\help commands`, `refusals`, `traps` | which there are |
| `\\objects [CLASS]` | the objects that are present |
| `\\get NAME` | the attributes of an object at the present tick; legs of a motion that come later aren't told |
| `\\schema` | the classes and the regions, as the commands that made them |
| `\\queries` | the registered queries with their texts |

ctrl-C clears the line, ctrl-D ends, tab completes. Nothing is saved by itself: `save "name"` does it.
"""


def run(arguments: argparse.Namespace) -> int:
    """Takes lines until the end, and gives the exit status."""
    with client_of(arguments) as client:
        schema = Schema()
        if arguments.session:
            schema = Schema.of_session(client.directory / arguments.session)
        shell = Shell(client, schema, Explainer(schema, arguments.program, client.directory))
        try:
            return shell.run()
        except Ended as ended:
            print(ended)
            if shell.unsaved:
                print(f"{_changes(shell.unsaved)} since the last save are lost")
            return ended.exit_status


def history_path() -> Path:
    """The file of the lines that were typed, in the user's folder of states."""
    state = os.environ.get("XDG_STATE_HOME") or Path.home() / ".local" / "state"
    return Path(state) / "fleet" / "history"


class LinesTyped(FileHistory):
    """The history in a file. Where a line can't be written, as on a full disk, it is kept for this session alone."""

    def store_string(self, string: str) -> None:
        """Writes a line that was typed."""
        with contextlib.suppress(OSError):
            super().store_string(string)


def history() -> History:
    """The history over sessions; that of this session alone, where its file can't be made."""
    path = history_path()
    try:
        path.parent.mkdir(mode=0o700, parents=True, exist_ok=True)
        os.close(os.open(path, os.O_CREAT | os.O_RDWR, 0o600))
    except OSError as error:
        print(f"no history is kept: {path}: {error.strerror}")
        return InMemoryHistory()
    return LinesTyped(str(path))


def _changes(count: int) -> str:
    return f"{count:,} change" + ("" if count == 1 else "s")


class Shell:
    """Takes lines and shows their replies. `unsaved` counts the commands that no saved session has."""

    def __init__(self, client: Client, schema: Schema, explainer: Explainer) -> None:
        self.unsaved = 0
        self._faults = 0
        self._client = client
        self._schema = schema
        self._explainer = explainer
        completer = LineCompleter(schema, explainer.answered, client.directory)
        self._prompt: PromptSession[str] = PromptSession(
            history=history(), completer=completer, complete_while_typing=False, enable_suspend=True
        )
        self._backslash: dict[str, Callable[[str], None]] = {
            "\\help": self._help,
            "\\objects": self._objects,
            "\\get": self._get,
            "\\schema": self._show_schema,
            "\\queries": self._queries,
        }
        assert tuple(self._backslash) == BACKSLASH_WORDS

    def run(self) -> int:
        """Takes lines up to the end of the input or a `quit`. Raises Ended."""
        print("DOMINO: \\help tells what can be typed, ctrl-D ends")
        while not self._turn():
            pass
        return 0

    def _turn(self) -> bool:
        """Takes what is typed or pasted, and says whether that ends the shell."""
        try:
            lines = self._prompt.prompt(self._prompt_text()).split("\n")
            return any(self._take(line, len(lines) == 1) for line in lines)
        except KeyboardInterrupt:
            return False
        except EOFError:
            return self._may_leave()
        except Ended:
            raise
        except Exception as fault:
            # Whatever is wrong in the shell, the program holds what isn't saved, so it goes on. Where the terminal has
            # gone, writing fails as well, and that ends it.
            self._faults += 1
            if self._faults > MOST_FAULTS:
                raise
            print(f"the shell has a fault, and the program goes on: {fault!r}", flush=True)
            return False

    def _prompt_text(self) -> str:
        return f"{self._client.clock}> "

    def _may_leave(self) -> bool:
        """Whether nothing is lost by leaving, or the user says that it may be; a second ctrl-D says so."""
        if not self.unsaved:
            return True
        question = f"{_changes(self.unsaved)} since the last save will be lost. Leave? [y/N] "
        try:
            return PromptSession[str]().prompt(question).strip().casefold() in ("y", "yes")
        except EOFError:
            return True
        except KeyboardInterrupt:
            return False

    def _take(self, line: str, is_typed: bool) -> bool:
        """Does what the line says, and says whether it ends the shell. A typed line stands right above the reply."""
        words = line.split(maxsplit=1)
        if words and words[0].startswith("\\"):
            self._take_backslash(words[0], words[1].strip() if len(words) > 1 else "")
            return False
        if words == ["quit"] and not self._may_leave():
            return False
        self._send(line, is_typed)
        return self._client.status is not None

    def _take_backslash(self, word: str, argument: str) -> None:
        action = self._backslash.get(word)
        if action:
            action(argument)
            return
        likely = near(word, self._backslash)
        print(f"{word} is none of {' '.join(self._backslash)}" + (f"; {' or '.join(likely)}?" if likely else ""))

    # ---- Commands

    def _send(self, line: str, is_typed: bool) -> None:
        try:
            with _uninterrupted():
                reply = self._client.send(line)
                if reply and reply.ok:
                    self._record(line)
        except BadName as error:
            print(error)
            return
        if reply and reply.refusal:
            self._show_refusal(line, reply.refusal, is_typed)
        elif reply:
            print(*reply.text, sep="\n")

    def _record(self, line: str) -> None:
        """Keeps the names that an accepted line brings, and counts what isn't saved."""
        self._schema.record(line)
        words = [token.text for token in tokens(line)]
        if words[0] == "save":
            self.unsaved = 0
        elif words[0] == "import" or words[0] in KEPT_COMMANDS:
            self.unsaved += 1
        if words[0] == "import":
            listed = self._client.send(listing(words[1]))
            rows = listed.records if listed else []
            self._schema.record_present(words[1], (row.objects[0] for row in rows if isinstance(row, Row)))

    def _show_refusal(self, line: str, refusal: Refusal, is_typed: bool) -> None:
        why = self._explainer.explain(line, refusal.number)
        for each in self._caret(line, why, is_typed):
            print(each)
        print(f"refused {refusal}: {why.message}")

    def _caret(self, line: str, why: Explanation, is_typed: bool) -> list[str]:
        """A caret under the typed line itself, where it stands above on one row of the terminal; else under a copy."""
        if why.place is None:
            return []
        prompt = self._prompt_text()
        if is_typed and len(prompt) + len(line) < shutil.get_terminal_size().columns:
            return [" " * len(prompt) + pointed(line, why.place, why.length)[1]]
        return pointed(line, why.place, why.length)

    # ---- Words with a backslash

    def _help(self, topic: str) -> None:
        found = help_on(topic)
        if found:
            from fleet.markdown import print_markdown  # its library takes as long to import as all else

            print_markdown(found)
            return
        likely = near(topic, [*ALL_COMMANDS, *manual.traps()])
        print(f"there is no help on {topic}" + (f"; {' or '.join(likely)}?" if likely else ""))

    def _objects(self, class_name: str) -> None:
        if class_name and class_name not in self._schema.classes:
            print(self._no_such("class", class_name, self._schema.classes))
            return
        chosen = [self._schema.classes[class_name]] if class_name else list(self._schema.classes.values())
        for each in chosen:
            names = [there.name for there in self._schema.present(each.name)]
            print(f"{each.name}: {len(names):,} present, {each.names:,} of {each.capacity:,} names")
            if names:
                width = shutil.get_terminal_size().columns - 1
                print(textwrap.fill(" ".join(names), width, initial_indent="    ", subsequent_indent="    "))
        if not chosen:
            print("there are no classes")

    def _no_such(self, kind: str, name: str, known: Collection[str]) -> str:
        likely = near(name, known)
        return f"{name or 'nothing'}: no {kind}" + (f"; {' or '.join(likely)}?" if likely else "")

    def _get(self, name: str) -> None:
        known = self._schema.objects.get(name)
        if known is None:
            print(self._no_such("object", name, self._schema.objects))
        elif not known.is_present:
            print(f"{name} of {known.class_name} was removed")
        else:
            self._show_object(known)

    def _show_object(self, known: Object) -> None:
        try:
            with _uninterrupted():
                fields = exported(self._client, known, len(list(self._schema.present(known.class_name))))
        except (OSError, BadName) as error:
            print(f"its attributes can't be exported: {error}")
            return
        print(f"{known.name} of {known.class_name} at tick {self._client.clock}")
        for line in attribute_lines(self._schema.classes[known.class_name], fields):
            print(f"    {line}")

    def _show_schema(self, argument: str) -> None:
        for line in schema_lines(self._schema):
            print(line)

    def _queries(self, argument: str) -> None:
        for query in self._schema.queries.values():
            expired = ", expired" if query.expiry < self._client.clock else ""
            print(f"{query.kind} {query.name} {query.entry}..{query.expiry}{expired}")
            print(f"    {query.text}")
        if not self._schema.queries:
            print("no query is registered")


@contextlib.contextmanager
def _uninterrupted() -> Iterator[None]:
    """Keeps ctrl-C from breaking off what is being read: the program can't be interrupted without losing all."""

    def tell(number: int, frame: object) -> None:
        print("the program is still at work; only its end stops it: ctrl-\\ ends both, and loses what isn't saved")

    before = signal.signal(signal.SIGINT, tell)
    try:
        yield
    finally:
        signal.signal(signal.SIGINT, before)


# ---- What is told


def help_on(topic: str) -> str:
    """What the manual says of a topic, empty where it says nothing."""
    if not topic:
        return HELP
    if topic.casefold() in ("trap", "traps", "refusal", "refusals", "command", "commands"):
        return _topics(topic.casefold().rstrip("s"))
    number = manual.refusal_number(topic)
    if number is not None:
        return manual.of_refusal(number)
    traps = [part for heading, part in manual.traps().items() if topic.casefold() in heading.casefold()]
    return manual.of_command(topic) or "\n".join(traps)


def _topics(sort: str) -> str:
    """The topics of a sort, to choose from."""
    if sort == "trap":
        topics = [f"`\\help {heading}`" for heading in manual.traps()]
    elif sort == "refusal":
        topics = [f"{number}: {manual.refusal_cause(number)}" for number in manual.refusal_numbers()]
    else:
        topics = [f"`\\help {command}`" for command in sorted(ALL_COMMANDS)]
    return "\n".join(f"- {topic}" for topic in topics)


def schema_lines(schema: Schema) -> Iterator[str]:
    """The classes and regions as commands."""
    for each in schema.classes.values():
        written = [(name, kind) for name, kind in each.attributes.items() if not (each.is_point and name in ("x", "y"))]
        attributes = ",".join(f"{name} {kind}" for name, kind in written)
        yield f"class {each.name} {each.capacity}" + " point" * each.is_point + f" ({attributes})" * bool(attributes)
    for region in schema.regions.values():
        corners = " ".join(f"({number_text(x)},{number_text(y)})" for x, y in region.corners)
        yield f"region {region.name} {corners}"


def attribute_lines(its_class: ObjectClass, fields: dict[str, str]) -> Iterator[str]:
    """A line for each attribute of an exported object: its value, and its slope where it is dynamic."""
    width = max(map(len, its_class.attributes), default=0)
    for name, kind in its_class.attributes.items():
        value = f'"{fields[name]}"' if kind == "text" else fields[name]
        slope = f"  rate {fields[f'{name}.rate']}" if kind == "dyn" else ""
        yield f"{name:{width}}  {value}{slope}"


def exported(client: Client, known: Object, present: int) -> dict[str, str]:
    """The fields of a present object, by an export of its class, of which so many objects are present.

    The program writes to files of its folder alone, and ends where that fails, as on a full disk. So the file is made
    beforehand, under a name that no file has, and with room for all that the program will write beside it; afterwards it is
    removed. Raises OSError where that can't be done, and then nothing was sent.
    """
    path = client.directory / f".fleet_get_{os.getpid()}"
    with path.open("x+b") as made:
        try:
            _make_sure_of_room(made.fileno(), _MOST_ROW_BYTES * (present + 1))
            client.send(f'export {known.class_name} "{path.name}"')
            with path.open(encoding="ascii", newline="") as text:
                return next(row for row in csv.DictReader(text) if row["name"] == known.name)
        finally:
            path.unlink()


def _make_sure_of_room(file: int, size: int) -> None:
    """Raises OSError where the disk hasn't room for so many bytes, which it has again afterwards."""
    os.posix_fallocate(file, 0, size)
    os.ftruncate(file, 0)
