"""What the server answers by itself: its words, numbers that the log has, and names of files that lead astray."""

from functools import partial
from pathlib import Path

from fleet.filenames import BadName, check_line
from fleet.serve.commits import Done
from fleet.serve.log import Log
from fleet.serve.outcomes import Number, Outcome, Unknown
from fleet.serve.peers import Item, Peer
from fleet.serve.runner import OWN_PREFIX
from fleet.serve.wire import Kind, Refusal, told
from fleet.serve.words import Words
from fleet.tokens import BadToken, tokens

_REFUSALS = {Unknown.FORGOTTEN: Refusal.NUMBER_FORGOTTEN, Unknown.TAKEN: Refusal.NUMBER_TAKEN}


class Decisions:
    """Decides which lines go to the program."""

    def __init__(self, log: Log, folder: Path, words: Words) -> None:
        self._log = log
        self._folder = folder
        self._words = words
        self._flying: set[tuple[str, int]] = set()
        self.log_is_full = False
        self.only_reads = False

    def lift(self, item: Item) -> bool:
        """Notes that the line is being carried out; not where another of its number is, since what comes of that one
        isn't known yet."""
        if item.number is None:
            return True
        if _key(item.number) in self._flying:
            return False
        self._flying.add(_key(item.number))
        return True

    def land(self, item: Item) -> None:
        """Notes that the line is answered, or waits again."""
        if item.number is not None:
            self._flying.discard(_key(item.number))

    def decided(self, item: Item) -> Done | None:
        """The reply to a line that the server answers by itself; None where the program is asked."""
        if item.record is not None:
            return None if item.record.command is not None else Done(item, record=item.record)
        if item.kind is Kind.WORD:
            assert isinstance(item.source, Peer)
            return Done(item, block=partial(self._words.answer, item.source, item.text))
        if item.kind is Kind.QUIT:
            return Done(item, block=b"ok\n")
        block = self._of_number(item.number) or self._of_reader(item) or self._of_files(item) or self._of_log(item)
        return Done(item, block=block) if block else None

    def _of_reader(self, item: Item) -> bytes:
        is_change = item.kind in (Kind.KEPT, Kind.IMPORT)
        return Refusal.READER.reply() if self.only_reads and is_change else b""

    def _of_number(self, number: Number | None) -> bytes:
        if number is None:
            return b""
        if not number.client:
            return Refusal.BAD_WORD.reply()
        found = self._log.outcomes.look(number)
        if isinstance(found, Outcome):
            return told("again", number.number) + (f"refused {found.refusal}\n" if found.refusal else "ok\n").encode()
        return _REFUSALS[found].reply() if found in _REFUSALS else b""

    def _of_files(self, item: Item) -> bytes:
        if item.kind not in (Kind.FILE, Kind.IMPORT):
            return b""
        try:
            line = tokens(item.text)
        except BadToken:
            return b""
        if any(token.kind == "text" and token.value.startswith(OWN_PREFIX) for token in line):
            return Refusal.FILE_NAME.reply()
        try:
            check_line(line, self._folder)
        except BadName:
            return Refusal.FILE_NAME.reply()
        return b""

    def _of_log(self, item: Item) -> bytes:
        return Refusal.LOG_FULL.reply() if self.log_is_full and item.kind in (Kind.KEPT, Kind.IMPORT) else b""


def _key(number: Number) -> tuple[str, int]:
    return number.client, number.number
