"""Which entry of a stream a log has taken last.

The entries of a stream are numbered within logs, and the logs as well: entry 0 is that with which a log begins. In a
log's file the place is a comment, which stands after what it tells of:

    #> LOG-ENTRY TAKEN CHAIN    so many records of this entry are in the file

The chain of an entry is a check of its lines and of all entries before it in its log, so two places with one chain have
the same entries before them.
"""

import hashlib
import re
import secrets
from typing import NamedTuple, Self

_SIZE = 8
COMMENT = re.compile(rb"#> ([0-9]+)-([0-9]+) ([0-9]+) ([0-9a-f]{16})\n")


class Position(NamedTuple):
    """An entry, how many of its records are taken, and its chain."""

    log: int
    entry: int
    taken: int
    chain: str

    @classmethod
    def of_comment(cls, match: re.Match[bytes]) -> Self:
        """That of a comment which COMMENT matches."""
        log, entry, taken, chain = match.groups()
        return cls(int(log), int(entry), int(taken), chain.decode())

    @classmethod
    def first(cls, log: int) -> Self:
        """That of the beginning of a new log, whose chain is unlike that of any other."""
        return cls(log, 0, 0, secrets.token_hex(_SIZE))

    def after(self, lines: bytes, records: int) -> Self:
        """That of the next entry, which has these lines, when all its records are taken."""
        return self._replace(entry=self.entry + 1, taken=records, chain=chain_after(self.chain, lines))

    @property
    def id(self) -> str:
        """The id of the entry in the stream."""
        return f"{self.log}-{self.entry}"

    def comment(self) -> bytes:
        return f"#> {self.id} {self.taken} {self.chain}\n".encode()


def chain_after(chain: str, lines: bytes) -> str:
    """The chain of the entry with these lines after one with this chain."""
    return hashlib.blake2b(chain.encode() + lines, digest_size=_SIZE).hexdigest()
