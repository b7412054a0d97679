"""File names: what a client must refuse itself, since with them the program ends and loses all that it holds."""

import os
import stat
from pathlib import Path

from fleet.errors import FleetError
from fleet.tokens import Token
from fleet.words import FILE_LIMIT, NAME_LIMIT

_MOST_TOKENS = 4
"""One more than the tokens of any command that names a file."""


class BadName(FleetError, ValueError):
    """A file name with which the program would end; `cause` says why. Nothing was sent."""

    def __init__(self, name: str, cause: str) -> None:
        super().__init__(f'the file name "{name}" {cause}, so nothing was sent')
        self.name = name
        self.cause = cause


def check_line(line: list[Token], directory: Path) -> None:
    """Raises BadName where the line is a `save`, `import` or `export` with which the program would end.

    A line that the program refuses before it asks for a file passes: it loses nothing.
    """
    match [(token.kind, token.value) for token in line[:_MOST_TOKENS]]:
        case [("word", "save"), ("text", name)] | [("word", "export"), ("name", _), ("text", name)]:
            writes = True
        case [("word", "import"), ("name", _), ("text", name)]:
            writes = False
        case _:
            return
    if len(name) <= NAME_LIMIT and name.isascii() and name.isprintable():
        check_name(name, directory, writes=writes)


def check_name(name: str, directory: Path, *, writes: bool) -> None:
    """Raises BadName where the name is that of no file which the program can write, or read, in the folder.

    A file that isn't there is none to be told here: it is written, or the program says that it isn't there.
    """
    if not name or name in (".", ".."):
        raise BadName(name, "names no file")
    if "/" in name:
        raise BadName(name, "has a slash, and only files of the program's own folder are read and written")
    path = directory / name
    try:
        found = path.stat()
    except (FileNotFoundError, ValueError):
        if writes and not os.access(directory, os.W_OK):
            raise BadName(name, "is in a folder that can't be written to") from None
        return
    except OSError as error:
        raise BadName(name, f"can't be used: {error.strerror}") from None
    _check_found(name, path, found, writes)


def _check_found(name: str, path: Path, found: os.stat_result, writes: bool) -> None:
    if stat.S_ISDIR(found.st_mode):
        raise BadName(name, "is that of a folder")
    if not stat.S_ISREG(found.st_mode):
        raise BadName(name, "is that of something other than a file")
    if not os.access(path, os.W_OK if writes else os.R_OK):
        raise BadName(name, "is that of a file that can't be " + ("written" if writes else "read"))
    if not writes and found.st_size > FILE_LIMIT:
        raise BadName(name, f"is that of a file of more than {FILE_LIMIT:,} bytes")
