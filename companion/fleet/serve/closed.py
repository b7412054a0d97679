"""The log of a server read as a session, whether the server runs or not. Nothing is written or locked."""

import re
from io import BytesIO
from pathlib import Path
from typing import BinaryIO

from fleet.errors import FleetError
from fleet.serve.records import FIRST, FORM, read_log
from fleet.session_text import END

_LOG = re.compile(r"log-[0-9]{8}")


class NoLog(FleetError):
    """The folder has no log, or one that can't be followed."""


def last_log(folder: Path) -> Path:
    """The log with the highest number, which is the one that counts. Raises NoLog."""
    try:
        found = [path for path in folder.iterdir() if _LOG.fullmatch(path.name)]
    except OSError as error:
        raise NoLog(f"{folder} can't be read: {error.strerror}") from None
    if not found:
        raise NoLog(f"{folder} has no log of a server")
    return max(found, key=lambda path: path.name)


def open_session(path: Path) -> BinaryIO:
    """The text of a saved session; of the log of a server, by its folder or its file, as far as it was written whole.

    Raises OSError, NoLog and DamagedLog.
    """
    if path.is_dir():
        path = last_log(path)
    file = path.open("rb")
    try:
        is_log = file.read(len(FIRST + FORM)) == FIRST + FORM
        file.seek(0)
        if not is_log:
            return file
        text = file.read(read_log(path).size)
    except BaseException:
        file.close()
        raise
    file.close()
    return BytesIO(text + END + b"\n")
