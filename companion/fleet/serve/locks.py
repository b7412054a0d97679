"""Locks on folders, which end with the process that holds them."""

import fcntl
import os
from pathlib import Path

from fleet.errors import FleetError


class FolderInUse(FleetError):
    """Another server uses the folder."""


def lock(path: Path, folder: Path) -> int:
    """Locks a file, which is made where it isn't there, or a folder, and gives what is closed to let go of it.

    Raises FolderInUse, with the name of the folder that the lock is for, and OSError.
    """
    flags = os.O_RDONLY | os.O_DIRECTORY if path.is_dir() else os.O_RDWR | os.O_CREAT
    descriptor = os.open(path, flags, 0o600)
    try:
        fcntl.flock(descriptor, fcntl.LOCK_EX | fcntl.LOCK_NB)
    except BlockingIOError:
        os.close(descriptor)
        raise FolderInUse(f"another server uses the folder {folder}") from None
    return descriptor
