"""The faults that end a word of the command, each with the exit status that it gives."""


class FleetError(Exception):
    """A fault that is told in one line on standard error; `exit_status` is what the command ends with."""

    exit_status: int = 1
