"""The process that works a roll out beside the server.

Its words are the log, how many bytes of it are rolled, and the file that the rolled commands are written to, a line for
each. What became of the log it writes to standard output, as JSON.
"""

import json
import os
import sys
from pathlib import Path

from fleet.roll import Changes, rolled
from fleet.serve.records import commands_from


def main(log: str, size: str, to: str) -> None:
    """Rolls the first bytes of a log."""
    os.nice(5)
    try:
        told, commands = rolled(commands_from(Path(log), 0, int(size)), Changes())
        with open(to, "w", encoding="ascii") as file:
            file.writelines(f"{command}\n" for command in commands)
    except OSError as error:
        sys.exit(str(error))
    print(json.dumps(told.json()))


if __name__ == "__main__":
    main(*sys.argv[1:])
