"""The pictures of the documents, made from the example of a fleet. As a script it writes them."""

import contextlib
import io
import sys
import tempfile
from pathlib import Path

from conftest import TOP
from fleet import cli
from fleet.program import find_program
from sessions import example_session

PICTURES = TOP / "docs" / "pictures"
_WORDS = {
    "map.svg": ["map", "--at", "80", "--query", "town", "--back", "60", "--width", "640"],
    "timeline.svg": ["timeline", "--at", "80", "--svg", "--width", "800"],
}


def made_pictures(program: Path, folder: Path) -> dict[str, str]:
    """The text of each picture, by its name."""
    session = example_session(program, folder)
    made = {}
    for name, (kind, *words) in _WORDS.items():
        written = io.BytesIO()
        with contextlib.redirect_stdout(io.TextIOWrapper(written, encoding="utf-8")) as output:
            assert cli.main(["look", kind, str(session), *words]) == 0
        made[name] = written.getvalue().decode()
        output.close()
    return made


def main() -> int:
    """Writes the pictures."""
    PICTURES.mkdir(exist_ok=True)
    with tempfile.TemporaryDirectory() as folder:
        for name, text in made_pictures(find_program(), Path(folder)).items():
            (PICTURES / name).write_text(text, encoding="utf-8")
    return 0


if __name__ == "__main__":
    sys.exit(main())
