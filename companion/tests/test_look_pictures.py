"""The pictures of the documents are what the example of a fleet gives."""

from pathlib import Path

from pictures import PICTURES, made_pictures


def test_pictures_are_those_of_the_example(program: Path, tmp_path: Path) -> None:
    for name, text in made_pictures(program, tmp_path).items():
        assert (PICTURES / name).read_text(encoding="utf-8") == text, f"{name}: tests/pictures.py makes it anew"
