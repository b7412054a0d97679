"""Builds the package, and puts the manual of the language into it, which lies in the repository's docs."""

from pathlib import Path

from setuptools import setup
from setuptools.command.build_py import build_py

MANUAL = Path(__file__).resolve().parent.parent / "docs" / "LANGUAGE.md"


class BuildWithManual(build_py):
    """Builds the modules, and copies the manual beside them."""

    def run(self) -> None:
        super().run()
        self.copy_file(str(MANUAL), str(Path(self.build_lib, "fleet", MANUAL.name)))


setup(cmdclass={"build_py": BuildWithManual})
