"""Makes one file of a page: its text, its style, its scripts and its data, and leave to load nothing else."""

import base64
import hashlib
import html
import json
import re
from collections.abc import Iterable, Mapping
from dataclasses import dataclass, field
from pathlib import Path
from typing import Any

FOLDER = Path(__file__).parent
"""Where the parts of pages lie."""
SCRIPTS = ("sheet.js", "drawing.js", "map.js", "motion.js", "recording.js", "play.js")
"""The scripts of each page, each after those that it uses."""
STYLES = ("base.css", "page.css")

_EXPORT = re.compile(r"^export (?=(?:async function|function|const|class) ([A-Za-z_$][\w$]*))", re.MULTILINE)
_IMPORT = re.compile(r'^import \{([^}]*)\} from "\./([a-z]+)\.js";$', re.MULTILINE)
_PLACE = re.compile(r"\{([a-z]+)\}")


@dataclass(frozen=True, slots=True)
class Parts:
    """What a page is made of beside its data: the names of its scripts, texts of styles and of scripts that aren't the
    page's own, and sources of a content security policy from which it may load more, by their directives.

    Without such sources it can't reach the network.
    """

    scripts: tuple[str, ...]
    styles: tuple[str, ...] = ()
    libraries: tuple[str, ...] = ()
    sources: Mapping[str, str] = field(default_factory=dict)


def page(title: str, about: str, data: dict[str, Any], parts: Parts) -> str:
    """The text of the page."""
    style, script = "".join([*parts.styles, *map(part, STYLES)]), bundled(parts.scripts)
    assert not any("</script" in library.lower() or "<!--" in library for library in parts.libraries)
    sources = {
        "script-src": " ".join(map(_hash, [*parts.libraries, script])),
        "style-src": _hash(style), "img-src": "data:",
    }  # fmt: skip
    for directive, more in parts.sources.items():
        sources[directive] = f"{sources.get(directive, '')} {more}".strip()
    policy = "; ".join(["default-src 'none'", *(f"{name} {value}" for name, value in sources.items())])
    values = {
        "policy": html.escape(policy), "title": html.escape(title), "about": html.escape(about),
        "style": style, "script": script, "recording": _json(data),
        "libraries": "".join(f"<script>{library}</script>\n" for library in parts.libraries),
    }  # fmt: skip
    return _PLACE.sub(lambda match: values[match.group(1)], part("page.html"))


def part(name: str) -> str:
    """A part of the page as it lies in its file."""
    return (FOLDER / name).read_text(encoding="utf-8")


def bundled(names: Iterable[str]) -> str:
    """One script of several modules: each is a function that gives what the module exports."""
    parts = []
    for name in names:
        text = part(name)
        exported = ", ".join(_EXPORT.findall(text))
        inner = _IMPORT.sub(lambda match: f"const {{{match.group(1)}}} = {match.group(2)}_js;", _EXPORT.sub("", text))
        parts.append(f"const {name.replace('.', '_')} = (() => {{\n{inner}return {{ {exported} }};\n}})();\n")
    script = "\n" + "\n".join(parts)
    assert "</script" not in script.lower() and "<!--" not in script
    return script


def _hash(text: str) -> str:
    return f"'sha256-{base64.b64encode(hashlib.sha256(text.encode()).digest()).decode()}'"


def _json(data: dict[str, Any]) -> str:
    """The data in JSON, which nothing in it can end as part of a page."""
    text = json.dumps(data, separators=(",", ":"), ensure_ascii=True)
    return text.replace("<", "\\u003c")
