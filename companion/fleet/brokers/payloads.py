"""Messages as reports: an object of JSON, whose properties are read as the columns of a csv are."""

import json
from typing import Any, NoReturn

from fleet.csvs import shown
from fleet.errors import FleetError
from fleet.schema import ObjectClass
from fleet.ways.faults import Unfit, Where
from fleet.ways.fields import MOTION, Columns
from fleet.ways.projection import check_point
from fleet.ways.reports import Report

MOST_BYTES = 16_384
"""The most bytes of a message."""


def report_of(
    payload: bytes, where: Where, identifier: str, columns: Columns, its_class: ObjectClass
) -> Report:
    """The report that a message is; `identifier` is the id of one that has none. Raises Unfit."""
    properties = _properties(payload)
    texts = {title: _text(value) for title, value in properties.items() if _is_plain(value)}
    parts = {part: title for part, title in columns.part_titles(properties).items() if title in properties}
    motion = [part for part in MOTION if part in parts]
    if len(motion) == 1:
        del parts[motion[0]]
    for part in ("lon", "lat"):
        if part not in parts:
            raise Unfit(f"it has no property {columns.parts.get(part, part)}")
    try:
        attributes = columns.attribute_titles(its_class, properties, parts.values())
    except FleetError as error:
        raise Unfit(str(error)) from None
    for title in (*parts.values(), *(each for each in attributes.values() if each in properties)):
        if title not in texts:
            raise Unfit(f"its property {shown(title)} is neither a number nor a text")
    lon, lat = (float(columns.number(parts[part], texts[parts[part]], part)) for part in ("lon", "lat"))
    check_point(lon, lat)
    told = columns.told(parts, texts)
    settings = columns.settings(its_class, attributes, texts)
    named = texts[parts["id"]].strip() if "id" in parts else ""
    return Report(named or identifier, where, lon, lat, told, settings)


def _properties(payload: bytes) -> dict[str, Any]:
    if len(payload) > MOST_BYTES:
        raise Unfit(f"it has more than {MOST_BYTES:,} bytes")
    try:
        # Numbers stay as they are written, so that none is rounded before it is to be.
        found = json.loads(payload.decode("utf-8"), parse_float=str, parse_int=str, parse_constant=_refuse)
    except (ValueError, RecursionError):
        raise Unfit(f"it is no JSON: {shown(payload[:100].decode('utf-8', 'replace'))}") from None
    if not isinstance(found, dict):
        raise Unfit("it is no object of JSON")
    return found


def _refuse(text: str) -> NoReturn:
    raise ValueError(text)


def _is_plain(value: Any) -> bool:
    return value is None or isinstance(value, str)


def _text(value: Any) -> str:
    return "" if value is None else str(value)
