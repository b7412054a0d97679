"""`fleet from csv`: rows with longitude and latitude, and what else they tell of an object, as inserts and updates."""

import argparse
import csv
import io
import sys
from collections.abc import Iterator, Sequence
from typing import BinaryIO, NamedTuple

from fleet.csvs import shown
from fleet.schema import ObjectClass
from fleet.ways.commands import class_of
from fleet.ways.faults import Faults, Unfit, Where
from fleet.ways.fields import BadColumns, Columns
from fleet.ways.inputs import BadFile, Base, opened
from fleet.ways.projection import check_point
from fleet.ways.reports import Report, write_reports

NEEDED = ("id", "lon", "lat")


class Row(NamedTuple):
    """A row and the line at which it begins, from 1."""

    line: int
    fields: list[str]


def run(arguments: argparse.Namespace, faults: Faults) -> None:
    """Reads the file and writes its lines."""
    file = arguments.file
    with Base.of(arguments, file, faults) as base, opened(file) as stream:
        its_class = class_of(arguments.class_name, base.schema)
        try:
            rows = _rows(stream, arguments.encoding, arguments.delimiter)
            header = next(rows, None)
            if header is None:
                raise BadFile(f"{file} is empty: its first row has the titles of the columns")
            reader = Reader(file, header.fields, Columns.of(arguments), its_class, faults)
            write_reports(reader.reports(rows), base, its_class, arguments)
        except UnicodeDecodeError as error:
            raise BadFile(f"{file} isn't in {error.encoding}: --encoding says in what it is") from None
        except csv.Error as error:
            raise BadFile(f"{file} is no csv: {error}") from None


class Reader:
    """Makes reports of rows. Raises BadColumns where a column isn't there that is needed or was named."""

    def __init__(
        self, file: str, titles: Sequence[str], columns: Columns, its_class: ObjectClass, faults: Faults
    ) -> None:
        self._file = file
        self._titles = titles
        self._columns = columns
        self._class = its_class
        self._faults = faults
        repeated = next((title for number, title in enumerate(titles) if title in titles[:number]), None)
        if repeated is not None:
            raise BadColumns(f"{file} has the column {shown(repeated)} twice")
        columns.check(titles)
        self._parts = columns.part_titles(titles)
        for part in NEEDED:
            if part not in self._parts:
                raise BadColumns(f"{file} has no column {part}; --column {part}=TITLE says which one it is")
        self._attributes = columns.attribute_titles(its_class, titles, self._parts.values())
        places = {title: number for number, title in reversed(list(enumerate(titles, 1)))}
        self._places = places | {part: places[title] for part, title in self._parts.items()}
        left = [title for title in titles if title not in (*self._parts.values(), *self._attributes.values())]
        if left:
            faults.note(f"{file}: these columns are left out: {', '.join(map(shown, left))}")

    def reports(self, rows: Iterator[Row]) -> Iterator[Report]:
        """The reports of rows; faulty ones are told and left out."""
        for row in rows:
            where = Where(f"{self._file}:{row.line}", self._places)
            try:
                if len(row.fields) != len(self._titles):
                    count = len(self._titles)
                    raise Unfit(f"the row has {len(row.fields)} fields, and the first row has {count}")
                yield self._report(where, dict(zip(self._titles, row.fields)))
            except Unfit as unfit:
                self._faults.add(where, unfit)

    def _report(self, where: Where, texts: dict[str, str]) -> Report:
        lon, lat = self._degrees("lon", texts), self._degrees("lat", texts)
        check_point(lon, lat)
        told = self._columns.told(self._parts, texts)
        settings = self._columns.settings(self._class, self._attributes, texts)
        return Report(texts[self._parts["id"]].strip(), where, lon, lat, told, settings)

    def _degrees(self, part: str, texts: dict[str, str]) -> float:
        title = self._parts[part]
        return float(self._columns.number(title, texts[title], part))


def _rows(stream: BinaryIO, encoding: str, delimiter: str) -> Iterator[Row]:
    """The rows of a csv file, each as soon as it is there. Raises csv.Error and UnicodeDecodeError."""
    csv.field_size_limit(sys.maxsize)
    reader = csv.reader(io.TextIOWrapper(stream, encoding, newline=""), delimiter=delimiter)
    line = 1
    for fields in reader:
        if fields:
            yield Row(line, fields)
        line = reader.line_num + 1
