"""`fleet from nmea`: the RMC sentences of receivers, each with a place, a speed and a course. Needs pynmea2."""

import argparse
import math
import re
from collections.abc import Iterator
from datetime import date, datetime, time
from pathlib import Path
from typing import Any

import pynmea2

from fleet.tokens import read_lines
from fleet.ways.commands import class_of
from fleet.ways.faults import Faults, Unfit, Where, counted
from fleet.ways.fields import Told
from fleet.ways.inputs import STANDARD_INPUT, BadFile, Base, opened
from fleet.ways.measures import micros
from fleet.ways.projection import check_point
from fleet.ways.reports import Report, write_reports

KNOT = 1852 / 3600
"""The metres a second of a knot."""
_STANDING = 1.0
"""The knots up to which a receiver that tells no course counts as standing: many tell none then."""
_SENTENCE = re.compile(rb"[$!][A-Z0-9]+,")
_WANTED = re.compile(rb"\$[A-Z]{2}RMC,")


def run(arguments: argparse.Namespace, faults: Faults) -> None:
    """Reads the files and writes their lines."""
    receivers = [(file, _identifier(file, arguments)) for file in arguments.file]
    with Base.of(arguments, arguments.file[0], faults) as base:
        its_class = class_of(arguments.class_name, base.schema)
        reports = (report for file, identifier in receivers for report in _reports(file, identifier, faults))
        write_reports(reports, base, its_class, arguments)


def _identifier(file: str, arguments: argparse.Namespace) -> str:
    """Whose reports a file has: what the option says, else the file's name without its ending. Raises BadFile."""
    if arguments.name is not None and len(arguments.file) > 1:
        raise BadFile("--name names the object of one file, and not of several")
    if arguments.name is None and file == STANDARD_INPUT:
        raise BadFile("--name says whose reports standard input has")
    return Path(file).stem if arguments.name is None else str(arguments.name)


def _reports(file: str, identifier: str, faults: Faults) -> Iterator[Report]:
    """The reports of a file; faulty sentences are told and left out."""
    count = without_fix = 0
    with opened(file) as stream:
        for number, line in enumerate(read_lines(stream), 1):
            where = Where(f"{file}:{number}")
            try:
                sentence = _sentence(line.strip())
                if sentence is None:
                    continue
                count += 1
                if sentence.status == "V":
                    without_fix += 1
                else:
                    yield _report(sentence, identifier, where)
            except Unfit as unfit:
                faults.add(where, unfit)
    if without_fix:
        faults.note(f"{file}: {counted(without_fix, 'sentence')} without a fix left out")
    if not count:
        faults.note(f"{file} has no RMC sentence")


def _sentence(line: bytes) -> Any:
    """The RMC sentence of a line; None where the line has another sentence, or nothing. Raises Unfit."""
    if not line or (_SENTENCE.match(line) and not _WANTED.match(line)):
        return None
    if not _WANTED.match(line):
        raise Unfit("this is no sentence of NMEA")
    try:
        return pynmea2.parse(line.decode("ascii"), check=True)
    except pynmea2.ChecksumError:
        raise Unfit("its checksum isn't right") from None
    except (pynmea2.ParseError, UnicodeDecodeError):
        raise Unfit("this is no sentence of NMEA") from None


def _report(sentence: Any, identifier: str, where: Where) -> Report:
    if sentence.status != "A" or sentence.lat_dir not in ("N", "S") or sentence.lon_dir not in ("E", "W"):
        raise Unfit("it has no place")
    try:
        lon, lat = sentence.longitude, sentence.latitude
    except (AttributeError, ValueError):
        raise Unfit("its place isn't in degrees and minutes") from None
    check_point(lon, lat)
    day, hour = sentence.datestamp, sentence.timestamp
    if not isinstance(day, date) or not isinstance(hour, time):
        raise Unfit("it has no date and time")
    speed, course = (_number(value) for value in (sentence.spd_over_grnd, sentence.true_course))
    if speed is not None and course is None:
        if speed > _STANDING:
            raise Unfit("it has a speed and no course")
        speed = course = 0.0
    speed = None if speed is None else speed * KNOT
    return Report(identifier, where, lon, lat, Told(micros(datetime.combine(day, hour)), speed, course))


def _number(value: Any) -> float | None:
    if value is None:
        return None
    if not isinstance(value, float) or not 0 <= value < math.inf:
        raise Unfit("its speed or its course is no number")
    return value
