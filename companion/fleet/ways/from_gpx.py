"""`fleet from gpx`: tracks as motions with legs, the clock going on from one to the next. Needs gpxpy."""

import argparse
from collections.abc import Iterator
from pathlib import Path
from typing import Any

import gpxpy
import gpxpy.gpx

from fleet.csvs import shown
from fleet.ways import tracks
from fleet.ways.commands import Writer, class_of
from fleet.ways.faults import Faults, Unfit, Where, counted
from fleet.ways.inputs import STANDARD_INPUT, BadFile, Base, text_of
from fleet.ways.measures import micros
from fleet.ways.tracks import Known, Track, TrackPoint, Way, known_places, stops


def run(arguments: argparse.Namespace, faults: Faults) -> None:
    """Reads the files and writes their lines."""
    with Base.of(arguments, arguments.file[0], faults) as base:
        its_class = class_of(arguments.class_name, base.schema)
        found = [track for file in arguments.file for track in _tracks(file, arguments.name, faults)]
        if not found:
            return
        projection = base.projection((point.lon, point.lat) for track in found for point in track.points)
        known = [(track.identifier, list(known_places(track.points, projection, faults))) for track in found]
        ways = _ways(known, arguments.start, arguments.tick, faults)
        made = tracks.in_order(ways, goes_on=arguments.go_on, faults=faults)
        base.write(tracks.lines(made, Writer(base.schema, its_class, base.names), faults))


def _ways(known: list[tuple[str, list[Known]]], start: int | None, tick: int, faults: Faults) -> Iterator[Way]:
    """The ways in ticks from the time of the first point on, or from `start`."""
    times = [places[0].time for _, places in known if places]
    first = start if start is not None or not times else min(times)
    early = 0
    for identifier, places in known:
        way = stops(places, first or 0, tick) if places else []
        early += bool(places) and not way
        if way:
            yield Way(identifier, way)
    if early:
        faults.note(f"{counted(early, 'track')} that end before the start left out")


def _tracks(file: str, name: str | None, faults: Faults) -> Iterator[Track]:
    """The segments of the tracks of a file, each a track of its own; points without a time are told and left out."""
    document = _document(file)
    for kind, left in (("route", document.routes), ("waypoint", document.waypoints)):
        if left:
            faults.note(f"{file}: {counted(len(left), kind)} left out: only tracks have times")
    for number, track in enumerate(document.tracks, 1):
        identifier = name or (track.name or "").strip() or _unnamed(file, number, len(document.tracks))
        for segment_number, segment in enumerate(track.segments, 1):
            text = f"{file}: track {number} ({shown(identifier)})"
            text += f", segment {segment_number}" if len(track.segments) > 1 else ""
            points = list(_points(segment.points, text, faults))
            if points:
                yield Track(identifier, points)


def _unnamed(file: str, number: int, count: int) -> str:
    """The id of a track that says none."""
    stem = "track" if file == STANDARD_INPUT else Path(file).stem
    return stem if count == 1 else f"{stem}_{number}"


def _points(points: Any, text: str, faults: Faults) -> Iterator[TrackPoint]:
    for number, point in enumerate(points, 1):
        where = Where(f"{text}, point {number}")
        if point.time is None:
            faults.add(where, Unfit("it has no time"))
        else:
            yield TrackPoint(point.longitude, point.latitude, micros(point.time), where)


def _document(file: str) -> Any:
    text = text_of(file)
    if "<!DOCTYPE" in text:
        # Its entities could name other files, or be larger than any memory.
        raise BadFile(f"{file} is no GPX: it has a document type of its own")
    try:
        return gpxpy.parse(text)
    except (gpxpy.gpx.GPXException, ValueError, TypeError, AttributeError, LookupError, RecursionError) as error:
        raise BadFile(f"{file} is no GPX: {error}") from None
