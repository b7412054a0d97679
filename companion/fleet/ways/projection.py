"""Longitude and latitude to places on a plane, and back. Needs pyproj."""

import functools
import math
from collections.abc import Sequence

import pyproj
from pyproj import CRS
from pyproj.aoi import AreaOfInterest
from pyproj.database import query_utm_crs_info
from pyproj.exceptions import CRSError
from pyproj.network import set_network_enabled  # type: ignore[attr-defined]  # its annotations leave it out

from fleet.ways.faults import Unfit
from fleet.ways.planes import SOUTH_NORTH, WEST_EAST, Local, Plane, PlaneFault, Zone, degrees_text

WORST_SCALE = 0.01
"""A place is out of a plane's range where lengths on the plane are wrong there by more than this part of them."""
_STEP = 10.0
"""So many metres ahead of a place its directions on the plane are taken."""
_LON_LAT = "EPSG:4326"
_EARTH = pyproj.Geod(ellps="WGS84")

# What the projections need is on this machine: nothing is fetched.
set_network_enabled(False)


class Projection:
    """The projection of a plane. Places are thousandths of a metre, longitude and latitude degrees of WGS 84.

    Raises PlaneFault where the zone isn't known, or isn't one of metres.
    """

    def __init__(self, plane: Plane) -> None:
        self.plane = plane
        crs = _crs(plane)
        self.name: str = crs.name
        self._project = pyproj.Transformer.from_crs(_LON_LAT, crs, always_xy=True)
        scales = functools.partial(_scales, pyproj.Proj(crs))
        self._scales = functools.lru_cache(maxsize=65_536)(scales)

    def place(self, lon: float, lat: float) -> tuple[int, int]:
        """The place of a point, rounded. Raises Unfit where it is out of range."""
        return self.places([(lon, lat)])[0]

    def places(self, points: Sequence[tuple[float, float]]) -> list[tuple[int, int]]:
        """The places of points, as `place` gives them. Raises Unfit at the first that is out of range."""
        for lon, lat in points:
            check_point(lon, lat)
        lons, lats = zip(*points)
        xs, ys = self._project.transform(lons, lats)
        for lon, lat in points:
            self._check(lon, lat)
        return [(round(x * 1000), round(y * 1000)) for x, y in zip(xs, ys)]

    def point(self, x: float, y: float) -> tuple[float, float]:
        """The longitude and latitude of a place. Raises Unfit where it is out of range."""
        lon, lat = self._project.transform(x / 1000, y / 1000, direction="INVERSE")
        if not (math.isfinite(lon) and math.isfinite(lat)):
            raise Unfit(f"({x / 1000:.3f},{y / 1000:.3f}) is no place of {self.plane}")
        self._check(lon, lat)
        return lon, lat

    def velocity(self, lon: float, lat: float, speed: float, course: float) -> tuple[float, float]:
        """The metres a second along both axes of the plane, of a speed in metres a second and a course in degrees from
        the true north to the east. Raises Unfit."""
        check_point(lon, lat)
        self._check(lon, lat)
        ahead_lon, ahead_lat, _ = _EARTH.fwd(lon, lat, course, _STEP)
        xs, ys = self._project.transform((lon, ahead_lon), (lat, ahead_lat))
        return (xs[1] - xs[0]) / _STEP * speed, (ys[1] - ys[0]) / _STEP * speed

    def speed_and_course(self, x: float, y: float, along_x: float, along_y: float) -> tuple[float, float]:
        """The speed, in what the velocity is given in, and the course of a velocity on the plane. Raises Unfit."""
        size = math.hypot(along_x, along_y)
        if size == 0:
            return 0.0, 0.0
        step = _STEP * 1000 / size
        course, _, length = _EARTH.inv(*self.point(x, y), *self.point(x + along_x * step, y + along_y * step))
        return size * length / _STEP, course % 360

    def _check(self, lon: float, lat: float) -> None:
        """Raises Unfit where the plane isn't made for a point."""
        if not all(abs(scale - 1) <= WORST_SCALE for scale in self._scales(round(lon, 1), round(lat, 1))):
            where = f"{degrees_text(lon)},{degrees_text(lat)}"
            raise Unfit(f"{where} is out of the range of {self.plane}: lengths there are wrong by more than 1 in 100")


def check_point(lon: float, lat: float) -> None:
    """Raises Unfit where the degrees aren't those of a point."""
    for name, degrees, most in (("longitude", lon, WEST_EAST), ("latitude", lat, SOUTH_NORTH)):
        if not abs(degrees) <= most:
            raise Unfit(f"the {name} {degrees:g} is out of range: -{most} to {most}", name[:3])


def zone_for(lon: float, lat: float) -> Zone:
    """The zone of UTM in which a point lies. Raises PlaneFault where there is none, near the poles."""
    found = query_utm_crs_info("WGS 84", AreaOfInterest(lon, lat, lon, lat))
    if not found:
        raise PlaneFault(f"no zone of UTM has {degrees_text(lon)},{degrees_text(lat)}: --local names a plane")
    return Zone(min(int(each.code) for each in found))


def _crs(plane: Plane) -> CRS:
    if isinstance(plane, Local):
        return CRS(f"+proj=aeqd +lon_0={plane.lon:.9f} +lat_0={plane.lat:.9f} +datum=WGS84 +units=m")
    try:
        crs = CRS(str(plane))
    except CRSError:
        raise PlaneFault(f"{plane} isn't known") from None
    if not crs.is_projected or len(crs.axis_info) != 2 or any(axis.unit_name != "metre" for axis in crs.axis_info):
        raise PlaneFault(f"{plane}, {crs.name}, is no plane of metres")
    return crs


def _scales(projection: pyproj.Proj, lon: float, lat: float) -> tuple[float, float]:
    """The largest and the least scale of lengths at a point."""
    factors = projection.get_factors(lon, lat)
    return factors.tissot_semimajor, factors.tissot_semiminor
