"""Cuts a polygon into convex parts whose corners are all its own, so that nothing of its area is lost or added.

Coordinates are whole numbers, and nothing is rounded: what is found convex here the program finds convex.
"""

from collections import deque
from collections.abc import Iterator, Sequence

Point = tuple[int, int]
Ring = list[Point]


def turn(a: Point, b: Point, c: Point) -> int:
    """Twice the area of the triangle, positive where c lies on the left of the way from a to b."""
    return (b[0] - a[0]) * (c[1] - a[1]) - (b[1] - a[1]) * (c[0] - a[0])


def double_area(ring: Sequence[Point]) -> int:
    """Twice the area within a ring, negative where it goes round clockwise."""
    return sum(a[0] * b[1] - b[0] * a[1] for a, b in zip(ring, [*ring[1:], *ring[:1]]))


def corners(ring: Sequence[Point]) -> Ring:
    """The ring counterclockwise, without points at which it doesn't turn: repeated ones, those in the middle of a side,
    and the ends of spikes without width. Empty where nothing is left."""
    found: deque[Point] = deque()
    for point in ring if double_area(ring) > 0 else [*ring[:1], *ring[:0:-1]]:
        while len(found) > 1 and turn(found[-2], found[-1], point) == 0:
            found.pop()
        if not found or point != found[-1]:
            found.append(point)
    while len(found) > 2:
        if turn(found[-2], found[-1], found[0]) == 0:
            found.pop()
        elif turn(found[-1], found[0], found[1]) == 0:
            found.popleft()
        else:
            return list(found)
    return []


def is_convex(ring: Sequence[Point]) -> bool:
    """Whether a ring that goes round once, counterclockwise, turns to the left or not at all at each of its points."""
    return all(turn(a, b, c) >= 0 for a, b, c in zip([ring[-1], *ring], ring, [*ring[1:], ring[0]]))


def convex_parts(ring: Ring, most: int) -> list[Ring]:
    """Convex parts of a ring as `corners` gives it, whose sides don't cross, each of at most `most` points."""
    if is_convex(ring):
        return list(_fans(ring, most))
    return [corners(part) for part in _merged(ring, _triangles(ring), most)]


def _fans(ring: Ring, most: int) -> Iterator[Ring]:
    """A convex ring cut along lines from its first point."""
    for first in range(1, len(ring) - 1, most - 2):
        yield [ring[0], *ring[first : first + most - 1]]


def _triangles(ring: Ring) -> list[tuple[int, int, int]]:
    """Triangles of the numbers of points: ears, cut off one after the other."""
    chain = _Chain(ring)
    found, at, tried = [], 0, 0
    while chain.count > 3:
        if chain.is_ear(at):
            found.append((chain.before[at], at, chain.after[at]))
            chain.cut_off(at)
            # The next ear is looked for a point further on, so that the triangles don't all meet in one point.
            at, tried = chain.after[chain.after[at]], 0
        else:
            at, tried = chain.after[at], tried + 1
        if tried > chain.count:
            raise ValueError("the sides of the ring cross")
    return [*found, (chain.before[at], at, chain.after[at])]


class _Chain:
    """The points of a ring that are left, by their numbers, each with those before and after it."""

    def __init__(self, ring: Ring) -> None:
        self._ring = ring
        self.count = len(ring)
        self.before = [number - 1 for number in range(self.count)]
        self.before[0] = self.count - 1
        self.after = [*range(1, self.count), 0]
        self._inward = {number for number in range(self.count) if self._turn(number) <= 0}

    def is_ear(self, at: int) -> bool:
        """Whether a point and its neighbours make a triangle with area and no other point in it or on it. Where there
        is one, one of those points is that don't turn to the left."""
        if at in self._inward:
            return False
        before, after = self.before[at], self.after[at]
        a, b, c = self._ring[before], self._ring[at], self._ring[after]
        low_x, _, high_x = sorted((a[0], b[0], c[0]))
        low_y, _, high_y = sorted((a[1], b[1], c[1]))
        for number in self._inward:
            point = self._ring[number]
            if low_x <= point[0] <= high_x and low_y <= point[1] <= high_y and number not in (before, after):
                if turn(a, b, point) >= 0 and turn(b, c, point) >= 0 and turn(c, a, point) >= 0:
                    return False
        return True

    def cut_off(self, at: int) -> None:
        """Takes a point away."""
        before, after = self.before[at], self.after[at]
        self.after[before], self.before[after] = after, before
        self.count -= 1
        self._inward -= {number for number in (before, after) if self._turn(number) > 0}

    def _turn(self, at: int) -> int:
        return turn(*(self._ring[number] for number in (self.before[at], at, self.after[at])))


def _merged(ring: Ring, triangles: list[tuple[int, int, int]], most: int) -> list[Ring]:
    """The triangles, put together across their common sides, the longest first, where what comes of it is convex."""
    parts: dict[int, list[int]] = {number: list(triangle) for number, triangle in enumerate(triangles)}
    owners = {side: number for number, part in parts.items() for side in _sides(part)}
    shared = [(a, b) for a, b in owners if a < b and (b, a) in owners]
    for a, b in sorted(shared, key=lambda side: (-_length(ring[side[0]], ring[side[1]]), side)):
        one, other = owners[(a, b)], owners[(b, a)]
        joined = _joined(parts[one], parts[other], a, b)
        if len(joined) <= most and is_convex([ring[number] for number in joined]):
            parts[one] = joined
            owners |= dict.fromkeys(_sides(joined), one)
            del parts[other]
    return [[ring[number] for number in part] for part in parts.values()]


def _sides(part: list[int]) -> Iterator[tuple[int, int]]:
    yield from zip(part, [*part[1:], part[0]])


def _joined(one: list[int], other: list[int], a: int, b: int) -> list[int]:
    """Two parts of which one goes from a to b and the other from b to a, without that side."""
    first, second = one.index(b), other.index(a)
    return [*one[first:], *one[:first], *[*other[second:], *other[:second]][1:-1]]


def _length(a: Point, b: Point) -> int:
    return (a[0] - b[0]) ** 2 + (a[1] - b[1]) ** 2
