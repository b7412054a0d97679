// Whether points fit a circle, by the smallest circle around them: it has two of the points as the ends of a
// diameter, or it goes through three of them. All sides are looked at first, so that products stay below 2^127.
type Point = (i128, i128);

fn square(p: Point, q: Point) -> i128 {
    (p.0 - q.0) * (p.0 - q.0) + (p.1 - q.1) * (p.1 - q.1)
}

fn cross(a: Point, b: Point, c: Point) -> i128 {
    (b.0 - a.0) * (c.1 - a.1) - (b.1 - a.1) * (c.0 - a.0)
}

/// Whether p is in the circle, its border counted, that has a and b as the ends of a diameter.
fn is_over_diameter(a: Point, b: Point, p: Point) -> bool {
    (a.0 - p.0) * (b.0 - p.0) + (a.1 - p.1) * (b.1 - p.1) <= 0
}

/// Whether p is in the circle, its border counted, through three points that aren't on one line.
fn is_in_circle_through(a: Point, b: Point, c: Point, p: Point) -> bool {
    let [a2, b2, c2] = [a, b, c].map(|q| (q.0 - p.0, q.1 - p.1, square(q, p)));
    let determinant =
        a2.0 * (b2.1 * c2.2 - b2.2 * c2.1) - a2.1 * (b2.0 * c2.2 - b2.2 * c2.0) + a2.2 * (b2.0 * c2.1 - b2.1 * c2.0);
    determinant * cross(a, b, c).signum() >= 0
}

/// Whether the circle through three points that aren't on one line has a radius of at most r.
fn is_at_most(r: i128, a: Point, b: Point, c: Point) -> bool {
    let double_area = cross(a, b, c);
    square(a, b) * square(b, c) * square(c, a) <= 4 * r * r * double_area * double_area
}

/// Whether some circle of radius r has all points in it or on its border.
pub fn fits(r: i128, points: &[Point]) -> bool {
    let pairs = || points.iter().enumerate().flat_map(|(i, p)| points[..i].iter().map(move |q| (*p, *q)));
    if pairs().any(|(p, q)| square(p, q) > 4 * r * r) {
        return false;
    }
    if points.len() == 1 || pairs().any(|(p, q)| points.iter().all(|other| is_over_diameter(p, q, *other))) {
        return true;
    }
    pairs().any(|(p, q)| {
        points.iter().any(|s| {
            cross(p, q, *s) != 0
                && is_at_most(r, p, q, *s)
                && points.iter().all(|other| is_in_circle_through(p, q, *s, *other))
        })
    })
}
