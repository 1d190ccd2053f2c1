//! Where borders cross, exactly, on the grid.

use crate::grid::Point;
use std::cmp::Ordering;

/// A meeting of two lines of borders, each of which leads from one side of the other to its other side.
#[derive(Clone, Debug, PartialEq)]
pub struct Crossing {
    /// Whose lines they are.
    pub rings: (usize, usize),
    /// On the grid, between its points too.
    pub at: (f64, f64),
    /// From where the two lines come, and where they go.
    pub ways: [(Point, Point); 2],
}

/// An edge with the point before it.
#[derive(Clone, Copy)]
struct Edge {
    ring: usize,
    before: Point,
    from: Point,
    to: Point,
}

/// More than this is not sought in one file.
const MOST_PAIRS: usize = 200_000_000;
const MOST_CELLS: usize = 40_000_000;
const MOST_CROSSINGS: usize = 100_000;

/// Every crossing of the rings with each other and with themselves, and whether the search came to its end.
pub fn crossings(rings: &[&[Point]]) -> (Vec<Crossing>, bool) {
    let edges: Vec<Edge> = rings.iter().enumerate().flat_map(|(number, ring)| edges_of(number, ring)).collect();
    let mut met = vec![];
    let whole = each_pair(&edges, |a, b| {
        met.extend(crossing(a, b));
        met.len() < MOST_CROSSINGS
    });
    (met, whole)
}

fn edges_of(number: usize, ring: &[Point]) -> Vec<Edge> {
    let mut points = ring.to_vec();
    points.dedup();
    while points.len() > 1 && points.first() == points.last() {
        points.pop();
    }
    let count = if points.len() < 3 { 0 } else { points.len() };
    let point = |i: usize| points[i % count];
    (0..count).map(|i| Edge { ring: number, before: point(i + count - 1), from: point(i), to: point(i + 1) }).collect()
}

impl Edge {
    /// South, west, north, east.
    fn bounds(&self) -> [i32; 4] {
        [self.from.0.min(self.to.0), self.from.1.min(self.to.1), self.from.0.max(self.to.0), self.from.1.max(self.to.1)]
    }
}

/// A grid of cells over all edges, about as many as there are edges.
struct Cells {
    corner: (i64, i64),
    size: (i64, i64),
}

impl Cells {
    fn over(edges: &[Edge]) -> Cells {
        let bounds = edges.iter().map(Edge::bounds);
        let all = bounds.reduce(|a, b| [a[0].min(b[0]), a[1].min(b[1]), a[2].max(b[2]), a[3].max(b[3])]).unwrap_or_default().map(i64::from);
        let sides = (edges.len() as f64).sqrt().ceil() as i64 + 1;
        Cells { corner: (all[0], all[1]), size: ((all[2] - all[0]) / sides + 1, (all[3] - all[1]) / sides + 1) }
    }

    fn cell(&self, (lat, lon): Point) -> (i64, i64) {
        ((i64::from(lat) - self.corner.0) / self.size.0, (i64::from(lon) - self.corner.1) / self.size.1)
    }

    /// Each edge in each cell that its box meets, in the order of the cells; none where these are too many.
    fn filled(&self, edges: &[Edge]) -> Option<Vec<((i64, i64), usize)>> {
        let mut filled = vec![];
        for (number, edge) in edges.iter().enumerate() {
            let [south, west, north, east] = edge.bounds();
            let (low, high) = (self.cell((south, west)), self.cell((north, east)));
            filled.extend((low.0..=high.0).flat_map(|row| (low.1..=high.1).map(move |column| ((row, column), number))));
            if filled.len() > MOST_CELLS {
                return None;
            }
        }
        filled.sort_unstable();
        Some(filled)
    }
}

/// Every two edges whose boxes meet, once, until `each` has enough; whether it came to the end.
fn each_pair(edges: &[Edge], mut each: impl FnMut(&Edge, &Edge) -> bool) -> bool {
    let cells = Cells::over(edges);
    let Some(filled) = cells.filled(edges) else { return false };
    let mut left = MOST_PAIRS;
    let mut rest = filled.as_slice();
    while let Some(&(place, _)) = rest.first() {
        let (cell, behind) = rest.split_at(rest.iter().take_while(|(other, _)| *other == place).count());
        rest = behind;
        let pairs = cell.len() * cell.len() / 2;
        if left < pairs {
            return false;
        }
        left -= pairs;
        for (i, (_, first)) in cell.iter().enumerate() {
            // two edges may have several cells in common: they meet in that of their boxes' common corner
            let here = |other: &Edge| common_corner(&edges[*first], other).is_some_and(|corner| cells.cell(corner) == place);
            let others = cell[i + 1..].iter().map(|(_, second)| &edges[*second]);
            if !others.filter(|other| here(other)).all(|other| each(&edges[*first], other)) {
                return false;
            }
        }
    }
    true
}

/// The lower corner of what two edges' boxes have in common.
fn common_corner(a: &Edge, b: &Edge) -> Option<Point> {
    let (a, b) = (a.bounds(), b.bounds());
    let apart = a[0] > b[2] || b[0] > a[2] || a[1] > b[3] || b[1] > a[3];
    (!apart).then(|| (a[0].max(b[0]), a[1].max(b[1])))
}

/// The way from one point to another.
fn way(from: Point, to: Point) -> (i128, i128) {
    (i128::from(to.0) - i128::from(from.0), i128::from(to.1) - i128::from(from.1))
}

/// On which side of the line from `at` to `a` the point `b` is.
fn turn(at: Point, a: Point, b: Point) -> i128 {
    let (a, b) = (way(at, a), way(at, b));
    a.0 * b.1 - a.1 * b.0
}

/// Whether two points are in one direction, or in opposite ones, of those on one line.
fn along(at: Point, a: Point, b: Point) -> Ordering {
    let (a, b) = (way(at, a), way(at, b));
    (a.0 * b.0 + a.1 * b.1).cmp(&0)
}

/// Whether a point is on an edge, its ends aside.
fn is_inside(point: Point, from: Point, to: Point) -> bool {
    turn(from, to, point) == 0 && along(point, from, to) == Ordering::Less
}

/// Where two edges cross: inside both, or where one has its first point.
fn crossing(a: &Edge, b: &Edge) -> Option<Crossing> {
    let found = |at, ways| Some(Crossing { rings: (a.ring, b.ring), at, ways });
    let at_point = |at: Point, ways: [(Point, Point); 2]| alternate(at, ways).then(|| found((f64::from(at.0), f64::from(at.1)), ways)).flatten();
    let sides = [turn(b.from, b.to, a.from), turn(b.from, b.to, a.to), turn(a.from, a.to, b.from), turn(a.from, a.to, b.to)].map(i128::signum);
    if sides[0] * sides[1] < 0 && sides[2] * sides[3] < 0 {
        return found(meeting(a, b), [(a.from, a.to), (b.from, b.to)]);
    }
    if a.from == b.from {
        return at_point(a.from, [(a.before, a.to), (b.before, b.to)]);
    }
    if is_inside(b.from, a.from, a.to) {
        return at_point(b.from, [(a.from, a.to), (b.before, b.to)]);
    }
    if is_inside(a.from, b.from, b.to) {
        return at_point(a.from, [(a.before, a.to), (b.from, b.to)]);
    }
    None
}

/// Where two edges that cross inside do so.
fn meeting(a: &Edge, b: &Edge) -> (f64, f64) {
    let (start, end) = (turn(b.from, b.to, a.from) as f64, turn(b.from, b.to, a.to) as f64);
    let part = start / (start - end);
    let between = |from: i32, to: i32| f64::from(from) + part * (f64::from(to) - f64::from(from));
    (between(a.from.0, a.to.0), between(a.from.1, a.to.1))
}

/// Whether the second way through a point leads from one side of the first to its other side.
fn alternate(at: Point, [(a, b), (c, d)]: [(Point, Point); 2]) -> bool {
    matches!((seen_between(at, (a, b), c), seen_between(at, (a, b), d)), (Some(from), Some(to)) if from != to)
}

/// Whether a point is seen in the angle from one to another; none in the direction of either.
fn seen_between(at: Point, (a, b): (Point, Point), point: Point) -> Option<bool> {
    let (whole, first, second) = (turn(at, a, b), turn(at, a, point), turn(at, point, b));
    let same = |turned: i128, other: Point| turned == 0 && along(at, other, point) == Ordering::Greater;
    if same(first, a) || same(second, b) {
        return None;
    }
    match (whole.cmp(&0), along(at, a, b)) {
        (Ordering::Greater, _) => Some(first > 0 && second > 0),
        (Ordering::Less, _) => Some(!(first < 0 && second < 0)),
        (Ordering::Equal, Ordering::Less) => Some(first > 0),
        _ => None,
    }
}

#[cfg(test)]
mod tests {
    use super::*;

    fn met(rings: &[&[Point]]) -> Vec<(f64, f64)> {
        let (met, whole) = crossings(rings);
        assert!(whole);
        let mut places: Vec<(f64, f64)> = met.iter().map(|crossing| crossing.at).collect();
        places.sort_by(|a, b| a.partial_cmp(b).unwrap());
        places
    }

    #[test]
    fn rings_that_cross_themselves() {
        assert_eq!(met(&[&[(0, 0), (10, 10), (10, 0), (0, 10)]]), [(5.0, 5.0)]);
        // the same, with a point where the lines meet, on one of them and on both
        assert_eq!(met(&[&[(0, 0), (5, 5), (10, 10), (10, 0), (0, 10)]]), [(5.0, 5.0)]);
        assert_eq!(met(&[&[(0, 0), (5, 5), (10, 10), (10, 0), (5, 5), (0, 10)]]), [(5.0, 5.0)]);
        let star: [Point; 5] = [(100, 0), (-81, 59), (31, -95), (31, 95), (-81, -59)];
        assert_eq!(met(&[&star]).len(), 5);
    }

    #[test]
    fn rings_that_only_touch_themselves() {
        assert!(met(&[&[(0, 0), (10, 0), (10, 10), (0, 10)]]).is_empty());
        // two squares with a corner in common, walked as one ring
        assert!(met(&[&[(0, 0), (5, 0), (5, 5), (10, 5), (10, 10), (5, 10), (5, 5), (0, 5)]]).is_empty());
        // a spike, a point twice, a point on an edge
        assert!(met(&[&[(0, 0), (5, 0), (5, 9), (5, 0), (5, 0), (10, 0), (10, 10), (0, 10)]]).is_empty());
        assert!(met(&[&[(0, 0), (10, 0), (10, 10), (5, 0), (0, 10)]]).is_empty());
        assert!(met(&[&[], &[(1, 1)], &[(1, 1), (2, 2)], &[(1, 1), (2, 2), (1, 1)]]).is_empty());
    }

    #[test]
    fn two_rings() {
        let square: [Point; 4] = [(0, 0), (10, 0), (10, 10), (0, 10)];
        assert_eq!(met(&[&square, &[(5, 5), (5, 15), (8, 15), (8, 5)]]), [(5.0, 10.0), (8.0, 10.0)]);
        // with a side in common; inside, touching with a point; apart
        assert!(met(&[&square, &[(0, 10), (10, 10), (10, 20), (0, 20)]]).is_empty());
        assert!(met(&[&square, &[(0, 5), (5, 3), (5, 7)]]).is_empty());
        assert!(met(&[&square, &[(20, 5), (25, 3), (25, 7)]]).is_empty());
        let (far, near) = (i32::MAX, i32::MIN);
        assert_eq!(met(&[&[(near, near), (far, far), (far, near)], &[(far, 0), (near, 0), (near, -5)]]).len(), 2);
    }

    /// Against all pairs, at random.
    #[test]
    fn cells_miss_nothing() {
        let mut state = 9u64;
        let mut next = |most: u64| {
            state = state.wrapping_mul(6_364_136_223_846_793_005).wrapping_add(1_442_695_040_888_963_407);
            ((state >> 33) % most) as i32
        };
        for size in [20, 300, 100_000] {
            let ring: Vec<Point> = (0..60).map(|_| (next(size), next(size))).collect();
            let edges = edges_of(0, &ring);
            let pairs = edges.iter().enumerate().flat_map(|(i, a)| edges[i + 1..].iter().map(move |b| (a, b)));
            assert_eq!(pairs.filter_map(|(a, b)| crossing(a, b)).count(), met(&[&ring]).len(), "{size}");
        }
    }
}
