//! Rings on the file's grid.

use crate::geojson::{Position, Ring};

/// A grid of some precision: a latitude is 2^(precision - 1) steps to 90 degrees, a longitude as many to 180.
#[derive(Clone, Copy, Debug)]
pub struct Grid {
    pub precision: u8,
}

/// A point of the grid: latitude, longitude.
pub type Point = (i32, i32);

/// A ring on the grid.
#[derive(Debug, PartialEq)]
pub struct Rounded {
    /// Without its closing point, and no point twice in a row.
    pub points: Vec<Point>,
    /// The greatest way that a point was moved, in degrees of latitude and of longitude.
    pub moved: (f64, f64),
    /// How many points fell on the one before them.
    pub dropped: usize,
}

/// Metres to a degree of latitude, nearly.
pub(crate) const METRES: f64 = 111_200.0;

impl Grid {
    fn steps(self) -> f64 {
        2f64.powi(i32::from(self.precision) - 1)
    }

    /// The grid's step in degrees of latitude; of longitude it is twice that.
    pub fn step(self) -> f64 {
        90.0 / self.steps()
    }

    /// The step in metres, north to south.
    pub fn metres(self) -> f64 {
        self.step() * METRES
    }

    /// The nearest point of the grid.
    pub fn point(self, place: Position) -> Point {
        ((place.lat / 90.0 * self.steps()).round() as i32, (place.lon / 180.0 * self.steps()).round() as i32)
    }

    /// The nearest points of the grid, or none where nothing of the ring's area is left.
    pub fn round(self, ring: &Ring) -> Option<Rounded> {
        let mut rounded = Rounded { points: vec![], moved: (0.0, 0.0), dropped: 0 };
        for place in ring {
            let point = self.point(*place);
            let lat = (f64::from(point.0) * self.step() - place.lat).abs();
            let lon = (f64::from(point.1) * 2.0 * self.step() - place.lon).abs();
            rounded.moved = (rounded.moved.0.max(lat), rounded.moved.1.max(lon));
            if rounded.points.last() != Some(&point) {
                rounded.points.push(point);
            }
        }
        while rounded.points.len() > 1 && rounded.points.first() == rounded.points.last() {
            rounded.points.pop();
        }
        rounded.dropped = ring.len() - rounded.points.len();
        (doubled_area(&rounded.points) != 0).then_some(rounded)
    }
}

/// Twice a ring's area, positive where it turns counterclockwise on a map whose north is up.
pub fn doubled_area(points: &[Point]) -> i128 {
    let turn = |(here, next): (&Point, &Point)| {
        i128::from(here.1) * i128::from(next.0) - i128::from(next.1) * i128::from(here.0)
    };
    points.iter().zip(points.iter().cycle().skip(1)).map(turn).sum()
}

/// A ring in the direction that the format reads as inside (clockwise) or as excluded; its first point stays the first.
pub fn turned(mut points: Vec<Point>, excluded: bool) -> Vec<Point> {
    if (doubled_area(&points) > 0) != excluded {
        points[1..].reverse();
    }
    points
}

/// Whether a point is inside a ring, by the even-odd rule; none where it is on it.
pub fn side(point: Point, ring: &[Point]) -> Option<bool> {
    let (lat, lon) = (i128::from(point.0), i128::from(point.1));
    let mut inside = false;
    let next = ring.iter().cycle().skip(1);
    for (a, b) in ring.iter().zip(next) {
        let ((a0, a1), (b0, b1)) = ((i128::from(a.0), i128::from(a.1)), (i128::from(b.0), i128::from(b.1)));
        let turn = (b0 - a0) * (lon - a1) - (b1 - a1) * (lat - a0);
        let between = lat >= a0.min(b0) && lat <= a0.max(b0) && lon >= a1.min(b1) && lon <= a1.max(b1);
        if turn == 0 && between {
            return None;
        }
        if (a0 > lat) != (b0 > lat) && ((turn > 0) == (b0 > a0)) {
            inside = !inside;
        }
    }
    Some(inside)
}

#[cfg(test)]
mod tests {
    use super::*;

    fn ring(places: &[(f64, f64)]) -> Ring {
        places.iter().map(|&(lat, lon)| Position { lat, lon }).collect()
    }

    #[test]
    fn document_01s_square_is_inside() {
        let square = vec![(2, 2), (10, 2), (10, 10), (2, 10)];
        assert_eq!(doubled_area(&square), -128);
        assert_eq!(turned(square.clone(), false), square);
        assert_eq!(turned(square.clone(), true), [(2, 2), (2, 10), (10, 10), (10, 2)]);
        assert_eq!(turned(turned(square.clone(), true), false), square);
    }

    #[test]
    fn points_move_by_half_a_step_at_most() {
        let grid = Grid { precision: 16 };
        let rounded = grid.round(&ring(&[(45.0, 90.0), (45.00138, 90.0), (46.0, 90.0), (46.0, 91.0)])).unwrap();
        assert_eq!(rounded.points[0], (16384, 16384));
        assert!(rounded.moved.0 <= grid.step() / 2.0 && rounded.moved.1 <= grid.step());
        assert_eq!(rounded.points.len(), 4);
        let rounded = grid.round(&ring(&[(45.0, 90.0), (45.0, 90.001), (46.0, 90.0), (46.0, 91.0), (45.0001, 90.0001)])).unwrap();
        assert_eq!((rounded.points.len(), rounded.dropped), (3, 2));
    }

    #[test]
    fn small_rings_collapse() {
        let grid = Grid { precision: 9 };
        assert_eq!(grid.round(&ring(&[(45.0, 90.0), (45.01, 90.0), (45.01, 90.01)])), None);
        assert_eq!(grid.round(&ring(&[(45.0, 90.0), (46.0, 90.01), (47.0, 90.0)])), None);
    }

    #[test]
    fn sides_of_a_ring() {
        let square = [(0, 0), (10, 0), (10, 10), (0, 10)];
        assert_eq!(side((5, 5), &square), Some(true));
        assert_eq!([(5, 11), (5, -1), (-1, 5), (11, 5), (10, 11)].map(|point| side(point, &square)), [Some(false); 5]);
        assert_eq!([(0, 0), (10, 5), (5, 0), (5, 10), (0, 3)].map(|point| side(point, &square)), [None; 5]);
    }
}
