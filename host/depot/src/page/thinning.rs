//! Which points a picture needs at which zoom. Points are left out, never moved.

use crate::grid::Point;

/// Levels 0 to 15; at level 0 all points are drawn.
pub const LEVELS: u8 = 16;

/// How far apart points are, in steps of latitude, and from which size on they count.
#[derive(Clone, Copy)]
pub struct Scale {
    /// A step of longitude in steps of latitude.
    pub wide: f64,
    /// What is left out at level n is less than 2^(base + n) steps from the line that is drawn.
    pub base: i32,
}

impl Scale {
    /// For a view so many steps wide: at the last level what is left out is less than half a pixel of a small window.
    pub fn of(wide: f64, steps: f64) -> Scale {
        let coarsest = (steps / 720.0).max(1.0).log2().floor() as i32;
        Scale { wide, base: (coarsest + 1 - i32::from(LEVELS)).max(0) }
    }

    /// The last level at which a point this far from the line without it is drawn.
    fn level(self, far: f64) -> u8 {
        if far < 1.0 {
            return 0;
        }
        (far.log2().floor() as i32 - self.base).clamp(0, i32::from(LEVELS) - 1) as u8
    }

    fn place(self, point: Point) -> (f64, f64) {
        (f64::from(point.0), f64::from(point.1) * self.wide)
    }

    /// From a point to the line between two others.
    fn distance(self, point: Point, from: Point, to: Point) -> f64 {
        let ((y, x), (y0, x0), (y1, x1)) = (self.place(point), self.place(from), self.place(to));
        let (dy, dx) = (y1 - y0, x1 - x0);
        let long = dy * dy + dx * dx;
        let along = if long > 0.0 { (((y - y0) * dy + (x - x0) * dx) / long).clamp(0.0, 1.0) } else { 0.0 };
        (y - y0 - along * dy).hypot(x - x0 - along * dx)
    }
}

/// A part of a ring between two points that are drawn, and how far the latter of them was from the line without it.
type Part = (usize, usize, f64);

/// For each point of a ring the last level at which it is drawn, by Douglas and Peucker's halving: the point that is farthest from a line is on it
/// at every level at which a point beyond it is.
pub fn levels(ring: &[Point], scale: Scale) -> Vec<u8> {
    let mut levels = vec![LEVELS - 1; ring.len()];
    // an unusual ring may be split at its ends again and again: then its other points stay
    let mut looks = 64 * ring.len();
    let mut parts: Vec<Part> = halves(ring, scale);
    while let Some((first, last, most)) = parts.pop() {
        if last - first < 2 || looks < last - first {
            continue;
        }
        looks -= last - first;
        let (middle, far) = farthest(ring, first, last, scale);
        let far = far.min(most);
        levels[middle] = scale.level(far);
        if far < 1.0 {
            levels[first + 1..last].fill(0);
            continue;
        }
        parts.extend([(first, middle, far), (middle, last, far)]);
    }
    levels
}

/// From the first point to the farthest one, and back. The end of a ring is its first point again.
fn halves(ring: &[Point], scale: Scale) -> Vec<Part> {
    let far = |i: &usize| scale.distance(ring[*i], ring[0], ring[0]);
    let opposite = (1..ring.len()).max_by(|a, b| far(a).total_cmp(&far(b)));
    opposite.map_or(vec![], |opposite| vec![(0, opposite, f64::INFINITY), (opposite, ring.len(), f64::INFINITY)])
}

fn farthest(ring: &[Point], first: usize, last: usize, scale: Scale) -> (usize, f64) {
    let (from, to) = (ring[first], ring[last % ring.len()]);
    let far = (first + 1..last).map(|i| (i, scale.distance(ring[i], from, to)));
    far.max_by(|a, b| a.1.total_cmp(&b.1)).expect("a part has points")
}

#[cfg(test)]
mod tests {
    use super::*;

    const PLAIN: Scale = Scale { wide: 1.0, base: 0 };

    /// A circle's points, with a tooth of some size at each.
    fn toothed(points: i32, radius: f64, tooth: f64) -> Vec<Point> {
        let point = |i: i32| {
            let (turn, far) = (f64::from(i) / f64::from(points) * std::f64::consts::TAU, radius + tooth * f64::from(i % 2));
            ((far * turn.sin()) as i32, (far * turn.cos()) as i32)
        };
        (0..points).map(point).collect()
    }

    /// What is left out at a level is as near to the drawn line as is said.
    fn hold(ring: &[Point], scale: Scale) {
        let levels = levels(ring, scale);
        for level in 0..LEVELS {
            let drawn: Vec<usize> = (0..ring.len()).filter(|i| levels[*i] >= level).collect();
            for (k, &first) in drawn.iter().enumerate() {
                let last = drawn.get(k + 1).copied().unwrap_or(ring.len());
                let (from, to) = (ring[first], ring[last % ring.len()]);
                let far = (first + 1..last).map(|i| scale.distance(ring[i], from, to)).fold(0.0, f64::max);
                assert!(far < 2f64.powi(scale.base + i32::from(level)), "level {level}: {far}");
            }
        }
    }

    #[test]
    fn what_is_left_out_is_near() {
        for ring in [toothed(400, 5000.0, 40.0), toothed(1000, 300_000.0, 3.0), toothed(7, 100.0, 0.0), vec![(0, 0), (0, 9), (5, 5)]] {
            for base in [0, 3] {
                hold(&ring, Scale { wide: 1.7, base });
            }
        }
    }

    #[test]
    fn fewer_points_at_each_level() {
        let levels = levels(&toothed(2000, 100_000.0, 60.0), PLAIN);
        let drawn: Vec<usize> = (0..LEVELS).map(|level| levels.iter().filter(|&&last| last >= level).count()).collect();
        assert_eq!(drawn[0], 2000);
        assert!(drawn[7] < 300 && drawn[15] >= 2 && drawn[15] < 20, "{drawn:?}");
    }

    #[test]
    fn points_on_a_line_are_not_drawn() {
        let ring = [(0, 0), (0, 5), (0, 10), (10, 10), (10, 0), (5, 0)];
        assert_eq!(levels(&ring, PLAIN), [15, 0, 2, 15, 2, 0]);
        assert!(levels(&[], PLAIN).is_empty());
        assert_eq!(levels(&[(1, 1)], PLAIN), [15]);
    }

    #[test]
    fn scales() {
        assert_eq!(Scale::of(1.0, 10.0).base, 0);
        assert_eq!(Scale::of(1.0, 2f64.powi(21)).base, 0);
        assert_eq!(Scale::of(1.0, 2f64.powi(31)).base, 6);
        assert_eq!([0.0, 0.9, 1.0, 1.9, 2.0, 1e9].map(|far| PLAIN.level(far)), [0, 0, 0, 0, 1, 15]);
    }
}
