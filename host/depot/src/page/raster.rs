//! The library's answers over the whole view: the points that `depot draw` asks at.

use super::answers::{Answer, Answers, Fix};
use super::packed;
use crate::draw::{self, Frame, Picture};
use serde_json::{json, Value};
use std::collections::BTreeMap;
use uskelzar::Map;

/// From north to south, in a row from west to east.
pub struct Raster {
    pub frame: Frame,
    pub columns: u32,
    pub rows: u32,
    /// The numbers of the answers.
    pub answers: Vec<u32>,
}

impl Raster {
    pub fn ask(map: &Map<Vec<u8>>, frame: Frame, columns: u32, answers: &mut Answers) -> Raster {
        let (columns, rows) = sides(frame, columns);
        let fixes: Vec<Fix> = (0..columns as usize * rows as usize).map(|i| draw::picture_fix(frame, columns, rows, i)).collect();
        Raster { frame, columns, rows, answers: answers.ask(map, &fixes, "points of the picture") }
    }

    pub fn fix(&self, index: usize) -> Fix {
        draw::picture_fix(self.frame, self.columns, self.rows, index)
    }

    /// Of some points, at least one, that nearest to their middle.
    pub fn middle(&self, points: &[usize]) -> Fix {
        let places = || points.iter().map(|i| (i % self.columns as usize, i / self.columns as usize));
        let mean = |sum: usize| sum as f64 / points.len() as f64;
        let (x, y) = (mean(places().map(|place| place.0).sum()), mean(places().map(|place| place.1).sum()));
        let far = |i: &usize| (((i % self.columns as usize) as f64 - x).hypot((i / self.columns as usize) as f64 - y) * 1e6) as u64;
        self.fix(points.iter().copied().min_by_key(far).unwrap_or(0))
    }

    /// The colour of each zone that the picture meets, as in `depot draw`.
    pub fn colours(&self, answers: &Answers) -> BTreeMap<u32, usize> {
        let first = |number: &u32| match answers.get(*number) {
            Answer::Told { end, zones } => {
                zones.first().map_or(draw::Answer::Nothing { end: (*end).into() }, |(zone, kind)| draw::Answer::Found { end: (*end).into(), kind: (*kind).into(), zone: *zone })
            }
            Answer::Refused(_) => draw::Answer::Refused,
        };
        Picture { columns: self.columns, rows: self.rows, answers: self.answers.iter().map(first).collect() }.colours()
    }

    pub fn json(&self) -> Value {
        json!({"columns": self.columns, "rows": self.rows, "runs": packed::runs(&self.answers)})
    }
}

/// Columns and rows. A tall view has as many points as a wide one.
fn sides(frame: Frame, most: u32) -> (u32, u32) {
    let rows = frame.rows(most);
    if rows <= most {
        return (most, rows);
    }
    let columns = (most * most / rows).max(1);
    (columns, frame.rows(columns).clamp(1, most))
}

#[cfg(test)]
mod tests {
    use super::*;

    #[test]
    fn tall_and_wide() {
        let frame = |north: f64, east: f64| Frame { south: 0.0, west: 0.0, north, east };
        assert_eq!(sides(frame(0.1, 0.2), 800), (800, 400));
        assert_eq!(sides(frame(0.2, 0.1), 800), (400, 800));
        assert_eq!(sides(frame(1.0, 1e-9), 800), (39, 800));
    }
}
