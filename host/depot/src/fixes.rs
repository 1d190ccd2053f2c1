//! What a fix can tell apart at each yard's place: it is two numbers of 32 bits, whose steps grow with their size.

use crate::geojson::{Collection, Feature, Position};
use crate::grid::{Grid, METRES};
use std::collections::BTreeMap;

/// Features at which fixes are as far apart, in degrees of latitude and of longitude.
struct Group<'a> {
    steps: (f64, f64),
    /// Metres from north to south and from east to west, at most.
    metres: (f64, f64),
    features: Vec<&'a Feature>,
}

/// What is said of a drawing's places, and warnings where the grid is finer than a fix.
#[derive(Debug, Default)]
pub struct Said {
    pub lines: Vec<String>,
    pub notes: Vec<String>,
}

/// More groups than these are summed up.
const TOLD: usize = 6;

pub fn said(collection: &Collection, grid: Grid) -> Said {
    let groups = groups_of(collection);
    let mut said = Said::default();
    for group in groups.iter().take(TOLD) {
        let (lat, lon) = (short(group.metres.0), short(group.metres.1));
        said.lines.push(format!("a fix tells apart {lat} north to south and {lon} east to west at {}", group.places(collection)));
    }
    let rest: usize = groups.iter().skip(TOLD).map(|group| group.features.len()).sum();
    if rest > 0 {
        said.lines.push(format!("and no more than the last of these at {rest} others"));
    }
    said.notes.extend(groups.iter().filter_map(|group| group.finer(collection, grid)));
    said
}

/// From the coarsest on.
fn groups_of(collection: &Collection) -> Vec<Group<'_>> {
    let mut groups: BTreeMap<(u64, u64), Group> = BTreeMap::new();
    for feature in &collection.features {
        let places = || feature.polygons.iter().flatten().flatten();
        let farthest = |number: fn(&Position) -> f64| places().map(|place| number(place).abs()).fold(0.0, f64::max);
        let steps = (step(farthest(|place| place.lat)), step(farthest(|place| place.lon)));
        let nearest = places().map(|place| place.lat.abs()).fold(90.0, f64::min);
        let metres = (steps.0 * METRES, steps.1 * METRES * nearest.to_radians().cos());
        let group = groups.entry((steps.1.to_bits(), steps.0.to_bits())).or_insert(Group { steps, metres, features: vec![] });
        group.metres.1 = group.metres.1.max(metres.1);
        group.features.push(feature);
    }
    groups.into_values().rev().collect()
}

/// No grid is finer, and nobody asks for less: 7 mm.
const LEAST: f64 = 1.0 / (1 << 24) as f64;

/// The way from a number of 32 bits to the next, away from zero.
fn step(degrees: f64) -> f64 {
    let here = degrees as f32;
    (f64::from(f32::from_bits(here.to_bits() + 1)) - f64::from(here)).max(LEAST)
}

fn short(metres: f64) -> String {
    if metres < 0.01 {
        return "less than 0.01 m".into();
    }
    format!("{metres:.2} m")
}

impl Group<'_> {
    fn places(&self, collection: &Collection) -> String {
        let (first, others) = (&self.features[0].name, self.features.len() - 1);
        match others {
            _ if others + 1 == collection.features.len() && others > 0 => "each feature".into(),
            0 => first.to_string(),
            1 => format!("{first} and one other"),
            _ => format!("{first} and {others} others"),
        }
    }

    /// Where two points of the grid are nearer than two fixes.
    fn finer(&self, collection: &Collection, grid: Grid) -> Option<String> {
        let axes = [(grid.step(), self.steps.0, self.metres.0, "north to south"), (2.0 * grid.step(), self.steps.1, self.metres.1, "east to west")];
        let told = |(grid, fix, metres, way): (f64, f64, f64, &str)| (grid < fix).then(|| format!("{} to {} {way}", short(metres * grid / fix), short(metres)));
        let told: Vec<String> = axes.into_iter().filter_map(told).collect();
        let enough = (1..=31).rev().find(|precision| self.is_told(Grid { precision: *precision })).unwrap_or(1);
        (!told.is_empty()).then(|| format!("the grid is finer than a fix at {}: {}; --precision {enough} is what a fix can tell apart there", self.places(collection), told.join(" and ")))
    }

    fn is_told(&self, grid: Grid) -> bool {
        grid.step() >= self.steps.0 && 2.0 * grid.step() >= self.steps.1
    }
}

#[cfg(test)]
mod tests {
    use super::*;
    use crate::geojson::collect;
    use serde_json::{json, Value};

    fn told(corners: &[(f64, f64)], precision: u8) -> Said {
        let feature = |(lat, lon): &(f64, f64)| json!({"type": "Feature", "properties": {"Name": "A"}, "geometry": {"type": "Polygon", "coordinates": [[[lon, lat], [lon + 0.1, *lat], [*lon, lat + 0.1]]]}});
        let features: Vec<Value> = corners.iter().map(feature).collect();
        said(&collect(&json!({"type": "FeatureCollection", "features": features})).unwrap(), Grid { precision })
    }

    #[test]
    fn steps_of_32_bits() {
        assert_eq!([step(178.0), step(100.0), step(1.0), step(0.001)], [2f64.powi(-16), 2f64.powi(-17), 2f64.powi(-23), 2f64.powi(-24)]);
        assert!(Grid { precision: 31 }.step() > LEAST);
    }

    #[test]
    fn fixes_far_from_greenwich() {
        let far = told(&[(-17.0, 178.0)], 27);
        assert_eq!(far.lines, ["a fix tells apart 0.21 m north to south and 1.62 m east to west at feature 1 (A)"]);
        assert_eq!(far.notes.len(), 1);
        assert!(far.notes[0].starts_with("the grid is finer than a fix at feature 1 (A): 0.15 m to 0.21 m north to south and 0.29 m to 1.62 m east to west"), "{far:?}");
        assert!(far.notes[0].ends_with("--precision 24 is what a fix can tell apart there"), "{far:?}");
        assert!(told(&[(-17.0, 178.0)], 24).notes.is_empty());
    }

    #[test]
    fn places_of_one_kind_are_told_together() {
        let all = told(&[(50.0, 10.0), (51.0, 11.0), (52.0, 20.0)], 21);
        assert_eq!(all.lines.len(), 2, "{all:?}");
        assert!(all.lines[0].ends_with("at feature 3 (A)") && all.lines[1].ends_with("at feature 1 (A) and one other"), "{all:?}");
        assert!(all.notes.is_empty());
        assert!(told(&[(50.0, 10.0), (51.0, 11.0)], 21).lines[0].ends_with("at each feature"));
    }
}
