//! From features to yards: what a file will hold, before it is written.

use crate::geojson::{Collection, Feature, FeatureName, Ring};
use crate::grid::{turned, Grid, Point};
use crate::pieces::{Lender, Saved};
use crate::{output, words};
use std::collections::{HashMap, HashSet};
use uskelzar::Piece;

/// What is asked of a file besides its yards.
#[derive(Clone, Debug)]
pub struct Form {
    /// `T` or `C`.
    pub table: char,
    pub version: u8,
    pub precision: u8,
    pub notice: String,
    /// Whether a feature of which the grid leaves nothing is left out.
    pub leave_out: bool,
}

/// A border with its zone's values: what the library's builder takes.
#[derive(Debug)]
pub struct Yard {
    /// How messages call its ring.
    pub place: String,
    pub points: Vec<Point>,
    pub pieces: Vec<Piece>,
    /// Which of the plan's records it has.
    pub record: usize,
}

/// All that a file will hold.
#[derive(Debug)]
pub struct Plan {
    pub form: Form,
    pub names: Vec<String>,
    /// The values of each feature, one for each name.
    pub records: Vec<Vec<String>>,
    pub yards: Vec<Yard>,
    pub report: Report,
}

/// What is said about a plan.
#[derive(Debug, Default)]
pub struct Report {
    pub features: usize,
    pub holes: usize,
    pub points: usize,
    /// Points that fell on the one before them.
    pub dropped: usize,
    /// The greatest way that a point was moved, in degrees of latitude and of longitude.
    pub moved: (f64, f64),
    pub saved: Saved,
    /// Lines on what was left out or looks wrong.
    pub notes: Vec<String>,
}

/// The limits of the library's builder.
const MOST_YARDS: usize = 4096;
const MOST_NAMES: usize = 255;
const MOST_BYTES: usize = 255;
const MOST_POINTS: usize = 65_535;
const MOST_COORDINATE: i32 = (1 << 30) - 1;

/// The plan of a file; or what is wrong, and what to do.
pub fn plan(collection: Collection, form: Form) -> Result<Plan, String> {
    let Collection { mut features, notes } = collection;
    if form.table == 'T' {
        features.iter_mut().for_each(split_zone);
    }
    let names = names_of(&features, &form)?;
    let records = records_of(&features, &names)?;
    let mut plan = Plan { form, names, records, yards: vec![], report: Report { notes, features: features.len(), ..Report::default() } };
    for (record, feature) in features.iter().enumerate() {
        plan.draw(record, feature)?;
    }
    plan.check_names();
    match plan.yards.len() {
        0 => return Err("no yards: the file has no polygon".into()),
        1..=MOST_YARDS => (),
        many => return Err(format!("{} rings, and {} are the most that a file holds: split the input", words::grouped(many), words::grouped(MOST_YARDS))),
    }
    rotate(&mut plan.yards);
    plan.borrow()?;
    Ok(plan)
}

/// `tzid`, as maps of time zones call it, is the prefix and the id that slips are stamped by.
fn split_zone(feature: &mut Feature) {
    let has = |name: &str| feature.properties.iter().any(|(key, _)| key == name);
    if has("TimezoneId") || has("TimezoneIdPrefix") {
        return;
    }
    let Some(at) = feature.properties.iter().position(|(key, _)| key == "tzid") else { return };
    let (_, zone) = feature.properties.remove(at);
    let (prefix, id) = zone.split_at(zone.find('/').map_or(0, |slash| slash + 1));
    let fields = [("TimezoneIdPrefix".to_string(), prefix.to_string()), ("TimezoneId".to_string(), id.to_string())];
    feature.properties.splice(at..at, fields);
}

/// Every property's name, in the order in which they come.
fn names_of(features: &[Feature], form: &Form) -> Result<Vec<String>, String> {
    let (mut seen, mut names) = (HashSet::new(), vec![]);
    for feature in features {
        for (name, _) in &feature.properties {
            if seen.insert(name.as_str()) {
                names.push(name.clone());
                check_text(name, || format!("{}: the property's name {name:?}", feature.name))?;
            }
        }
    }
    check_text(&form.notice, || "the notice".into())?;
    if names.len() > MOST_NAMES {
        return Err(format!("{} properties with different names, and {MOST_NAMES} are the most: take some out", names.len()));
    }
    Ok(names)
}

/// Every feature's values; what it does not have is empty.
fn records_of(features: &[Feature], names: &[String]) -> Result<Vec<Vec<String>>, String> {
    let places: HashMap<&str, usize> = names.iter().enumerate().map(|(i, name)| (name.as_str(), i)).collect();
    let record = |feature: &Feature| {
        let mut values = vec![String::new(); names.len()];
        for (name, value) in &feature.properties {
            check_text(value, || format!("{}: the property {name:?}", feature.name))?;
            values[places[name.as_str()]] = value.clone();
        }
        Ok(values)
    };
    features.iter().map(record).collect()
}

fn check_text(text: &str, what: impl Fn() -> String) -> Result<(), String> {
    match text.len() {
        0..=MOST_BYTES => Ok(()),
        long => Err(format!("{} has {long} bytes, and {MOST_BYTES} are the most: shorten it", what())),
    }
}

impl Plan {
    /// The rings of a feature on the grid: outer ones, and holes as excluded borders.
    fn draw(&mut self, record: usize, feature: &Feature) -> Result<(), String> {
        let before = self.yards.len();
        for (i, polygon) in feature.polygons.iter().enumerate() {
            for (k, ring) in polygon.iter().enumerate() {
                let place = place_of(&feature.name, feature.polygons.len(), i, k);
                let drawn = self.ring(record, ring, k > 0, place)?;
                if !drawn && k == 0 {
                    if polygon.len() > 1 {
                        self.report.notes.push(format!("{}: with it go its holes", place_of(&feature.name, feature.polygons.len(), i, 0)));
                    }
                    break;
                }
            }
        }
        if self.yards.len() == before {
            let words = format!("{}: nothing of it is left on the grid, whose step is {}", feature.name, words::length(self.grid().metres()));
            if !self.form.leave_out {
                return Err(format!("{words}: give a higher --precision, or --leave-out to build without it"));
            }
            self.report.notes.push(format!("{words}; it is left out"));
        }
        Ok(())
    }

    fn grid(&self) -> Grid {
        Grid { precision: self.form.precision }
    }

    /// Adds a ring, unless it collapses.
    fn ring(&mut self, record: usize, ring: &Ring, hole: bool, place: String) -> Result<bool, String> {
        let Some(rounded) = self.grid().round(ring) else {
            self.report.notes.push(format!("{place}: it collapses on the grid and is left out"));
            return Ok(false);
        };
        let beyond = |point: &Point| point.0.abs() > MOST_COORDINATE || point.1.abs() > MOST_COORDINATE;
        if rounded.points.iter().any(beyond) {
            return Err(format!("{place}: it reaches a pole or the 180th meridian, beyond what precision 31 writes: give --precision 30"));
        }
        if rounded.points.len() > MOST_POINTS {
            let words = "simplify it, give a lower --precision, or cut the polygon in two";
            return Err(format!("{place}: it has {} points, and {MOST_POINTS} are the most: {words}", rounded.points.len()));
        }
        let report = &mut self.report;
        report.holes += usize::from(hole);
        report.points += rounded.points.len();
        report.dropped += rounded.dropped;
        report.moved = (report.moved.0.max(rounded.moved.0), report.moved.1.max(rounded.moved.1));
        self.yards.push(Yard { place, points: turned(rounded.points, hole), pieces: vec![], record });
        Ok(true)
    }

    /// What a lookup's description and a stamp go by.
    fn check_names(&mut self) {
        let has = |name: &str| self.names.iter().any(|known| known == name);
        if self.form.table == 'T' && !(has("TimezoneIdPrefix") && has("TimezoneId")) {
            let words = "no property TimezoneIdPrefix and TimezoneId, and no tzid: nothing can be stamped by this file";
            self.report.notes.push(words.into());
        }
        if self.form.table == 'C' && !has("Name") {
            self.report.notes.push("no property Name: simple lookups will describe nothing".into());
        }
    }

    fn borrow(&mut self) -> Result<(), String> {
        let mut lender = Lender::new(self.form.version);
        let bar = output::progress(self.yards.len(), "borders");
        for yard in &mut self.yards {
            yard.pieces = lender.add(&yard.points).map_err(|why| format!("{}: {why}", yard.place))?;
            bar.inc(1);
        }
        bar.finish_and_clear();
        self.report.saved = lender.saved();
        Ok(())
    }
}

/// How messages call a ring of a feature with so many polygons.
pub fn place_of(name: &FeatureName, polygons: usize, polygon: usize, ring: usize) -> String {
    if polygons == 1 {
        return format!("{name}, ring {}", ring + 1);
    }
    format!("{name}, polygon {}, ring {}", polygon + 1, ring + 1)
}

/// An edge without its direction.
fn edge(a: Point, b: Point) -> (Point, Point) {
    (a.min(b), a.max(b))
}

/// Begins each border behind an edge of its own, else where no line is cut that it shares with one other; and not at (0, 0), which the format
/// does not allow. The edge back to the first point is not written, so that a line across it would be borrowed in two pieces.
fn rotate(yards: &mut [Yard]) {
    // the sum of the numbers of the borders at each edge: without a border's own number it says which the others are
    let mut owners: HashMap<(Point, Point), u64> = HashMap::new();
    for (number, yard) in (1..).zip(yards.iter()) {
        for (a, b) in edges(&yard.points) {
            *owners.entry(edge(a, b)).or_default() += number;
        }
    }
    for (number, yard) in (1..).zip(yards.iter_mut()) {
        let others: Vec<u64> = edges(&yard.points).map(|(a, b)| owners[&edge(a, b)].wrapping_sub(number)).collect();
        let into = |i: usize| others[(i + others.len() - 1) % others.len()];
        let own = |i: &usize| into(*i) == 0;
        let uncut = |i: &usize| into(*i) != others[*i];
        let allowed = |i: &usize| yard.points[*i] != (0, 0);
        let places = || (0..yard.points.len()).filter(allowed);
        let first = places().find(own).or_else(|| places().find(uncut)).or_else(|| places().next());
        yard.points.rotate_left(first.unwrap_or(0));
    }
}

fn edges(points: &[Point]) -> impl Iterator<Item = (Point, Point)> + '_ {
    points.iter().copied().zip(points.iter().copied().cycle().skip(1))
}

#[cfg(test)]
mod tests {
    use super::*;
    use crate::geojson::collect;
    use serde_json::{json, Value};

    fn form() -> Form {
        Form { table: 'C', version: 1, precision: 16, notice: String::new(), leave_out: false }
    }

    fn square(lat: f64, lon: f64, side: f64) -> Value {
        json!([[lon, lat], [lon + side, lat], [lon + side, lat + side], [lon, lat + side], [lon, lat]])
    }

    fn planned(features: Value, form: Form) -> Result<Plan, String> {
        plan(collect(&json!({"type": "FeatureCollection", "features": features})).unwrap(), form)
    }

    fn yard(name: &str, rings: Value) -> Value {
        json!({"type": "Feature", "properties": {"Name": name}, "geometry": {"type": "Polygon", "coordinates": rings}})
    }

    #[test]
    fn holes_turn_the_other_way() {
        let both = [square(10.0, 10.0, 3.0), square(11.0, 11.0, 1.0)];
        let plan = planned(json!([yard("A", json!(both))]), form()).unwrap();
        let turns: Vec<bool> = plan.yards.iter().map(|yard| crate::grid::doubled_area(&yard.points) > 0).collect();
        assert_eq!(turns, [false, true]);
        assert_eq!((plan.report.holes, plan.yards[1].place.as_str()), (1, "feature 1 (A), ring 2"));
        // the other winding in the file changes nothing
        let turned = both.map(|ring| Value::Array(ring.as_array().unwrap().iter().rev().cloned().collect()));
        let again = planned(json!([yard("A", json!(turned))]), form()).unwrap();
        let sets = |plan: &Plan| plan.yards.iter().map(|yard| yard.points.clone()).collect::<Vec<_>>();
        assert_eq!(sets(&plan), sets(&again));
    }

    #[test]
    fn rings_that_collapse_are_named() {
        let small = square(20.0, 20.0, 0.001);
        let hole = planned(json!([yard("A", json!([square(10.0, 10.0, 3.0), small]))]), form()).unwrap();
        assert_eq!(hole.report.notes, ["feature 1 (A), ring 2: it collapses on the grid and is left out"]);
        let gone = planned(json!([yard("A", json!([small]))]), form()).unwrap_err();
        assert!(gone.starts_with("feature 1 (A): nothing of it is left on the grid, whose step is 305.42 m") && gone.contains("--precision"), "{gone}");
        let rest = Form { leave_out: true, ..form() };
        let kept = planned(json!([yard("A", json!([small])), yard("B", json!([square(10.0, 10.0, 3.0)]))]), rest).unwrap();
        assert_eq!((kept.yards.len(), kept.yards[0].record), (1, 1));
    }

    #[test]
    fn missing_properties_are_empty() {
        let other = json!({"type": "Feature", "properties": {"Hours": "6-22"}, "geometry": {"type": "Polygon", "coordinates": [square(1.0, 1.0, 1.0)]}});
        let plan = planned(json!([yard("A", json!([square(10.0, 10.0, 3.0)])), other]), form()).unwrap();
        assert_eq!(plan.names, ["Name", "Hours"]);
        assert_eq!(plan.records, [["A", ""], ["", "6-22"]]);
    }

    #[test]
    fn a_zone_id_is_split_for_stamps() {
        let zone = |tzid: &str| json!({"type": "Feature", "properties": {"a": 1, "tzid": tzid}, "geometry": {"type": "Polygon", "coordinates": [square(1.0, 1.0, 1.0)]}});
        let plan = planned(json!([zone("America/Argentina/Salta"), zone("UTC")]), Form { table: 'T', ..form() }).unwrap();
        assert_eq!(plan.names, ["a", "TimezoneIdPrefix", "TimezoneId"]);
        assert_eq!(plan.records, [["1", "America/", "Argentina/Salta"], ["1", "", "UTC"]]);
        assert!(plan.report.notes.is_empty());
    }

    #[test]
    fn limits_are_said_with_the_feature() {
        let long = json!({"type": "Feature", "properties": {"Name": "A", "Text": "x".repeat(256)}, "geometry": {"type": "Polygon", "coordinates": [square(1.0, 1.0, 1.0)]}});
        assert_eq!(planned(json!([long]), form()).unwrap_err(), "feature 1 (A): the property \"Text\" has 256 bytes, and 255 are the most: shorten it");
        let pole = planned(json!([yard("A", json!([square(89.0, 1.0, 1.0)]))]), Form { precision: 31, ..form() }).unwrap_err();
        assert!(pole.contains("feature 1 (A), ring 1: it reaches a pole"), "{pole}");
        assert!(planned(json!([]), form()).unwrap_err().contains("no yards"));
        let many: Vec<Value> = (0..4097).map(|i| yard("A", json!([square(f64::from(i % 80), f64::from(i / 80), 0.5)]))).collect();
        assert!(planned(json!(many), form()).unwrap_err().starts_with("4,097 rings, and 4,096 are the most"));
    }

    #[test]
    fn no_border_begins_at_the_origin() {
        let plan = planned(json!([yard("A", json!([square(0.0, 0.0, 3.0)]))]), form()).unwrap();
        assert_eq!(plan.yards[0].points[0], (1092, 0));
    }

    #[test]
    fn borders_begin_where_a_shared_line_does() {
        // two yards with one line of many points between them; the second begins in the middle of it
        let line: Vec<(f64, f64)> = (0..9).map(|i| (f64::from(i), f64::from(i * i % 5) / 4.0)).collect();
        let points = |line: &[(f64, f64)]| line.iter().map(|(lat, lon)| json!([lon, lat])).collect::<Vec<_>>();
        let mut left = line.clone();
        left.extend([(8.0, -5.0), (0.0, -5.0)]);
        let mut right: Vec<(f64, f64)> = line[4..].to_vec();
        right.extend([(8.0, 5.0), (0.0, 5.0)]);
        right.extend(&line[..4]);
        let plan = planned(json!([yard("A", json!([points(&left)])), yard("B", json!([points(&right)]))]), form()).unwrap();
        assert_eq!(plan.yards[1].pieces.len(), 1, "{:?}", plan.yards[1]);
        assert_eq!(plan.yards[1].pieces[0].count, 8);
    }
}
