//! What can be mended in a drawing without choice: rings wound the other way (RFC 7946, 3.1.6), a point twice in a row, a ring's missing last point.

use crate::geojson::{kind_of, name_of};
use crate::plan::place_of;
use crate::words::{count, few};
use serde_json::Value;

/// What is not as RFC 7946 has it, and what it means all the same.
#[derive(Default)]
pub struct Mended {
    /// A line on each ring.
    rings: Vec<String>,
    turned: usize,
    repeated: usize,
    unclosed: usize,
}

/// Mends a drawing that was read, ring by ring, and says what was mended. All else in it stays.
pub fn mend(drawing: &mut Value) -> Mended {
    let mut mended = Mended::default();
    match drawing.get_mut("features").and_then(Value::as_array_mut) {
        Some(features) => (1..).zip(features).for_each(|(number, feature)| mended.feature(number, feature)),
        None => mended.feature(1, drawing),
    }
    mended
}

impl Mended {
    pub fn is_empty(&self) -> bool {
        self.rings.is_empty()
    }

    /// What was mended, in lines.
    pub fn lines(&self) -> Vec<String> {
        few(&self.rings)
    }

    /// How much it is, in a line.
    pub fn summary(&self) -> String {
        let parts = [
            (self.turned, format!("{} wound the other way", count(self.turned, "ring"))),
            (self.repeated, format!("{} twice in a row", count(self.repeated, "point"))),
            (self.unclosed, format!("{} without the last point", count(self.unclosed, "ring"))),
        ];
        parts.into_iter().filter(|(number, _)| *number > 0).map(|(_, words)| words).collect::<Vec<_>>().join(", ")
    }

    /// A feature, or a geometry alone.
    fn feature(&mut self, number: usize, value: &mut Value) {
        let name = name_of(number, value);
        let geometry = if value.get("geometry").is_some() { &mut value["geometry"] } else { value };
        let mut polygons = vec![];
        polygons_of(geometry, &mut polygons);
        let many = polygons.len();
        for (i, polygon) in polygons.into_iter().enumerate() {
            for (k, ring) in polygon.iter_mut().enumerate() {
                self.ring(ring, k > 0, || place_of(&name, many, i, k));
            }
        }
    }

    fn ring(&mut self, ring: &mut Value, hole: bool, place: impl Fn() -> String) {
        let Some(points) = ring.as_array_mut() else { return };
        let before = points.len();
        points.dedup_by(|here, last| is_same(here, last));
        let repeated = before - points.len();
        let unclosed = points.len() > 1 && !is_same(&points[0], &points[points.len() - 1]);
        if unclosed {
            points.push(points[0].clone());
        }
        let turned = (doubled_area(points) < 0.0) != hole && doubled_area(points) != 0.0;
        if turned {
            points.reverse();
        }
        self.turned += usize::from(turned);
        self.repeated += repeated;
        self.unclosed += usize::from(unclosed);
        let way = if hole { "clockwise, as a hole is" } else { "counterclockwise, as an outer ring is" };
        let parts = [
            (repeated > 0).then(|| format!("{} taken out that stood twice in a row", count(repeated, "point"))),
            unclosed.then(|| "its last point added, which is its first".to_string()),
            turned.then(|| format!("turned {way}")),
        ];
        let parts: Vec<String> = parts.into_iter().flatten().collect();
        if !parts.is_empty() {
            self.rings.push(format!("{}: {}", place(), parts.join("; ")));
        }
    }
}

/// The lists of rings of a geometry, as `geojson::collect` numbers its polygons.
fn polygons_of<'a>(geometry: &'a mut Value, into: &mut Vec<&'a mut Vec<Value>>) {
    let kind = kind_of(geometry).to_string();
    let list = match kind.as_str() {
        "Polygon" | "MultiPolygon" => geometry.get_mut("coordinates"),
        "GeometryCollection" => geometry.get_mut("geometries"),
        _ => None,
    };
    let Some(list) = list.and_then(Value::as_array_mut) else { return };
    match kind.as_str() {
        "Polygon" => into.push(list),
        "MultiPolygon" => into.extend(list.iter_mut().filter_map(Value::as_array_mut)),
        _ => list.iter_mut().for_each(|part| polygons_of(part, into)),
    }
}

/// Whether two positions have the same numbers, heights too.
fn is_same(a: &Value, b: &Value) -> bool {
    let numbers = |value: &Value| value.as_array().map(|list| list.iter().map(Value::as_f64).collect::<Vec<_>>());
    numbers(a) == numbers(b)
}

/// Twice a ring's area, positive where it turns counterclockwise; about its first point, so that small rings keep their digits.
fn doubled_area(points: &[Value]) -> f64 {
    let number = |point: &Value, i: usize| point.get(i).and_then(Value::as_f64).unwrap_or(0.0);
    let Some(first) = points.first() else { return 0.0 };
    let from = |point: &Value| (number(point, 0) - number(first, 0), number(point, 1) - number(first, 1));
    points.windows(2).map(|two| (from(&two[0]), from(&two[1]))).map(|(a, b)| a.0 * b.1 - b.0 * a.1).sum()
}

#[cfg(test)]
mod tests {
    use super::*;
    use serde_json::json;

    #[test]
    fn all_three_are_mended_and_told() {
        let geometry = json!({"type": "Polygon", "coordinates": [
            [[0, 0], [0, 9], [9, 9], [9, 9.0], [9, 0], [0, 0]],
            [[1, 1], [1, 2], [2, 2]],
            [[5, 5], [6, 5], [6, 6], [5, 5]],
        ]});
        let mut drawing = json!({"type": "FeatureCollection", "kept": 1, "features": [{"type": "Feature", "properties": {"Name": "A", "n": 7}, "geometry": geometry}]});
        let mended = mend(&mut drawing);
        assert_eq!(
            mended.lines(),
            [
                "feature 1 (A), ring 1: 1 point taken out that stood twice in a row; turned counterclockwise, as an outer ring is",
                "feature 1 (A), ring 2: its last point added, which is its first",
                "feature 1 (A), ring 3: turned clockwise, as a hole is",
            ]
        );
        assert_eq!(mended.summary(), "2 rings wound the other way, 1 point twice in a row, 1 ring without the last point");
        let rings = &drawing["features"][0]["geometry"]["coordinates"];
        assert_eq!(rings[0], json!([[0, 0], [9, 0], [9, 9], [0, 9], [0, 0]]));
        assert_eq!(rings[1], json!([[1, 1], [1, 2], [2, 2], [1, 1]]));
        assert_eq!((&drawing["kept"], &drawing["features"][0]["properties"]["n"]), (&json!(1), &json!(7)));
        assert!(mend(&mut drawing).is_empty());
    }

    #[test]
    fn what_is_in_order_stays() {
        let mut drawing: Value = serde_json::from_str(include_str!("../../../examples/yards.geojson")).unwrap();
        let before = drawing.clone();
        assert!(mend(&mut drawing).is_empty());
        assert_eq!(drawing, before);
        // heights that differ are no repeated point
        let mut high = json!({"type": "MultiPolygon", "coordinates": [[[[0, 0, 1], [0, 0, 2], [1, 0, 1], [1, 1, 1], [0, 0, 1]]]]});
        assert!(mend(&mut high).is_empty());
    }
}
