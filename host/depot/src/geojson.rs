//! Polygons and their properties, out of GeoJSON (RFC 7946).

use crate::drawing;
use crate::fault::Fault;
use serde_json::{Map as Object, Value};
use std::fmt;
use std::path::Path;

/// A place in degrees.
#[derive(Clone, Copy, Debug, PartialEq)]
pub struct Position {
    pub lat: f64,
    pub lon: f64,
}

/// A ring without its closing point.
pub type Ring = Vec<Position>;

/// A feature: its properties in file order, and its polygons, each an outer ring and the rings of its holes.
#[derive(Clone, Debug)]
pub struct Feature {
    pub name: FeatureName,
    pub properties: Vec<(String, String)>,
    pub polygons: Vec<Vec<Ring>>,
}

/// How messages call a feature.
#[derive(Clone, Debug)]
pub struct FeatureName {
    /// Its number in the file, from 1.
    pub number: usize,
    /// Its name or id, where it has one.
    pub label: Option<String>,
}

impl fmt::Display for FeatureName {
    fn fmt(&self, f: &mut fmt::Formatter) -> fmt::Result {
        write!(f, "feature {}", self.number)?;
        self.label.iter().try_for_each(|label| write!(f, " ({label})"))
    }
}

/// All features with polygons, and notes on those without.
#[derive(Clone, Debug)]
pub struct Collection {
    pub features: Vec<Feature>,
    pub notes: Vec<String>,
}

/// Reads a file.
pub fn read(path: &Path) -> Result<Collection, Fault> {
    read_with(path).map(|(_, all)| all)
}

/// A file's JSON, and what it holds.
pub fn read_with(path: &Path) -> Result<(Value, Collection), Fault> {
    let (value, notes) = drawing::read(path)?;
    let mut all = collect(&value).map_err(|words| Fault::file(path, words))?;
    all.notes.splice(..0, notes);
    Ok((value, all))
}

/// The features of a FeatureCollection; a Feature or a geometry alone is one feature.
pub fn collect(value: &Value) -> Result<Collection, String> {
    let mut all = Collection { features: vec![], notes: vec![] };
    check_crs(value)?;
    match kind_of(value) {
        "FeatureCollection" => {
            let features = value.get("features").and_then(Value::as_array);
            let features = features.ok_or("the FeatureCollection has no list \"features\"")?;
            for (i, feature) in features.iter().enumerate() {
                all.take(i + 1, feature)?;
            }
        }
        "Feature" => all.take(1, value)?,
        "Polygon" | "MultiPolygon" | "GeometryCollection" => {
            let name = FeatureName { number: 1, label: None };
            let polygons = polygons_of(value, &name)?;
            all.features.push(Feature { name, properties: vec![], polygons });
        }
        "" => return Err("is no GeoJSON: its outermost value has no \"type\"; a FeatureCollection of polygons is wanted".into()),
        kind => return Err(format!("is a {kind}; a FeatureCollection of polygons is wanted")),
    }
    Ok(all)
}

pub(crate) fn kind_of(value: &Value) -> &str {
    value.get("type").and_then(Value::as_str).unwrap_or("")
}

/// How messages call a feature of this number.
pub(crate) fn name_of(number: usize, feature: &Value) -> FeatureName {
    let none = Object::new();
    let properties = feature.get("properties").and_then(Value::as_object).unwrap_or(&none);
    FeatureName { number, label: label_of(feature, properties) }
}

/// Longitude and latitude on WGS 84, as programs call it that write the member `crs`; RFC 7946 knows no other.
const WGS_84: [&str; 5] = ["CRS84", "CRS84h", "4326", "4979", "WGS84"];

fn check_crs(value: &Value) -> Result<(), String> {
    let Some(crs) = value.get("crs").filter(|crs| !crs.is_null()) else { return Ok(()) };
    let name = crs.pointer("/properties/name").and_then(Value::as_str);
    if name.and_then(|name| name.rsplit([':', '/', '#']).next()).is_some_and(|code| WGS_84.contains(&code)) {
        return Ok(());
    }
    let what = name.map_or_else(|| crs.to_string(), str::to_string);
    let advice = "ogr2ogr -t_srs OGC:CRS84 NEW.geojson OLD.geojson makes them so, or take the member \"crs\" out where they are";
    Err(format!("its coordinates are said to be those of {what}, and degrees on WGS 84 are wanted: {advice}"))
}

impl Collection {
    fn take(&mut self, number: usize, value: &Value) -> Result<(), String> {
        let none = Object::new();
        let properties = value.get("properties").and_then(Value::as_object).unwrap_or(&none);
        let name = name_of(number, value);
        check_crs(value).map_err(|words| format!("{name}: {words}"))?;
        if kind_of(value) != "Feature" {
            return Err(format!("{name}: its type is {:?}, not \"Feature\"", kind_of(value)));
        }
        match value.get("geometry") {
            None | Some(Value::Null) => self.notes.push(format!("{name} has no geometry and is left out")),
            Some(geometry) => {
                let polygons = polygons_of(geometry, &name)?;
                let properties = properties.iter().map(|(key, value)| (key.clone(), text_of(value))).collect();
                self.features.push(Feature { name, properties, polygons });
            }
        }
        Ok(())
    }
}

/// The first of these properties that is there, or the feature's id.
const LABELS: [&str; 6] = ["Name", "name", "NAME", "tzid", "TimezoneId", "id"];

fn label_of(feature: &Value, properties: &Object<String, Value>) -> Option<String> {
    let named = LABELS.iter().find_map(|key| properties.get(*key)).or_else(|| feature.get("id"));
    named.map(text_of).filter(|label| !label.is_empty())
}

/// A property as a field's value: a text as it is, null as nothing, all else as JSON writes it.
fn text_of(value: &Value) -> String {
    match value {
        Value::String(text) => text.clone(),
        Value::Null => String::new(),
        other => other.to_string(),
    }
}

fn polygons_of(geometry: &Value, name: &FeatureName) -> Result<Vec<Vec<Ring>>, String> {
    let list = |key| {
        let list = geometry.get(key).and_then(Value::as_array);
        list.ok_or_else(|| format!("{name}: its geometry has no list {key:?}"))
    };
    check_crs(geometry).map_err(|words| format!("{name}: {words}"))?;
    match kind_of(geometry) {
        "Polygon" => Ok(vec![polygon_of(list("coordinates")?, name, None)?]),
        "MultiPolygon" => {
            let polygons = list("coordinates")?.iter().enumerate();
            polygons.map(|(i, polygon)| polygon_of(array_of(polygon, name)?, name, Some(i + 1))).collect()
        }
        "GeometryCollection" => {
            let parts: Result<Vec<_>, String> = list("geometries")?.iter().map(|part| polygons_of(part, name)).collect();
            Ok(parts?.concat())
        }
        kind => Err(format!("{name} is a {kind}: a yard is a Polygon or a MultiPolygon; take it out of the file")),
    }
}

fn array_of<'a>(value: &'a Value, name: &FeatureName) -> Result<&'a Vec<Value>, String> {
    value.as_array().ok_or_else(|| format!("{name}: {value} stands where a list of coordinates is wanted"))
}

fn polygon_of(rings: &[Value], name: &FeatureName, polygon: Option<usize>) -> Result<Vec<Ring>, String> {
    if rings.is_empty() {
        return Err(format!("{name}: a polygon without a ring"));
    }
    let ring = |(i, ring)| {
        let place = match polygon {
            Some(polygon) => format!("{name}, polygon {polygon}, ring {}", i + 1),
            None => format!("{name}, ring {}", i + 1),
        };
        ring_of(array_of(ring, name)?, &place)
    };
    rings.iter().enumerate().map(ring).collect()
}

/// The ring's points, the closing one left out.
fn ring_of(points: &[Value], place: &str) -> Result<Ring, String> {
    let point = |(i, point)| position_of(point).map_err(|words| format!("{place}, point {}: {words}", i + 1));
    let mut ring: Ring = points.iter().enumerate().map(point).collect::<Result<_, String>>()?;
    if ring.len() > 1 && ring.first() == ring.last() {
        ring.pop();
    }
    if ring.len() < 3 {
        return Err(format!("{place}: it has {} points, the closing one not counted; at least 3 are wanted", ring.len()));
    }
    for (i, here) in ring.iter().enumerate() {
        let next = ring[(i + 1) % ring.len()];
        let wide = (here.lon - next.lon).abs();
        if wide > 180.0 && wide < 360.0 {
            let words = "it crosses the 180th meridian: cut the polygon there into two (RFC 7946, 3.1.9)";
            return Err(format!("{place}, point {}: the edge to the next point is {wide} degrees of longitude long; {words}", i + 1));
        }
    }
    Ok(ring)
}

fn position_of(value: &Value) -> Result<Position, String> {
    let numbers = value.as_array().filter(|numbers| numbers.len() >= 2);
    let pair = numbers.and_then(|numbers| numbers[0].as_f64().zip(numbers[1].as_f64()));
    let (lon, lat) = pair.ok_or_else(|| format!("{value} is not [longitude, latitude]"))?;
    if lat.abs() > 90.0 {
        let swapped = if lon.abs() <= 90.0 && lat.abs() <= 180.0 { "; GeoJSON has the longitude first" } else { "" };
        return Err(format!("latitude {lat} is not between -90 and 90{swapped}"));
    }
    if lon.abs() > 180.0 {
        return Err(format!("longitude {lon} is not between -180 and 180"));
    }
    Ok(Position { lat, lon })
}

#[cfg(test)]
mod tests {
    use super::*;
    use serde_json::json;

    fn fault(geometry: Value) -> String {
        let features = json!([{"type": "Feature", "properties": {"Name": "Tank"}, "geometry": geometry}]);
        collect(&json!({"type": "FeatureCollection", "features": features})).unwrap_err()
    }

    #[test]
    fn faults_name_feature_ring_and_point() {
        let ring = json!([[1, 1], [2, 1], [2, 2], [1, 1]]);
        let bad = json!([[1, 1], [2, "x"], [2, 2], [1, 1]]);
        assert_eq!(
            fault(json!({"type": "Polygon", "coordinates": [ring, bad]})),
            "feature 1 (Tank), ring 2, point 2: [2,\"x\"] is not [longitude, latitude]"
        );
        let swapped = json!([[1, 1], [2, 1], [52.5, 113.4], [1, 1]]);
        assert_eq!(
            fault(json!({"type": "MultiPolygon", "coordinates": [[ring], [swapped]]})),
            "feature 1 (Tank), polygon 2, ring 1, point 3: latitude 113.4 is not between -90 and 90; GeoJSON has the longitude first"
        );
        let short = json!([[1, 1], [2, 1], [1, 1]]);
        assert!(fault(json!({"type": "Polygon", "coordinates": [short]})).contains("it has 2 points"));
        let around = json!([[179, 1], [-179, 1], [-179, 2], [179, 2], [179, 1]]);
        assert!(fault(json!({"type": "Polygon", "coordinates": [around]})).contains("point 1: the edge to the next point is 358 degrees"));
        assert!(fault(json!({"type": "Point", "coordinates": [1, 2]})).contains("feature 1 (Tank) is a Point"));
        assert!(fault(json!({"type": "Polygon", "coordinates": 7})).contains("no list \"coordinates\""));
        assert!(fault(json!({"type": "Polygon", "coordinates": []})).contains("a polygon without a ring"));
    }

    #[test]
    fn what_is_no_collection() {
        assert!(collect(&json!([1, 2])).unwrap_err().contains("is no GeoJSON"));
        assert!(collect(&json!({"type": "LineString"})).unwrap_err().contains("is a LineString"));
        assert!(collect(&json!({"type": "FeatureCollection"})).unwrap_err().contains("no list"));
        let other = json!({"type": "FeatureCollection", "features": [{"type": "Polygon"}]});
        assert!(collect(&other).unwrap_err().contains("feature 1: its type is \"Polygon\""));
    }

    #[test]
    fn coordinates_of_another_kind() {
        let named = |name: &str| json!({"type": "FeatureCollection", "features": [], "crs": {"type": "name", "properties": {"name": name}}});
        for name in ["urn:ogc:def:crs:OGC:1.3:CRS84", "EPSG:4326", "urn:ogc:def:crs:EPSG::4326", "http://www.opengis.net/def/crs/OGC/1.3/CRS84"] {
            assert!(collect(&named(name)).is_ok(), "{name}");
        }
        let words = collect(&named("urn:ogc:def:crs:EPSG::4267")).unwrap_err();
        assert!(words.starts_with("its coordinates are said to be those of urn:ogc:def:crs:EPSG::4267") && words.contains("ogr2ogr -t_srs"), "{words}");
        assert!(collect(&json!({"type": "FeatureCollection", "features": [], "crs": null})).is_ok());
        assert!(collect(&json!({"type": "FeatureCollection", "features": [], "crs": {"type": "link"}})).is_err());
        let inner = json!({"type": "Polygon", "coordinates": [], "crs": {"type": "name", "properties": {"name": "EPSG:3857"}}});
        assert!(fault(inner).starts_with("feature 1 (Tank): its coordinates are said to be those of EPSG:3857"));
    }

    #[test]
    fn properties_are_texts_in_file_order() {
        let feature = json!({"type": "Feature", "geometry": {"type": "Polygon", "coordinates": [[[1, 1], [2, 1], [2, 2]]]},
            "properties": {"z": "last letter", "a": 7, "open": true, "none": null, "list": [1, 2]}});
        let all = collect(&feature).unwrap();
        let texts: Vec<(&str, &str)> = all.features[0].properties.iter().map(|(key, text)| (key.as_str(), text.as_str())).collect();
        assert_eq!(texts, [("z", "last letter"), ("a", "7"), ("open", "true"), ("none", ""), ("list", "[1,2]")]);
    }

    #[test]
    fn a_feature_without_geometry_is_left_out() {
        let feature = json!({"type": "Feature", "geometry": null, "properties": {"Name": "Gate"}});
        let all = collect(&feature).unwrap();
        assert!(all.features.is_empty());
        assert_eq!(all.notes, ["feature 1 (Gate) has no geometry and is left out"]);
    }
}
