//! A drawing's JSON, whatever it comes as: GeoJSON, GeoJSON text sequences (RFC 8142), a feature a line, or what GDAL's ogr2ogr reads.

use crate::fault::Fault;
use crate::source::{self, STANDARD};
use crate::words::count;
use serde_json::{json, Value};
use std::path::Path;
use std::process::Command;

/// The byte before each text of a sequence.
const SEPARATOR: u8 = 0x1e;
/// The program that reads what is no JSON.
const READER: &str = "ogr2ogr";

/// A file's JSON as one value, and what was done to get it, in words.
pub fn read(path: &Path) -> Result<(Value, Vec<String>), Fault> {
    if path.is_dir() {
        return foreign(path);
    }
    let bytes = source::bytes(path)?;
    let text = source::unmarked(&bytes);
    if first(text).is_some_and(|byte| !b"{[\x1e".contains(byte)) && path != Path::new(STANDARD) {
        return foreign(path);
    }
    values(text).map_err(|words| Fault::file(path, words))
}

/// The value of a text; of a sequence of texts the collection of their features.
fn values(text: &[u8]) -> Result<(Value, Vec<String>), String> {
    if first(text) == Some(&SEPARATOR) {
        return sequence(text);
    }
    match serde_json::from_slice(text) {
        Ok(value) => Ok((value, vec![])),
        // more behind the first value: a value a line, if all the lines are
        Err(error) if error.is_syntax() && lines(text).len() > 1 && is_value(lines(text)[0].1) => by_line(text),
        Err(error) => Err(format!("is no JSON: {error}")),
    }
}

/// The first byte that is no blank.
fn first(text: &[u8]) -> Option<&u8> {
    text.iter().find(|byte| !byte.is_ascii_whitespace())
}

fn is_value(line: &[u8]) -> bool {
    serde_json::from_slice::<Value>(line).is_ok()
}

/// The lines that are not empty, with their numbers.
fn lines(text: &[u8]) -> Vec<(usize, &[u8])> {
    (1..).zip(text.split(|byte| *byte == b'\n')).filter(|(_, line)| first(line).is_some()).collect()
}

fn by_line(text: &[u8]) -> Result<(Value, Vec<String>), String> {
    let value = |(number, line): (usize, &[u8])| serde_json::from_slice(line).map_err(|error| format!("line {number} is no JSON: {error}"));
    let values: Vec<Value> = lines(text).into_iter().map(value).collect::<Result<_, String>>()?;
    Ok((joined(&values), vec![format!("{} of JSON, each a text of its own", count(values.len(), "line"))]))
}

/// RFC 8142: each text has a separator before it and a line end behind it. One that is cut is refused.
fn sequence(text: &[u8]) -> Result<(Value, Vec<String>), String> {
    let texts: Vec<&[u8]> = text.split(|byte| *byte == SEPARATOR).filter(|text| first(text).is_some()).collect();
    let value = |(i, text): (usize, &&[u8])| serde_json::from_slice(text).map_err(|error| format!("text {} of the sequence is no JSON: {error}", i + 1));
    let values: Vec<Value> = texts.iter().enumerate().map(value).collect::<Result<_, String>>()?;
    Ok((joined(&values), vec![format!("a sequence of {} (RFC 8142)", count(values.len(), "text"))]))
}

/// The collection of all features; a geometry alone is a feature without properties.
fn joined(values: &[Value]) -> Value {
    let kind = |value: &Value| value.get("type").and_then(Value::as_str).unwrap_or_default().to_string();
    let features = |value: &Value| match kind(value).as_str() {
        "FeatureCollection" => members(value),
        "Polygon" | "MultiPolygon" | "GeometryCollection" => vec![json!({"type": "Feature", "properties": null, "geometry": value})],
        _ => vec![value.clone()],
    };
    json!({"type": "FeatureCollection", "features": values.iter().flat_map(features).collect::<Vec<Value>>()})
}

/// The features of a collection; its `crs` is each one's, so that it is judged.
fn members(collection: &Value) -> Vec<Value> {
    let mut features = collection.get("features").and_then(Value::as_array).cloned().unwrap_or_default();
    if let Some(crs) = collection.get("crs") {
        for feature in features.iter_mut().filter_map(Value::as_object_mut) {
            feature.entry("crs").or_insert_with(|| crs.clone());
        }
    }
    features
}

/// What GDAL reads, in degrees.
fn foreign(path: &Path) -> Result<(Value, Vec<String>), Fault> {
    // a whole path is no option
    let whole = path.canonicalize().map_err(|error| Fault::file(path, error))?;
    let ran = Command::new(READER).args(["-f", "GeoJSON", "-lco", "RFC7946=YES", "/vsistdout/"]).arg(&whole).output();
    let ran = ran.map_err(|error| Fault::file(path, format!("is no GeoJSON, and {READER} does not run ({error}): save it as GeoJSON, or install GDAL's tools (Debian's gdal-bin)")))?;
    let said = String::from_utf8_lossy(&ran.stderr);
    if !ran.status.success() {
        return Err(Fault::file(path, format!("is no GeoJSON, and {READER} does not read it: {}", said.trim())));
    }
    let value = serde_json::from_slice(&ran.stdout).map_err(|error| Fault::file(path, format!("{READER} made no JSON of it: {error}")))?;
    let told = said.lines().filter(|line| !line.trim().is_empty()).map(|line| format!("{READER} says: {line}"));
    Ok((value, [format!("read by {READER}, which gives degrees to seven decimals")].into_iter().chain(told).collect()))
}

#[cfg(test)]
mod tests {
    use super::*;

    fn features(text: &str) -> usize {
        values(text.as_bytes()).unwrap().0["features"].as_array().map_or(0, Vec::len)
    }

    #[test]
    fn sequences_and_lines() {
        let one = r#"{"type":"Feature","properties":{},"geometry":null}"#;
        assert_eq!(features(&format!("\u{1e}{one}\n\u{1e}{one}\n")), 2);
        assert_eq!(features(&format!("{one}\r\n\n{one}\n")), 2);
        assert_eq!(features(&format!("{one}\n{{\"type\":\"FeatureCollection\",\"features\":[{one},{one}]}}\n{{\"type\":\"Polygon\"}}")), 4);
        assert_eq!(values(one.as_bytes()).unwrap(), (serde_json::from_str(one).unwrap(), vec![]));
    }

    #[test]
    fn crs_of_joined_collections() {
        let one = r#"{"type":"FeatureCollection","crs":{"type":"name","properties":{"name":"EPSG:3857"}},"features":[{"type":"Feature","properties":{},"geometry":null}]}"#;
        let (value, _) = values(format!("{one}\n{one}\n").as_bytes()).unwrap();
        assert!(value["features"].as_array().unwrap().iter().all(|feature| feature["crs"]["properties"]["name"] == "EPSG:3857"));
        assert!(crate::geojson::collect(&value).is_err_and(|words| words.contains("EPSG:3857")));
    }

    #[test]
    fn what_is_cut() {
        let one = r#"{"type":"Feature","properties":{},"geometry":null}"#;
        let fault = |text: String| values(text.as_bytes()).unwrap_err();
        assert!(fault(format!("\u{1e}{one}\n\u{1e}{{\"type\":\n")).contains("text 2 of the sequence is no JSON"));
        assert!(fault(format!("{one}\n{one}\n{{\"ty")).contains("line 3 is no JSON"));
        assert!(fault("{\n\"type\": 1,,\n}\n".into()).contains("is no JSON: "));
        assert!(fault(String::new()).contains("is no JSON"));
    }
}
