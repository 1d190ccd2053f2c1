//! `depot show`: what a file holds, in words or as GeoJSON.

use crate::fault::{Fault, Said};
use crate::grid::{doubled_area, side, Grid, Point};
use crate::words::{self, count};
use crate::zone::title;
use crate::{output, source};
use serde_json::{json, Value};
use std::fmt::Write;
use std::path::Path;
use uskelzar::{Entry, Field, Map, Table, Unread};

/// A border of a file.
pub(crate) struct Border {
    pub entry: Entry,
    pub points: Result<Vec<Point>, Unread>,
}

impl Border {
    /// It turns the way that takes a fix out of its zone.
    pub fn is_hole(&self) -> bool {
        self.points.as_ref().is_ok_and(|points| doubled_area(points) > 0)
    }
}

/// A zone: its number, its fields, and its borders in the order of the data.
pub(crate) struct Zone {
    pub metadata: u32,
    pub fields: Result<Vec<Field>, Unread>,
    pub borders: Vec<Border>,
}

/// A file's zones in the order of their first borders, and why the table can't be read further, if so.
pub(crate) fn zones_of(map: &Map<Vec<u8>>) -> (Vec<Zone>, Option<Unread>) {
    let (mut entries, mut stop) = (vec![], None);
    match map.entries() {
        Err(why) => stop = Some(why),
        Ok(all) => {
            for entry in all {
                match entry {
                    Ok(entry) => entries.push(entry),
                    Err(why) => stop = Some(why),
                }
            }
        }
    }
    entries.sort_by_key(|entry| entry.border);
    let mut zones: Vec<Zone> = vec![];
    let mut places = std::collections::HashMap::new();
    for entry in entries {
        let metadata = entry.metadata;
        let place = *places.entry(metadata).or_insert_with(|| {
            zones.push(Zone { metadata, fields: map.fields(metadata), borders: vec![] });
            zones.len() - 1
        });
        let points = map.border(&entry);
        zones[place].borders.push(Border { entry, points });
    }
    (zones, stop)
}

/// Says what a file holds.
pub fn run(path: &Path) -> Result<Said, Fault> {
    let map = source::open(path, false)?;
    let (zones, stop) = zones_of(&map);
    let mut text = head(path, &map);
    let borders: usize = zones.iter().map(|zone| zone.borders.len()).sum();
    let points: u64 = zones.iter().flat_map(|zone| &zone.borders).filter_map(|border| border.entry.points).sum();
    let _ = writeln!(text, "{} with {} of {}", count(zones.len(), "zone"), count(borders, "border"), count(points as usize, "point"));
    for zone in &zones {
        tell(&mut text, map.header().table, zone);
    }
    if let Some(why) = stop {
        let _ = writeln!(text, "the table can't be read further: {why}");
    }
    Ok(Said { yes: stop.is_none(), text })
}

pub(crate) fn head(path: &Path, map: &Map<Vec<u8>>) -> String {
    let header = map.header();
    let kind = match header.table {
        Table::TimeZones => "time zones (type T)",
        Table::Countries => "countries (type C)",
    };
    let step = words::length(Grid { precision: header.precision }.metres());
    let mut text = format!("{}: {kind}, version {}, precision {} (a step is {step}), {}\n", path.display(), header.version, header.precision, count(map.bytes().len(), "byte"));
    if let Ok(sizes) = map.sizes() {
        let _ = writeln!(text, "header {}, table {}, metadata {}, data {} bytes", sizes.header, sizes.table, sizes.metadata, sizes.data);
    }
    let _ = writeln!(text, "fields: {}", header.names.join(", "));
    if !header.notice.is_empty() {
        let _ = writeln!(text, "notice: {}", header.notice);
    }
    text
}

fn tell(text: &mut String, table: Table, zone: &Zone) {
    match &zone.fields {
        Ok(fields) => {
            let _ = writeln!(text, "{}", title(table, fields, zone.metadata));
            for field in fields {
                let _ = writeln!(text, "  {}: {}", field.name, field.value);
            }
        }
        Err(why) => {
            let _ = writeln!(text, "zone {}: its fields can't be read: {why}", zone.metadata);
        }
    }
    for border in &zone.borders {
        let hole = if border.is_hole() { ", a hole" } else { "" };
        let _ = writeln!(text, "  {}{hole}", words::entry(&border.entry));
        if let Err(why) = border.points {
            let _ = writeln!(text, "    {why}");
        }
    }
}

/// Writes a file's borders as GeoJSON: to a file, or what is to be printed.
pub fn geojson(path: &Path, output: Option<&Path>) -> Result<Said, Fault> {
    let map = source::open(path, false)?;
    let (zones, stop) = zones_of(&map);
    let unread = zones.iter().flat_map(|zone| &zone.borders).find_map(|border| border.points.as_ref().err().map(|why| (border.entry.number, why)));
    if let Some((number, why)) = unread {
        return Err(Fault::No(format!("{}: the border of entry {number}: {why}; depot check says more", path.display())));
    }
    if let Some(why) = stop.or_else(|| zones.iter().find_map(|zone| zone.fields.as_ref().err().copied())) {
        return Err(Fault::No(format!("{}: {why}; depot check says more", path.display())));
    }
    let features: Vec<Value> = zones.iter().map(|zone| feature(&map, zone)).collect();
    let all = json!({"type": "FeatureCollection", "features": features});
    let Some(output) = output else {
        return Ok(Said::yes(format!("{all}\n")));
    };
    output::write_whole(output, &[path], |out| writeln!(out, "{all}"))?;
    Ok(Said::yes(format!("{}: {}\n", output.display(), count(zones.len(), "feature"))))
}

fn feature(map: &Map<Vec<u8>>, zone: &Zone) -> Value {
    let fields = zone.fields.iter().flatten();
    let properties: serde_json::Map<String, Value> = fields.map(|field| (field.name.clone(), json!(field.value))).collect();
    let mut polygons: Vec<Value> = polygons_of(&zone.borders).iter().map(|rings| json!(rings.iter().map(|ring| ring_of(map, ring)).collect::<Vec<_>>())).collect();
    let geometry = match polygons.len() {
        1 => json!({"type": "Polygon", "coordinates": polygons.remove(0)}),
        _ => json!({"type": "MultiPolygon", "coordinates": polygons}),
    };
    json!({"type": "Feature", "properties": properties, "geometry": geometry})
}

/// Each outer border with the holes that lie in it. A hole that lies in none is a polygon of its own, as lookups take it.
fn polygons_of(borders: &[Border]) -> Vec<Vec<&[Point]>> {
    let rings = |hole: bool| borders.iter().filter(move |border| border.is_hole() == hole).flat_map(|border| border.points.iter().map(Vec::as_slice));
    let mut polygons: Vec<Vec<&[Point]>> = rings(false).map(|ring| vec![ring]).collect();
    for hole in rings(true) {
        let holders = polygons.iter_mut().filter(|polygon| doubled_area(polygon[0]) < 0 && lies_in(hole, polygon[0]));
        match holders.min_by_key(|polygon| doubled_area(polygon[0]).unsigned_abs()) {
            Some(polygon) => polygon.push(hole),
            None => polygons.push(vec![hole]),
        }
    }
    polygons
}

/// By the first of its points that is not on the other's border; with none, by the area.
pub(crate) fn lies_in(inner: &[Point], outer: &[Point]) -> bool {
    let place = inner.iter().find_map(|point| side(*point, outer));
    place.unwrap_or_else(|| doubled_area(inner).unsigned_abs() <= doubled_area(outer).unsigned_abs())
}

/// A closed ring, [longitude, latitude]; outer ones counterclockwise, holes clockwise, as RFC 7946 has them.
fn ring_of(map: &Map<Vec<u8>>, points: &[Point]) -> Value {
    let mut points = points.to_vec();
    points.dedup();
    points[1..].reverse();
    let first = points[0];
    if points.last() != Some(&first) {
        points.push(first);
    }
    let position = |point: &Point| {
        let (lat, lon) = map.degrees(*point);
        json!([lon, lat])
    };
    points.iter().map(position).collect()
}

#[cfg(test)]
mod tests {
    use super::*;

    const SQUARE: [Point; 4] = [(0, 0), (10, 0), (10, 10), (0, 10)];

    #[test]
    fn rings_in_rings() {
        assert!(lies_in(&[(0, 0), (0, 10), (5, 5)], &SQUARE));
        assert!(lies_in(&SQUARE, &SQUARE));
        assert!(!lies_in(&[(0, 10), (0, 20), (10, 15)], &SQUARE));
    }
}
