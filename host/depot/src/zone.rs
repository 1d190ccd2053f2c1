//! `depot zone`: which zones hold a fix.

use crate::fault::{Fault, Said};
use crate::{index, source, words};
use std::fmt::Write;
use std::path::{Path, PathBuf};
use uskelzar::{zone_name, End, Error, Field, Map, Number, Table};

/// How a file is read.
pub enum Way {
    Plain,
    /// A number that its end cuts is refused.
    Strict,
    /// Plainly, with its entries from an index.
    Through(PathBuf),
    /// Plainly, by an atlas.
    Atlas(PathBuf),
}

/// Says the zones that hold a fix, and how the search ended; explained, with the entry behind each.
pub fn run(path: &Path, lat: f32, lon: f32, way: Way, explain: bool) -> Result<Said, Fault> {
    let map = match &way {
        Way::Atlas(atlas) => source::open_with(path, atlas)?,
        Way::Strict => Map::open_strict(source::bytes(path)?).map_err(|error| strictly(path, error))?,
        _ => source::open(path, false)?,
    };
    let zones = match way {
        Way::Plain | Way::Atlas(_) => map.lookup(lat, lon).map_err(|error| Fault::map(path, error))?,
        Way::Strict => map.lookup_strict(lat, lon).map_err(|error| strictly(path, error))?,
        Way::Through(index) => index::lookup(&index, (path, &map), (lat, lon))?,
    };
    let mut text = String::new();
    for zone in &zones.matches {
        let _ = writeln!(text, "{}: {}", title(map.header().table, &zone.fields, zone.metadata), words::kind(zone.kind));
        for Field { name, value } in &zone.fields {
            let _ = writeln!(text, "  {name}: {value}");
        }
        if explain {
            let _ = writeln!(text, "  {}", behind(&map, zone.entry));
        }
    }
    if zones.matches.is_empty() {
        text.push_str("no zone holds the fix\n");
    }
    let _ = writeln!(text, "search: {}", words::end(zones.end));
    if explain {
        // without a box that holds the fix the distance is larger than the world
        let far = zones.safezone.abs() > 360.0;
        let distance = if far { "no border was near".into() } else { format!("the nearest border is {:.6} degrees away", zones.safezone) };
        let _ = writeln!(text, "{distance}");
    }
    Ok(Said { text, yes: zones.end == End::Whole && !zones.matches.is_empty() })
}

/// A strict reading's error. Here alone a number that the file's end cuts need not be the end: no other verb has --strict.
fn strictly(path: &Path, error: Error) -> Fault {
    let cut = matches!(&error, Error::Refused(why) if why.number == Number::Incomplete);
    match Fault::map(path, error) {
        Fault::No(words) if cut => Fault::No(format!("{words}, or look it up without --strict")),
        fault => fault,
    }
}

fn behind(map: &Map<Vec<u8>>, place: u32) -> String {
    map.entry(place).map_or_else(|| format!("no entry begins at byte {place}"), |entry| words::entry(&entry))
}

/// What a zone is called: as simple lookups do, and by its number where it has no such fields.
pub fn title(table: Table, fields: &[Field], metadata: u32) -> String {
    let field = |name| fields.iter().rev().find(|field| field.name == name).map(|field| field.value.as_str());
    let joined = match table {
        Table::TimeZones => zone_name(fields),
        Table::Countries => field("Name").map(str::to_string),
    };
    let name = joined.filter(|name| !name.is_empty()).unwrap_or_else(|| format!("zone {metadata}"));
    // a yard's own name beside its time zone
    match (table, field("Name")) {
        (Table::TimeZones, Some(yard)) if !yard.is_empty() => format!("{name}, {yard}"),
        _ => name,
    }
}
