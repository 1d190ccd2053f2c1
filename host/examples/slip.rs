//! slip [--strict] FILE LAT LON: the first zone's description, how the search ended, and every field of the zones that hold the fix.
//! With --strict a number that the file's end cuts is refused. Exit status: 0 answered, 1 refused, 2 not run, or answered with a number that the crate does not know. example.c prints the same.

use std::process::ExitCode;
use uskelzar::{End, Error, Kind, Map};

fn end_words(end: End) -> &'static str {
    match end {
        End::Whole => "whole",
        End::TableUnreadable => "stopped at a table entry",
        End::BorderFailed => "stopped at a border",
        End::OutOfOrder => "stopped early in a table out of order",
    }
}

fn kind_words(kind: Kind) -> &'static str {
    match kind {
        Kind::InZone => "in zone",
        Kind::OnBorderVertex => "on border vertex",
        Kind::OnBorderSegment => "on border segment",
    }
}

fn print(map: &Map<Vec<u8>>, lat: f32, lon: f32, strict: bool) -> Result<(), Error> {
    if strict {
        // where it is not refused it is the plain lookup
        map.lookup_strict(lat, lon)?;
    }
    let slip = map.whole_description(lat, lon)?;
    println!("slip: {}", slip.as_deref().unwrap_or("no zone"));
    let zones = map.lookup(lat, lon)?;
    println!(
        "search: {}; safezone {:.6}",
        end_words(zones.end),
        zones.safezone
    );
    for zone in &zones.matches {
        println!(
            "zone: {}, entry at byte {}",
            kind_words(zone.kind),
            zone.entry
        );
        for field in &zone.fields {
            println!("  {}: {}", field.name, field.value);
        }
    }
    Ok(())
}

fn read(path: &str, strict: bool) -> Result<Map<Vec<u8>>, Error> {
    if strict {
        return Map::open_strict(std::fs::read(path)?);
    }
    Map::read(path)
}

fn main() -> ExitCode {
    let mut words: Vec<String> = std::env::args().skip(1).collect();
    let strict = words.first().is_some_and(|word| word == "--strict");
    if strict {
        words.remove(0);
    }
    let [path, lat, lon] = words.as_slice() else {
        eprintln!("usage: slip [--strict] FILE LAT LON");
        return ExitCode::from(2);
    };
    let (Ok(lat), Ok(lon)) = (lat.parse(), lon.parse()) else {
        eprintln!("slip: {lat} {lon} are not two numbers");
        return ExitCode::from(2);
    };
    let done = read(path, strict).and_then(|map| print(&map, lat, lon, strict));
    match done {
        Ok(()) => ExitCode::SUCCESS,
        Err(Error::Refused(refusal)) => {
            println!("{refusal}");
            ExitCode::from(1)
        }
        Err(error) => {
            eprintln!("slip: {path}: {error}");
            ExitCode::from(2)
        }
    }
}
