//! `depot check`: reads all of a file, strictly, asks what salvage asks, and asks the library what lookups in it would meet.

use crate::dropped::{self, Told};
use crate::fault::{Fault, Said};
use crate::grid::Point;
use crate::words::{self, count, few};
use crate::{output, source};
use std::collections::HashSet;
use std::path::Path;
use uskelzar::{End, Entry, Map};

/// What is asked, in words.
const ASKED: &str = "asked besides what salvage asks: the table is in order, each border lies in its box and has 3 different points, \
    and two strict lookups at each entry, in the middle of its box and at its border's first point, are whole";

/// What was read, and what is wrong.
#[derive(Default)]
pub(crate) struct Found {
    entries: usize,
    points: usize,
    zones: HashSet<u32>,
    strings: usize,
    lookups: usize,
    pub faults: Vec<Told>,
}

/// Says whether a file can be relied on.
pub fn run(path: &Path) -> Result<Said, Fault> {
    let map = source::open(path, true)?;
    let found = Found::in_map(&map);
    let mut lines = vec![format!(
        "{}: read {}, {}, {} of {}; asked {}",
        path.display(),
        count(found.entries, "entry"),
        count(found.points, "point"),
        count(found.strings, "string"),
        count(found.zones.len(), "zone"),
        count(found.lookups, "lookup"),
    )];
    lines.extend([dropped::ASKED.to_string(), ASKED.to_string()]);
    lines.extend(few(&found.faults.iter().map(|told| told.words(|_| String::new())).collect::<Vec<_>>()));
    lines.push(if found.faults.is_empty() { "in order\n" } else { "not in order\n" }.into());
    Ok(Said { yes: found.faults.is_empty(), text: lines.join("\n") })
}

impl Found {
    /// All that can be found in a file.
    pub fn in_map(map: &Map<Vec<u8>>) -> Found {
        let mut found = Found::default();
        found.read(map);
        found.salvaged(map);
        found
    }

    fn read(&mut self, map: &Map<Vec<u8>>) {
        let entries = match map.entries() {
            Ok(entries) => entries,
            Err(why) => return self.faults.push(Told { entry: None, words: format!("the header: {why}") }),
        };
        let (mut good, mut last) = (vec![], f64::NEG_INFINITY);
        for entry in entries {
            match entry {
                Ok(entry) => {
                    if entry.lower.0 < last {
                        self.fault(&entry, "its lower latitude is below that of the entry before: the table is not in order");
                    }
                    last = last.max(entry.lower.0);
                    good.push(entry);
                }
                Err(why) => self.faults.push(Told { entry: None, words: format!("the table, behind {}: {why}", count(good.len(), "entry")) }),
            }
        }
        self.entries = good.len();
        let bar = output::progress(good.len(), "entries");
        for entry in &good {
            self.border(map, entry);
            self.fields(map, entry);
            bar.inc(1);
        }
        bar.finish_and_clear();
    }

    fn fault(&mut self, entry: &Entry, words: impl std::fmt::Display) {
        self.faults.push(Told { entry: Some((entry.number, entry.place)), words: words.to_string() });
    }

    /// An entry's border, and what lookups near it meet.
    fn border(&mut self, map: &Map<Vec<u8>>, entry: &Entry) {
        let middle = ((entry.lower.0 + entry.upper.0) / 2.0, (entry.lower.1 + entry.upper.1) / 2.0);
        self.lookup(map, entry, "in the middle of its box", middle);
        let points = match map.border(entry) {
            Ok(points) => points,
            Err(why) => return self.fault(entry, dropped::border_words(entry, why)),
        };
        self.points += points.len();
        if let Some(outside) = points.iter().find(|point| !holds(entry, map.degrees(**point))) {
            let (lat, lon) = map.degrees(*outside);
            self.fault(entry, format!("its border reaches {lat:.6} {lon:.6}, outside its box: lookups there miss it"));
        }
        if points.iter().collect::<HashSet<&Point>>().len() < 3 {
            self.fault(entry, "its border has fewer than 3 different points");
        }
        if let Some(first) = points.first() {
            self.lookup(map, entry, "at its border's first point", map.degrees(*first));
        }
    }

    /// The fields of an entry's zone, once.
    fn fields(&mut self, map: &Map<Vec<u8>>, entry: &Entry) {
        if !self.zones.insert(entry.metadata) {
            return;
        }
        match map.fields(entry.metadata) {
            Ok(fields) => self.strings += fields.len(),
            Err(why) => self.fault(entry, dropped::fields_words(why)),
        }
    }

    fn lookup(&mut self, map: &Map<Vec<u8>>, entry: &Entry, place: &str, (lat, lon): (f64, f64)) {
        self.lookups += 1;
        match map.lookup_strict(lat as f32, lon as f32) {
            Ok(zones) if zones.end == End::Whole => (),
            Ok(zones) => self.fault(entry, format!("a lookup {place}, {lat:.6} {lon:.6}: the search was not whole: {}", words::end(zones.end))),
            Err(error) => self.fault(entry, format!("a lookup {place}, {lat:.6} {lon:.6}: {error}")),
        }
    }

    /// What salvage would drop, of entries on which nothing was said so far.
    fn salvaged(&mut self, map: &Map<Vec<u8>>) {
        match map.salvage() {
            Ok(salvaged) => {
                let told: HashSet<u32> = self.faults.iter().filter_map(|told| told.entry).map(|(number, _)| number).collect();
                let new = salvaged.dropped.iter().filter(|dropped| !told.contains(&dropped.entry));
                self.faults.extend(dropped::told(map, new));
            }
            Err(error) if self.faults.is_empty() => self.faults.push(Told { entry: None, words: format!("salvage would not take it: {error}") }),
            Err(_) => (),
        }
    }
}

fn holds(entry: &Entry, (lat, lon): (f64, f64)) -> bool {
    let ((south, west), (north, east)) = (entry.lower, entry.upper);
    (south..=north).contains(&lat) && (west..=east).contains(&lon)
}
