//! `depot bundle`: the zones' TZif files in one file.

use crate::fault::{Fault, Said};
use crate::words::count;
use crate::{output, source};
use std::collections::{BTreeSet, HashSet};
use std::fmt::Write;
use std::path::{Path, PathBuf};
use uskelzar::{raw, zone_name, Bundle, Bundled, Error, LeftOut, Map, Number, Refusal, TimeZone};

/// Writes the bundle of a folder's zones, or of those that maps name, where there are any.
pub fn run(folder: &Path, output: &Path, maps: &[PathBuf]) -> Result<Said, Fault> {
    let mut names = BTreeSet::new();
    for map in maps {
        names.extend(named(map)?);
    }
    let bundled = if maps.is_empty() { Bundle::of_folder(folder) } else { Bundle::of_zones(folder, names) };
    let bundled = bundled.map_err(|error| no_folder(folder, error))?;
    let told = left_out(&bundled.left_out);
    if bundled.zones.is_empty() {
        return Err(Fault::No(format!("{}: no zone is left; nothing was written\n{}", folder.display(), told.trim_end())));
    }
    let inputs: Vec<&Path> = [folder].into_iter().chain(maps.iter().map(PathBuf::as_path)).collect();
    output::write_whole(output, &inputs, |out| out.write_all(bundled.bundle.to_bytes()))?;
    // a map's zone that is missing will miss on a slip
    let yes = maps.is_empty() || bundled.left_out.is_empty();
    Ok(Said { text: format!("{}: {}\n{told}", output.display(), summary(folder, &bundled)), yes })
}

const WANTED: &str = "give the folder with the zones' TZif files, such as /usr/share/zoneinfo, or what `depot bundle` made of one";

/// The zones' files of a folder, as the bundle that is written of it, with what was left out; or a bundle as it stands.
pub fn opened(place: &Path) -> Result<(Bundle, Vec<LeftOut>), Fault> {
    if place.is_dir() {
        let Bundled { bundle, zones, left_out, .. } = Bundle::of_folder(place).map_err(|error| Fault::file(place, error))?;
        return if zones.is_empty() { Err(Fault::file(place, format!("has no zone: {WANTED}"))) } else { Ok((bundle, left_out)) };
    }
    let bundle = Bundle::of_bytes(source::bytes(place).map_err(|fault| Fault::NotRun(format!("{fault}: {WANTED}")))?);
    match head_fault(&bundle) {
        Some(why) => Err(Fault::No(format!("{}: {why}\n  this is no bundle of zones: {WANTED}", place.display()))),
        None => Ok((bundle, vec![])),
    }
}

/// The bytes of the head, of an entry, and of the name in it.
const HEAD: usize = 24;
const ENTRY: usize = 52;
const NAME: usize = 40;

/// What is wrong with a bundle's head, which every name meets; the fault of an entry has its place, behind the head.
fn head_fault(bundle: &Bundle) -> Option<Refusal> {
    bundle.find("").err().filter(|why| why.number == Number::Bundle && why.detail < HEAD as u64)
}

/// The names that slips can be stamped by: those of entries that the library finds, and whose files it reads.
///
/// The library seeks a name from the index's first entry on. So that a long index is not walked for each of its names, the index is told to begin at the entry that is asked for:
/// where it is the first of its name, the answer is the same.
pub fn names(bundle: &Bundle) -> BTreeSet<String> {
    if head_fault(bundle).is_some() {
        return BTreeSet::new();
    }
    let whole = bundle.to_bytes();
    let place = |at: usize| u32::from_be_bytes([whole[at], whole[at + 1], whole[at + 2], whole[at + 3]]) as usize;
    let field = |at: usize| &whole[at..at + NAME];
    let (mut seen, mut bytes) = (HashSet::new(), whole.to_vec());
    let first = (place(12)..place(16)).step_by(ENTRY).filter(|at| seen.insert(field(*at)));
    let is_read = |at: usize| {
        let name = name_in(field(at))?;
        bytes[12..16].copy_from_slice(&(at as u32).to_be_bytes());
        let [start, length, ..] = raw::bundle_find(&bytes, name.as_bytes()).ok()?;
        TimeZone::new(&bytes[start as usize..][..length as usize]).is_ok().then_some(name)
    };
    first.filter_map(is_read).collect()
}

/// The name of an entry: a text, and zeros behind it.
fn name_in(field: &[u8]) -> Option<String> {
    let length = field.iter().rposition(|byte| *byte != 0).map_or(0, |last| last + 1);
    String::from_utf8(field[..length].to_vec()).ok()
}

fn no_folder(folder: &Path, error: Error) -> Fault {
    Fault::file(folder, format!("{error}: give the folder with the zones' TZif files, such as /usr/share/zoneinfo"))
}

/// The zones that a map names.
fn named(path: &Path) -> Result<BTreeSet<String>, Fault> {
    let map = source::open(path, true)?;
    let unread = |why| Fault::No(format!("{}: {why}\n  depot check names what is wrong", path.display()));
    let mut numbers = BTreeSet::new();
    for entry in map.entries().map_err(unread)? {
        numbers.insert(entry.map_err(unread)?.metadata);
    }
    numbers.into_iter().map(|number| name(&map, number, path)).collect()
}

fn name(map: &Map<Vec<u8>>, number: u32, path: &Path) -> Result<String, Fault> {
    let fields = map.fields(number).map_err(|why| Fault::No(format!("{}: zone {number}: {why}", path.display())))?;
    zone_name(&fields).ok_or_else(|| Fault::No(format!("{}: its zones have no TimezoneIdPrefix and TimezoneId: give a map of time zones", path.display())))
}

fn summary(folder: &Path, bundled: &Bundled) -> String {
    let release = match &bundled.release {
        Some(release) => format!("tzdata {release}"),
        None => format!("of no known release: {} has neither +VERSION nor tzdata.zi with one", folder.display()),
    };
    format!("{} in {}, {}, {release}", count(bundled.zones.len(), "zone"), count(bundled.files, "file"), count(bundled.bundle.to_bytes().len(), "byte"))
}

/// A line for each reason, with all the names that it holds for.
fn left_out(all: &[LeftOut]) -> String {
    let mut reasons: Vec<(String, Vec<&str>)> = vec![];
    for LeftOut { name, why } in all {
        let why = why.to_string();
        match reasons.iter_mut().find(|(known, _)| *known == why) {
            Some((_, names)) => names.push(name),
            None => reasons.push((why, vec![name])),
        }
    }
    reasons.iter().fold(String::new(), |mut text, (why, names)| {
        let _ = writeln!(text, "left out {}, {why}: {}", count(names.len(), "name"), names.join(", "));
        text
    })
}
