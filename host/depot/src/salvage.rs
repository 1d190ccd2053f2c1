//! `depot salvage`: a new file with what is left of a damaged one.

use crate::check::Found;
use crate::dropped::{told, Told, ASKED};
use crate::fault::{Fault, Said};
use crate::output::write_whole;
use crate::source;
use crate::words::{count, few};
use std::collections::HashSet;
use std::path::Path;
use uskelzar::{Dropped, Map, Reason, Salvaged};

/// Writes each entry that is whole into a new file, and says why the others are not, and where what was kept is not in order.
pub fn run(path: &Path, output: &Path) -> Result<Said, Fault> {
    let file = source::bytes(path)?;
    let salvaged = uskelzar::salvage(&file).map_err(|error| Fault::map(path, error))?;
    let new = Map::open_strict(salvaged.file.clone()).map_err(|error| Fault::map(output, error))?;
    let found = Found::in_map(&new);
    write_whole(output, &[path], |out| out.write_all(&salvaged.file))?;
    let mut lines = vec![];
    lines.extend(told_of(Map::open_strict(file).ok().as_ref(), &salvaged.dropped).iter().map(|told| told.words(|_| String::new())));
    lines.push(summary(output, &salvaged));
    lines.push(ASKED.to_string());
    if found.faults.is_empty() {
        lines.push("what was kept is in order, as depot check asks".into());
    } else {
        lines.push("what was kept is not in order, as depot check asks:".into());
        let kept = kept(&salvaged);
        let other = |number: u32| kept.get(number as usize).filter(|old| **old != number).map_or(String::new(), |old| format!(" ({old} in {})", path.display()));
        lines.extend(few(&found.faults.iter().map(|told| format!("  {}", told.words(other))).collect::<Vec<_>>()));
    }
    let yes = salvaged.dropped.is_empty() && found.faults.is_empty();
    Ok(Said { yes, text: lines.join("\n") + "\n" })
}

fn summary(output: &Path, salvaged: &Salvaged) -> String {
    let entries = salvaged.dropped.iter().filter(|dropped| dropped.reason != Reason::Behind);
    format!("{}: {} kept, {} dropped; {}", output.display(), count(salvaged.kept, "entry"), entries.count(), count(salvaged.file.len(), "byte"))
}

/// The old numbers of the entries that were kept.
fn kept(salvaged: &Salvaged) -> Vec<u32> {
    let dropped: HashSet<u32> = salvaged.dropped.iter().map(|dropped| dropped.entry).collect();
    (0..).filter(|number| !dropped.contains(number)).take(salvaged.kept).collect()
}

/// Why each entry is dropped, by what is read of the old file where it opens.
fn told_of(map: Option<&Map<Vec<u8>>>, dropped: &[Dropped]) -> Vec<Told> {
    let plain = |dropped: &Dropped| Told { entry: None, words: dropped.to_string() };
    map.map_or_else(|| dropped.iter().map(plain).collect(), |map| told(map, dropped))
}
