//! `depot verify`: every slip of a day's evidence, worked out again.

use crate::day::{Asked, Line, Reading};
use crate::evidence::{request_of, Basis};
use crate::fault::{Fault, Said};
use crate::slips::{told, Files};
use crate::source;
use crate::words::{count, grouped};
use serde_json::Value;
use std::fmt::Write;
use std::path::Path;

/// A line of evidence, and what is asked for again by it.
struct Held {
    evidence: Value,
    line: Line,
    reading: Reading,
}

/// Says first whether the files are those of the evidence, and then which of its slips do not come out again.
pub fn run(path: &Path, files: &Files) -> Result<Said, Fault> {
    let (held, bad) = read(path)?;
    let printer = files.open(held.len())?.printer;
    let basis = Basis::of(&printer);
    let mut text = others(files, &basis, &held);
    let same_files = text.is_empty();
    bad.iter().for_each(|words| text.push_str(words));
    let asked: Vec<Result<Asked, String>> = held.iter().map(|held| held.reading.asked(&held.line)).collect();
    let differ = told(&printer, &asked, |i, slip| {
        let Held { evidence, line, reading } = &held[i];
        differences(evidence, &basis.evidence(&printer, line, reading, &slip))
    });
    let wrong = differ.iter().filter(|words| !words.is_empty()).count();
    differ.iter().for_each(|words| text.push_str(words));
    let all = held.len() + bad.len();
    let same = held.len() - wrong;
    let _ = write!(text, "{}: {}, {} {} out again", path.display(), count(all, "slip"), grouped(same), if same == 1 { "comes" } else { "come" });
    for (number, words) in [(wrong, if wrong == 1 { "differs" } else { "differ" }), (bad.len(), "can't be read")] {
        if number > 0 {
            let _ = write!(text, ", {} {words}", grouped(number));
        }
    }
    text.push('\n');
    Ok(Said { text, yes: same_files && wrong + bad.len() == 0 })
}

/// The lines of a file, and what is said of those that are no evidence.
fn read(path: &Path) -> Result<(Vec<Held>, Vec<String>), Fault> {
    let bytes = source::bytes(path)?;
    let text = source::unmarked(&bytes);
    let (mut all, mut bad) = (vec![], vec![]);
    for (i, line) in text.split(|byte| *byte == b'\n').enumerate().filter(|(_, line)| !line.iter().all(u8::is_ascii_whitespace)) {
        match held(line) {
            Ok(held) => all.push(held),
            Err(words) => bad.push(format!("{}, line {}: {words}\n", path.display(), i + 1)),
        }
    }
    if all.is_empty() {
        let words = bad.first().map_or("it is empty\n", String::as_str);
        return Err(Fault::file(path, format!("has no evidence: {}; give what depot stamp --evidence wrote", words.trim_end())));
    }
    Ok((all, bad))
}

fn held(line: &[u8]) -> Result<Held, String> {
    let evidence: Value = serde_json::from_slice(line).map_err(|error| format!("is no JSON: {error}"))?;
    let (line, reading) = request_of(&evidence)?;
    Ok(Held { evidence, line, reading })
}

/// What is said of slips that rest on other files, or on another library.
fn others(files: &Files, basis: &Basis, held: &[Held]) -> String {
    let named: Vec<Basis> = held.iter().map(|held| Basis::named(&held.evidence)).collect();
    let map = unlike("another map than that", &files.map.display().to_string(), &basis.map, named.iter().map(|named| &named.map));
    let zones = unlike("other zones than those", &files.zones.display().to_string(), &basis.zones, named.iter().map(|named| &named.zones));
    let library = unlike("another library than that", "this release", &basis.library, named.iter().map(|named| &named.library));
    map + &zones + &library
}

/// A line for each thing that slips name and that is not the one at hand.
fn unlike<'a>(what: &str, given: &str, here: &Value, theirs: impl Iterator<Item = &'a Value>) -> String {
    let mut kinds: Vec<(&Value, usize)> = vec![];
    for named in theirs.filter(|named| *named != here) {
        match kinds.iter_mut().find(|(known, _)| *known == named) {
            Some((_, number)) => *number += 1,
            None => kinds.push((named, 1)),
        }
    }
    kinds.iter().map(|(named, number)| format!("{what} of {}: {given} is {here}, theirs {named}\n", count(*number, "slip"))).collect()
}

/// What was kept and comes out otherwise; nothing of the files and the library, which is said once.
fn differences(kept: &Value, again: &Value) -> String {
    let none = serde_json::Map::new();
    let (kept, again) = (kept.as_object().unwrap_or(&none), again.as_object().unwrap_or(&none));
    let names = kept.keys().chain(again.keys().filter(|name| !kept.contains_key(*name)));
    let apart = |name: &&String| !["library", "map", "zones"].contains(&name.as_str()) && kept.get(*name) != again.get(*name);
    let number = kept.get("number").map(Value::to_string).unwrap_or_default();
    names.filter(apart).fold(String::new(), |mut text, name| {
        let shown = |value: Option<&Value>| value.map_or("nothing".into(), Value::to_string);
        let _ = writeln!(text, "slip {number}: {name} was {}, comes out as {}", shown(kept.get(name)), shown(again.get(name)));
        text
    })
}
