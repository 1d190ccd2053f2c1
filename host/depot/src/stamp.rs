//! `depot stamp`: a day's requests in, its slips out.

use crate::day::{self, unlike, Asked, Day};
use crate::evidence::Basis;
use crate::fault::{Fault, Said};
use crate::output::{Filled, Output};
use crate::slips::{told, Files, Opened, Reason, Slip};
use crate::words::{count, grouped};
use csv::Writer;
use std::collections::BTreeSet;
use std::path::Path;
use uskelzar::{Number, Stamped};

/// The columns of a stamped slip, behind those of its line: what is printed, and the words of it.
pub(crate) const HOUR: [&str; 5] = ["line", "local", "offset", "abbreviation", "zone"];
/// A column for each way of not stamping.
pub(crate) const WAYS: [&str; 14] = [
    "unreadable line", "no fix", "out of range", "map refused", "no room", "not whole", NO_ZONE, "no names", "no zone file", "bundle damaged", "zone file refused", "hour unknown",
    "outside the years", "hours differ",
];
pub(crate) const NO_ZONE: &str = "no zone";

/// Stamps every line of a file, and writes the slips; and what each of them rests on, where it is asked for.
pub fn run(day: &Path, output: &Path, files: &Files, evidence: Option<&Path>) -> Result<Said, Fault> {
    let to = Output { path: output, option: "-o" };
    let evidence = evidence.map(|path| Output { path, option: "--evidence" });
    evidence.iter().try_for_each(|evidence| to.check_apart(*evidence))?;
    let read = day::read(day)?;
    let opened = files.open(read.lines.len())?;
    let slips = stamped(&opened, &read, evidence.is_some());
    let names = names(&read);
    let inputs: Vec<&Path> = [day].into_iter().chain(files.inputs()).collect();
    let filled_slips = to.filled(&inputs, |out| {
        let mut out = Writer::from_writer(out);
        out.write_record(&names)?;
        for (line, slip) in read.lines.iter().zip(&slips) {
            out.write_record(line.iter().map(str::to_string).chain(cells(&slip.stamped)))?;
        }
        out.flush()
    })?;
    let filled_evidence = evidence.map(|to| to.filled(&inputs, |out| slips.iter().try_for_each(|slip| out.write_all(slip.evidence.as_bytes())))).transpose()?;
    [filled_slips].into_iter().chain(filled_evidence).try_for_each(Filled::put)?;
    Ok(summary(output, &opened, &read, &slips))
}

/// The columns of the slips: the day's own, then ours, with a number where the day has one of that name.
fn names(day: &Day) -> Vec<String> {
    let mut names = day.names.clone();
    for ours in HOUR.iter().chain(&WAYS) {
        names.push(unlike(ours, &names));
    }
    names
}

/// What is written of a line's slip.
struct Written {
    stamped: Result<Stamped, Reason>,
    /// Empty where it is not asked for.
    evidence: String,
    /// The zone that is not in the bundle.
    missing: Option<String>,
}

/// Every line's slip, in the lines' order.
fn stamped(opened: &Opened, day: &Day, with_evidence: bool) -> Vec<Written> {
    let basis = with_evidence.then(|| Basis::of(&opened.printer));
    let asked: Vec<Result<Asked, String>> = day.asked();
    told(&opened.printer, &asked, |i, slip: Slip| Written {
        evidence: basis.as_ref().map_or(String::new(), |basis| format!("{}\n", basis.evidence(&opened.printer, &day.requests[i], &day.reading, &slip))),
        missing: slip.missing(&opened.printer),
        stamped: slip.stamped,
    })
}

fn summary(output: &Path, opened: &Opened, day: &Day, slips: &[Written]) -> Said {
    let stamped = slips.iter().filter(|slip| slip.stamped.is_ok()).count();
    let mut text = format!("{}: {}, {} stamped", output.display(), count(slips.len(), "line"), grouped(stamped));
    for (number, words) in WAYS.iter().enumerate() {
        let met = slips.iter().filter(|slip| matches!(&slip.stamped, Err(why) if way(why) == number)).count();
        if met > 0 {
            text.push_str(&format!(", {} {words}", grouped(met)));
        }
    }
    text.push('\n');
    let renamed = names(day).into_iter().skip(day.names.len()).zip(HOUR.iter().chain(&WAYS)).filter(|(name, ours)| name != *ours);
    let renamed = renamed.map(|(name, ours)| format!("the day has a column {ours:?}: ours is {name:?}"));
    let built = opened.built.map(|words| format!("an atlas of the map was built for so many lines, {}; depot atlas keeps one, and --atlas takes it", count(words, "word")));
    for note in day.notes.iter().cloned().chain(renamed).chain(built).chain(left_out(opened, slips)) {
        text.push_str(&format!("note: {note}\n"));
    }
    Said { text, yes: stamped == slips.len() }
}

/// Why zones that slips asked for are not in the bundle, where the folder has a file of that name.
fn left_out(opened: &Opened, slips: &[Written]) -> Vec<String> {
    let missing: BTreeSet<&String> = slips.iter().filter_map(|slip| slip.missing.as_ref()).collect();
    let asked = opened.left_out.iter().filter(|out| missing.contains(&out.name));
    asked.map(|out| format!("{} is left out of the bundle of zones: {}", out.name, out.why)).collect()
}

/// What a slip has behind its line's own columns. On a border of several zones it has all their names.
fn cells(slip: &Result<Stamped, Reason>) -> Vec<String> {
    let mut cells = vec![String::new(); HOUR.len() + WAYS.len()];
    match slip {
        Ok(slip) => {
            let words = slip.words();
            let joined = |part: fn(&(&str, &str)) -> String| words.zones.iter().map(part).collect::<Vec<_>>().join("; ");
            let zone = [joined(|zone| zone.0.into()), joined(|zone| zone.1.into())];
            let hour = [slip.line.clone(), format!("{} {}", words.date, words.time), words.offset.to_string()];
            cells.splice(..HOUR.len(), hour.into_iter().chain(zone));
        }
        Err(why) => cells[HOUR.len() + way(why)] = why.to_string(),
    }
    cells
}

/// The column of a way of not stamping.
fn way(why: &Reason) -> usize {
    let Reason::Not(not) = why else { return 0 };
    match not.why.number {
        Number::NotRequest | Number::Checksum | Number::OtherSentence => 0,
        Number::NoFix => 1,
        Number::NoPlace => 2,
        Number::TooManyHits | Number::TextRoom => 4,
        Number::NotWhole => 5,
        Number::NoZone => 6,
        Number::NoNames => 7,
        Number::NoFile => 8,
        Number::Bundle => 9,
        Number::Unknown => 11,
        Number::TzifYear => 12,
        Number::HoursDiffer => 13,
        // of a zone's file, or of the map
        _ if not.at.is_some() => 10,
        _ => 3,
    }
}

#[cfg(test)]
mod tests {
    use super::*;
    use uskelzar::{NotStamped, Refusal};

    #[test]
    fn every_reason_has_its_column() {
        let column = |number: Number, at: Option<u8>| WAYS[way(&Reason::Not(NotStamped { why: Refusal { number, cause: None, detail: 0 }, at }))];
        assert_eq!([column(Number::TooLarge, None), column(Number::TooLarge, Some(1))], ["map refused", "zone file refused"]);
        assert_eq!([column(Number::NoZone, None), column(Number::NoFile, Some(2)), column(Number::LeapSeconds, Some(1))], [NO_ZONE, "no zone file", "zone file refused"]);
        assert_eq!([column(Number::TzifYear, Some(1)), column(Number::HoursDiffer, None), column(Number::TzifString, Some(3))], ["outside the years", "hours differ", "zone file refused"]);
        assert_eq!([column(Number::NoFix, None), column(Number::NoPlace, None), column(Number::NotWhole, None)], ["no fix", "out of range", "not whole"]);
        assert_eq!(way(&Reason::Unread("x".into())), 0);
    }
}
