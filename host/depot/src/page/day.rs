//! The slips of a day, as `depot stamp` wrote them.

use super::answers::Fix;
use crate::day::{self, Asked};
use crate::fault::Fault;
use crate::stamp::{HOUR, WAYS};
use csv::StringRecord;
use std::path::Path;

/// A line of a day.
pub struct Slip {
    /// Its own columns.
    pub cells: Vec<String>,
    /// 0 where it was stamped, else a way of not stamping, from 1.
    pub way: usize,
    /// The stamped line, or the reason.
    pub said: String,
    /// The zones it was stamped by.
    pub zones: Vec<String>,
    /// None where the line can't be read.
    pub fix: Option<Fix>,
}

/// All lines, with the names of their own columns.
pub struct Day {
    pub names: Vec<String>,
    pub slips: Vec<Slip>,
}

/// What a slip came to: stamped, or one of the ways of not stamping.
pub fn way_words(way: usize) -> &'static str {
    way.checked_sub(1).map_or("stamped", |way| WAYS[way])
}

pub fn read(path: &Path) -> Result<Day, Fault> {
    let day = day::read(path)?;
    let own = day.names.len().saturating_sub(HOUR.len() + WAYS.len());
    if !day.names.iter().skip(own).map(String::as_str).eq(HOUR.into_iter().chain(WAYS)) {
        return Err(Fault::file(path, "has not the columns of stamped slips: give what `depot stamp day.csv -o slips.csv MAP ZONES` wrote"));
    }
    let slip = |(line, asked): (&StringRecord, Result<Asked, String>)| slip_of(line, own, fix_of(asked));
    Ok(Day { names: day.names.iter().take(own).cloned().collect(), slips: day.lines.iter().zip(day.asked()).map(slip).collect() })
}

fn fix_of(asked: Result<Asked, String>) -> Option<Fix> {
    match asked {
        Ok(Asked::Fix(fix)) => Some((fix.lat, fix.lon)),
        _ => None,
    }
}

fn slip_of(line: &StringRecord, own: usize, fix: Option<Fix>) -> Slip {
    let cells: Vec<String> = line.iter().map(str::to_string).collect();
    let (own, stamped) = cells.split_at(own);
    let (hour, ways) = stamped.split_at(HOUR.len());
    let slip = |way: usize, said: String, zones: Vec<String>| Slip { cells: own.to_vec(), way, said, zones, fix };
    match ways.iter().position(|words| !words.is_empty()) {
        Some(way) => slip(way + 1, ways[way].clone(), vec![]),
        None => slip(0, hour[0].clone(), hour[4].split("; ").map(str::to_string).collect()),
    }
}
