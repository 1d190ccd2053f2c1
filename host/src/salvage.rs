//! What is left of a damaged file.

use crate::answer::{Error, Unknown};
use crate::map::Map;
use crate::raw::{self, DROPPED_WORDS};
use crate::refusal::{Number, Refusal};
use std::fmt;

/// The first reason for which an entry was dropped.
#[derive(Clone, Copy, Debug, Eq, PartialEq)]
pub enum Reason {
    /// A number, a move or a string of it is refused: 12, 13, 14, 15 or 31.
    Refused(Number),
    /// One of its six numbers is not there.
    Entry,
    /// Its border fails.
    Border,
    /// One of its strings is not wholly in the metadata section.
    StringOutside,
    /// It stands behind an entry whose numbers can't be read, so it can't be found.
    Behind,
}

impl Reason {
    fn of(number: u32) -> Result<Reason, Unknown> {
        match number {
            70 => Ok(Reason::Entry),
            71 => Ok(Reason::Border),
            72 => Ok(Reason::StringOutside),
            73 => Ok(Reason::Behind),
            _ => {
                let known = u8::try_from(number).ok().and_then(Number::known);
                known.map(Reason::Refused).ok_or(Unknown::Reason(number))
            }
        }
    }
}

impl fmt::Display for Reason {
    fn fmt(&self, f: &mut fmt::Formatter) -> fmt::Result {
        f.write_str(match self {
            Reason::Refused(number) => number.words(),
            Reason::Entry => "one of its six numbers is not there",
            Reason::Border => "its border fails",
            Reason::StringOutside => "a string of it is not wholly in the metadata section",
            Reason::Behind => "it and all behind it can't be found",
        })
    }
}

/// An entry that the new file does not have.
#[derive(Clone, Copy, Debug, Eq, PartialEq)]
pub struct Dropped {
    /// Its number in the old table, from 0.
    pub entry: u32,
    /// Why.
    pub reason: Reason,
}

impl fmt::Display for Dropped {
    fn fmt(&self, f: &mut fmt::Formatter) -> fmt::Result {
        write!(f, "entry {}: {}", self.entry, self.reason)
    }
}

/// What was left of a file.
#[derive(Clone, Debug, Eq, PartialEq)]
pub struct Salvaged {
    /// The new file.
    pub file: Vec<u8>,
    /// How many entries it has.
    pub kept: usize,
    /// The others, in the old order.
    pub dropped: Vec<Dropped>,
}

/// No file is longer.
const LONGEST: usize = 1 << 30;

/// An entry has at least six bytes and gives one line; one more line may end the list.
fn most_words(file: &[u8]) -> usize {
    DROPPED_WORDS * (file.len() / 6 + 2)
}

impl<B: AsRef<[u8]>> Map<B> {
    /// A new file with each entry that is whole, and why the others are not: the file is read strictly. What is kept has its old box, fields and
    /// verdicts.
    pub fn salvage(&self) -> Result<Salvaged, Error> {
        salvage(self.bytes())
    }
}

/// The same of a file's bytes, which need not open; the room that is lent grows up to that of the longest file and its list.
pub fn salvage(file: &[u8]) -> Result<Salvaged, Error> {
    let most = most_words(file);
    let (mut words, mut room) = (most.min(1 << 12), 2 * file.len() + 64);
    loop {
        let (mut dropped, mut out) = (vec![0; words], vec![0; room]);
        match raw::salvage(file, &mut dropped, &mut out) {
            Err(Refusal { number: Number::FileRoom, .. }) if words < most || room < LONGEST => {
                (words, room) = (most.min(8 * words), LONGEST.min(8 * room));
            }
            reply => return salvaged(reply?, &dropped, out),
        }
    }
}

fn salvaged([length, lines, kept, ..]: raw::Reply, dropped: &[u32], mut file: Vec<u8>) -> Result<Salvaged, Error> {
    file.truncate(length as usize);
    let lines = dropped.chunks_exact(DROPPED_WORDS).take(lines as usize);
    let line = |line: &[u32]| {
        let reason = Reason::of(line[1])?;
        Ok(Dropped { entry: line[0], reason })
    };
    let dropped: Result<Vec<Dropped>, Unknown> = lines.map(line).collect();
    Ok(Salvaged {
        file,
        kept: kept as usize,
        dropped: dropped?,
    })
}

#[cfg(test)]
mod tests {
    use super::*;

    #[test]
    fn each_reason_has_its_words() {
        let said = |number| Reason::of(number).map(|reason| reason.to_string());
        assert_eq!(said(70), Ok("one of its six numbers is not there".to_string()));
        assert_eq!(said(31), Ok("a number that the file's end cuts".to_string()));
        assert_eq!(said(74), Err(Unknown::Reason(74)));
        let line = Dropped { entry: 7, reason: Reason::Border };
        assert_eq!(line.to_string(), "entry 7: its border fails");
    }
}
