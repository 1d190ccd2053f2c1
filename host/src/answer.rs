//! What a map answers: a file's header, the zones that hold a fix, how a search ended; and why there is no answer.

use crate::atlas::NotAtlas;
use crate::refusal::Refusal;
use std::fmt;
use std::io;

/// A number of an answer that this crate does not know: the archive is of another edition than the crate.
#[derive(Clone, Copy, Debug, Eq, PartialEq)]
pub enum Unknown {
    /// What a file's zones are.
    Table(u64),
    /// How a search ended.
    End(u64),
    /// Where in a zone a fix is.
    Kind(u32),
    /// Why an entry was dropped.
    Reason(u32),
}

impl fmt::Display for Unknown {
    fn fmt(&self, f: &mut fmt::Formatter) -> fmt::Result {
        match self {
            Unknown::Table(byte) => write!(f, "unknown table type {byte}"),
            Unknown::End(mark) => write!(f, "unknown end mark {mark}"),
            Unknown::Kind(kind) => write!(f, "unknown kind of match {kind}"),
            Unknown::Reason(reason) => write!(f, "unknown reason {reason}"),
        }
    }
}

impl std::error::Error for Unknown {}

/// A file could not be read, the library refused, words are no atlas of their map, or the library's answer is not known here.
#[derive(Debug)]
pub enum Error {
    /// Reading failed.
    File(io::Error),
    /// The library refused.
    Refused(Refusal),
    /// It refused words as a map's atlas.
    NotAtlas(NotAtlas),
    /// The library answered with a number that is not known.
    Unknown(Unknown),
}

impl fmt::Display for Error {
    fn fmt(&self, f: &mut fmt::Formatter) -> fmt::Result {
        match self {
            Error::File(error) => error.fmt(f),
            Error::Refused(refusal) => refusal.fmt(f),
            Error::NotAtlas(not) => not.fmt(f),
            Error::Unknown(unknown) => unknown.fmt(f),
        }
    }
}

impl std::error::Error for Error {}

impl From<io::Error> for Error {
    fn from(error: io::Error) -> Error {
        Error::File(error)
    }
}

impl From<Refusal> for Error {
    fn from(refusal: Refusal) -> Error {
        Error::Refused(refusal)
    }
}

impl From<NotAtlas> for Error {
    fn from(not: NotAtlas) -> Error {
        Error::NotAtlas(not)
    }
}

impl From<Unknown> for Error {
    fn from(unknown: Unknown) -> Error {
        Error::Unknown(unknown)
    }
}

/// What a file's zones are.
#[derive(Clone, Copy, Debug, Eq, PartialEq)]
pub enum Table {
    /// Type T.
    TimeZones,
    /// Type C.
    Countries,
}

impl Table {
    pub(crate) fn of(byte: u64) -> Result<Table, Unknown> {
        match u8::try_from(byte) {
            Ok(b'T') => Ok(Table::TimeZones),
            Ok(b'C') => Ok(Table::Countries),
            _ => Err(Unknown::Table(byte)),
        }
    }
}

/// What a file says of itself.
#[derive(Clone, Debug, Eq, PartialEq)]
pub struct Header {
    /// What its zones are.
    pub table: Table,
    /// How its borders are written: 0 or 1.
    pub version: u8,
    /// The bits of its grid.
    pub precision: u8,
    /// The names of a zone's fields.
    pub names: Vec<String>,
    /// Whose data it is.
    pub notice: String,
}

/// How a search ended, by its mark.
#[derive(Clone, Copy, Debug, Eq, PartialEq)]
pub enum End {
    /// It was whole: no table entry that holds the fix was passed over.
    Whole = 1,
    /// A table entry could not be read, or behind an early stop one runs past the table.
    TableUnreadable = 2,
    /// It stopped at a border that failed.
    BorderFailed = 3,
    /// The table is not in order: an entry behind the one that stopped the search holds the fix and was not looked at.
    OutOfOrder = 4,
}

impl End {
    pub(crate) fn of(mark: u64) -> Result<End, Unknown> {
        match mark {
            1 => Ok(End::Whole),
            2 => Ok(End::TableUnreadable),
            3 => Ok(End::BorderFailed),
            4 => Ok(End::OutOfOrder),
            _ => Err(Unknown::End(mark)),
        }
    }
}

/// Where in a zone a fix is.
#[derive(Clone, Copy, Debug, Eq, PartialEq)]
pub enum Kind {
    /// Inside.
    InZone = 1,
    /// On a vertex of its border.
    OnBorderVertex = 3,
    /// On its border elsewhere.
    OnBorderSegment = 4,
}

impl Kind {
    /// No answer has an excluded zone, kind 2.
    pub(crate) fn of(kind: u32) -> Result<Kind, Unknown> {
        match kind {
            1 => Ok(Kind::InZone),
            3 => Ok(Kind::OnBorderVertex),
            4 => Ok(Kind::OnBorderSegment),
            _ => Err(Unknown::Kind(kind)),
        }
    }
}

/// A field of a zone.
#[derive(Clone, Debug, Eq, PartialEq)]
pub struct Field {
    /// Its name.
    pub name: String,
    /// Its value.
    pub value: String,
}

/// The name of a time zone, which is that of its TZif file: TimezoneIdPrefix and TimezoneId, joined; of two fields with one name the last. None where either is missing.
pub fn zone_name(fields: &[Field]) -> Option<String> {
    let value = |name| fields.iter().rev().find(|field| field.name == name).map(|field| field.value.as_str());
    Some(format!("{}{}", value("TimezoneIdPrefix")?, value("TimezoneId")?))
}

/// A zone that holds a fix.
#[derive(Clone, Debug, Eq, PartialEq)]
pub struct Match {
    /// The first of its borders that was met.
    pub polygon: u32,
    /// Which zone it is in the file.
    pub metadata: u32,
    /// Where in it the fix is.
    pub kind: Kind,
    /// Where the table entry of that border begins in the file; [`crate::Map::entry`] says what stands there.
    pub entry: u32,
    /// All its fields, in file order.
    pub fields: Vec<Field>,
}

/// The zones that hold a fix.
#[derive(Clone, Debug, PartialEq)]
pub struct Zones {
    /// In the order in which they were met.
    pub matches: Vec<Match>,
    /// How the search ended.
    pub end: End,
    /// The distance to the nearest border looked at, in degrees; 0 where it was not asked for.
    pub safezone: f32,
}

/// A description of the first zone that holds a fix.
#[derive(Clone, Debug, Eq, PartialEq)]
pub struct Simple {
    /// None where no zone does, or the file has no field to describe it by.
    pub description: Option<String>,
    /// How many zones do.
    pub matches: usize,
    /// How the search ended.
    pub end: End,
}

#[cfg(test)]
mod tests {
    use super::*;

    #[test]
    fn what_is_not_known_is_an_error() {
        assert_eq!(End::of(4), Ok(End::OutOfOrder));
        assert_eq!(
            [0, 5].map(End::of),
            [0, 5].map(|mark| Err(Unknown::End(mark)))
        );
        assert_eq!(Kind::of(1), Ok(Kind::InZone));
        assert_eq!(
            [0, 2, 5].map(Kind::of),
            [0, 2, 5].map(|kind| Err(Unknown::Kind(kind)))
        );
        assert_eq!(Table::of(u64::from(b'C')), Ok(Table::Countries));
        assert_eq!(Table::of(0x143), Err(Unknown::Table(0x143)));
        assert_eq!(
            Error::from(Unknown::End(5)).to_string(),
            "unknown end mark 5"
        );
    }
}
