//! What stands at a match's place in the file: a table entry, in words for service staff. Read here, apart from the library.

use crate::answer::Header;
use crate::reading::{degrees_of, sections_of, walk_border, Numbers, Row, Rows};
use std::fmt;

/// A table entry.
#[derive(Clone, Debug, PartialEq)]
pub struct Entry {
    /// Where it begins in the file.
    pub place: u32,
    /// Its number in the table, from 0.
    pub number: u32,
    /// Which zone it is of.
    pub metadata: u32,
    /// The lower latitude and longitude of its box, in degrees.
    pub lower: (f64, f64),
    /// The upper ones.
    pub upper: (f64, f64),
    /// Where its border begins in the file.
    pub border: u32,
    /// The border's points, the closing one not counted; none where it cannot be read to its end, or has more than 16,777,216.
    pub points: Option<u64>,
}

impl fmt::Display for Entry {
    fn fmt(&self, f: &mut fmt::Formatter) -> fmt::Result {
        let (number, place, border) = (self.number, self.place, self.border);
        let ((south, west), (north, east)) = (self.lower, self.upper);
        write!(f, "entry {number} at {place}: box {south:.4} {west:.4} to {north:.4} {east:.4}, ")?;
        match self.points {
            Some(1) => write!(f, "border at {border}, 1 point"),
            Some(points) => write!(f, "border at {border}, {points} points"),
            None => write!(f, "border at {border}, which cannot be read to its end"),
        }
    }
}

impl Entry {
    /// From the row that stands there. Its border is read plainly, as a lookup does.
    pub(crate) fn of(row: &Row, file: &[u8], header: &Header) -> Entry {
        let [south, west, north, east] = row.bounds;
        let numbers = Numbers { file, strict: false };
        let points = walk_border(numbers, header.version, row.data, row.border, |_, _| ());
        Entry {
            place: row.place as u32,
            number: row.number,
            metadata: row.metadata,
            lower: degrees_of(header.precision, (south, west)),
            upper: degrees_of(header.precision, (north, east)),
            border: row.border,
            points: points.ok(),
        }
    }
}

/// The entry at a place of the table of an opened file; none where no entry begins there.
pub(crate) fn entry_at(file: &[u8], header: &Header, wanted: u32) -> Option<Entry> {
    let numbers = Numbers { file, strict: false };
    let rows = Rows::new(numbers, sections_of(numbers, header.names.len()).ok()?);
    let mut upto = rows.map_while(Result::ok).take_while(|row| row.place <= wanted as usize);
    let row = upto.find(|row| row.place == wanted as usize)?;
    Some(Entry::of(&row, file, header))
}
