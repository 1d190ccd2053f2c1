//! A file's numbers, sections, entries, borders and strings, read here, apart from the library.

use std::fmt;

/// Why a part of a file is not read to its end. A place is counted from the file's first byte.
#[derive(Clone, Copy, Debug, Eq, PartialEq)]
pub enum Unread {
    /// A number would begin at this place, where the file has ended, or it can't be read backward from there.
    Missing(usize),
    /// The file's end cuts the number at this place.
    Cut(usize),
    /// The number at this place has an eleventh byte.
    Long(usize),
    /// The table entry at this place runs past the table's end.
    Past(usize),
    /// A border of no points.
    Empty(usize),
    /// A border with a 0 inside a run that it borrows, at this place.
    Marker(usize),
    /// A border with a point beyond the grid of 32 bits; at this place the number that leads there.
    Outside(usize),
    /// A border of more points than anybody draws.
    Endless(usize),
    /// A string that ends behind the file's end.
    String(usize),
    /// A string whose length stands elsewhere and is above 256.
    Length(usize),
    /// A string that is not UTF-8.
    Utf8(usize),
}

impl fmt::Display for Unread {
    fn fmt(&self, f: &mut fmt::Formatter) -> fmt::Result {
        match self {
            Unread::Missing(place) => write!(f, "no number at byte {place}"),
            Unread::Cut(place) => write!(f, "the file's end cuts the number at byte {place}"),
            Unread::Long(place) => write!(f, "the number at byte {place} has an eleventh byte"),
            Unread::Past(place) => write!(f, "the entry at byte {place} runs past the table's end"),
            Unread::Empty(place) => write!(f, "the border at byte {place} has no points"),
            Unread::Marker(place) => write!(f, "a 0 at byte {place}, inside a run that the border borrows"),
            Unread::Outside(place) => write!(f, "the number at byte {place} leads to a point beyond 32 bits"),
            Unread::Endless(place) => write!(f, "the border at byte {place} has more than {MOST_POINTS} points"),
            Unread::String(place) => write!(f, "the string at byte {place} runs past the file's end"),
            Unread::Length(place) => write!(f, "the string at byte {place} is said to have more than 256 bytes"),
            Unread::Utf8(place) => write!(f, "the string at byte {place} is not UTF-8"),
        }
    }
}

impl std::error::Error for Unread {}

/// More than any border that people draw: runs that repeat could make a count that takes years.
const MOST_POINTS: u64 = 1 << 24;

/// A file's numbers. Plainly, one that the file's end cuts is whole; strictly it is not read.
#[derive(Clone, Copy)]
pub(crate) struct Numbers<'a> {
    pub file: &'a [u8],
    pub strict: bool,
}

impl Numbers<'_> {
    /// The number at a place, of at most ten bytes, and the place behind it.
    pub fn at(self, place: usize) -> Result<(u64, usize), Unread> {
        let bytes = self.file.get(place..).filter(|bytes| !bytes.is_empty()).ok_or(Unread::Missing(place))?;
        let mut value = 0;
        for (i, &byte) in bytes.iter().take(10).enumerate() {
            value |= u64::from(byte & 0x7F).checked_shl(7 * i as u32).unwrap_or(0);
            if byte < 0x80 {
                return Ok((value, place + i + 1));
            }
        }
        match (bytes.len() > 10, self.strict) {
            (true, _) => Err(Unread::Long(place)),
            (_, true) => Err(Unread::Cut(place)),
            _ => Ok((value, self.file.len() + 1)),
        }
    }

    /// The number whose last byte stands at a place, and the place before it; none ends at the file's first byte.
    fn back(self, place: usize) -> Result<(u64, usize), Unread> {
        let last = self.file.get(place).filter(|&&byte| byte < 0x80);
        let before = last.and_then(|_| self.file[..place].iter().rposition(|&byte| byte < 0x80));
        let before = before.ok_or(Unread::Missing(place))?;
        Ok((self.at(before + 1)?.0, before))
    }
}

/// A number's half, negative where it is odd, modulo 2^32.
pub(crate) fn signed(number: u64) -> i32 {
    let half = (number >> 1) as i64;
    (if number % 2 == 0 { half } else { -half }) as i32
}

/// The two numbers whose bits a move has in turn.
fn unshuffled(number: u64) -> (i32, i32) {
    let even = |bits: u64| (0..32).fold(0, |half, i| half | ((bits >> (2 * i) & 1) << i));
    (signed(even(number)), signed(even(number >> 1)))
}

/// Where the sections begin.
#[derive(Clone, Copy)]
pub(crate) struct Sections {
    pub table: usize,
    pub metadata: usize,
    pub data: u32,
}

/// In a file that was opened, with so many names.
pub(crate) fn sections_of(numbers: Numbers, names: usize) -> Result<Sections, Unread> {
    let mut place = 7;
    for _ in 0..=names {
        let (size, next) = numbers.at(place)?;
        // from 256 on the string stands elsewhere
        place = if size < 256 { next + size as usize } else { next };
    }
    let (first, place) = numbers.at(place)?;
    let (second, place) = numbers.at(place)?;
    let (_, table) = numbers.at(place)?;
    let (first, second) = (first as u32, second as u32);
    Ok(Sections {
        table,
        metadata: table + first as usize,
        data: (table as u32).wrapping_add(first).wrapping_add(second),
    })
}

/// The table's entries, one after another.
pub(crate) struct Rows<'a> {
    pub numbers: Numbers<'a>,
    pub sections: Sections,
    pub place: usize,
    number: u32,
    metadata: u32,
    polygon: u32,
}

/// An entry as it stands.
pub(crate) struct Row {
    pub place: usize,
    pub number: u32,
    pub metadata: u32,
    /// Lower latitude and longitude, upper latitude and longitude.
    pub bounds: [i32; 4],
    pub border: u32,
    /// Where the data section begins.
    pub data: u32,
}

impl<'a> Rows<'a> {
    pub fn new(numbers: Numbers<'a>, sections: Sections) -> Rows<'a> {
        Rows { numbers, sections, place: sections.table, number: 0, metadata: 0, polygon: 0 }
    }

    fn step(&mut self) -> Result<Row, Unread> {
        let (mut entry, place) = ([0; 6], self.place);
        for slot in &mut entry {
            (*slot, self.place) = self.numbers.at(self.place)?;
        }
        if self.numbers.strict && self.place > self.sections.metadata {
            return Err(Unread::Past(place));
        }
        let number = self.number;
        self.number = self.number.wrapping_add(1);
        self.metadata = self.metadata.wrapping_add(signed(entry[4]) as u32);
        self.polygon = self.polygon.wrapping_add(entry[5] as u32);
        let [south, west, north, east, ..] = entry.map(signed);
        Ok(Row {
            place,
            number,
            metadata: self.metadata,
            bounds: [south, west, north, east],
            border: self.sections.data.wrapping_add(self.polygon),
            data: self.sections.data,
        })
    }
}

impl Iterator for Rows<'_> {
    type Item = Result<Row, Unread>;

    /// Behind an entry that can't be read there is none.
    fn next(&mut self) -> Option<Result<Row, Unread>> {
        if self.place >= self.sections.metadata {
            return None;
        }
        let row = self.step();
        if row.is_err() {
            self.place = self.sections.metadata;
        }
        Some(row)
    }
}

/// A border on its way: the point reached, and what is done at each new one.
struct Walk<'a, F> {
    numbers: Numbers<'a>,
    data: u32,
    begin: usize,
    here: (i32, i32),
    points: u64,
    each: F,
}

impl<F: FnMut(i32, i32)> Walk<'_, F> {
    fn step(&mut self, (lat, lon): (i32, i32), place: usize) -> Result<(), Unread> {
        let (north, east) = (self.here.0.checked_add(lat), self.here.1.checked_add(lon));
        self.here = north.zip(east).ok_or(Unread::Outside(place))?;
        self.points += 1;
        if self.points > MOST_POINTS {
            return Err(Unread::Endless(self.begin));
        }
        (self.each)(self.here.0, self.here.1);
        Ok(())
    }

    /// Version 0: a count, that many moves, and two numbers behind them; a zero move gives no point.
    fn plain(&mut self) -> Result<(), Unread> {
        let (count, mut place) = self.numbers.at(self.begin)?;
        if count == 0 {
            return Err(Unread::Empty(self.begin));
        }
        for _ in 0..count {
            let (lat, next) = self.numbers.at(place)?;
            let (lon, next) = self.numbers.at(next)?;
            let step = (signed(lat), signed(lon));
            if step != (0, 0) {
                self.step(step, place)?;
            }
            place = next;
        }
        let (_, next) = self.numbers.at(place)?;
        self.numbers.at(next).map(|_| ())
    }

    /// Version 1: each number is a move, 0 then 0 closes, 0 then 1 opens a run, 0 then another value repeats the point.
    fn packed(&mut self) -> Result<(), Unread> {
        let mut place = self.begin;
        loop {
            let (number, next) = self.numbers.at(place)?;
            if number != 0 {
                self.step(unshuffled(number), place)?;
                place = next;
                continue;
            }
            let (mark, next) = self.numbers.at(next)?;
            place = match mark {
                0 => return Ok(()),
                1 => self.run(next)?,
                _ => {
                    self.step((0, 0), place)?;
                    next
                }
            };
        }
    }

    /// The moves of a run of the data, forward or backward by its length's sign; gives the place behind its two numbers.
    fn run(&mut self, place: usize) -> Result<usize, Unread> {
        let (start, next) = self.numbers.at(place)?;
        let (length, next) = self.numbers.at(next)?;
        let length = i64::from(signed(length));
        let end = (start as i64).checked_add(length).ok_or(Unread::Outside(place))?;
        let at = |offset: i64| self.data.wrapping_add(offset as u32);
        match length.signum() {
            1 => self.forward(at(start as i64) as usize, at(end) as usize)?,
            -1 => self.backward(at(start as i64).wrapping_sub(1) as usize, at(end).wrapping_sub(1) as usize)?,
            _ => (),
        }
        Ok(next)
    }

    /// From a run's start up to its end.
    fn forward(&mut self, mut place: usize, end: usize) -> Result<(), Unread> {
        loop {
            let (number, next) = self.numbers.at(place)?;
            if number == 0 {
                return Err(Unread::Marker(place));
            }
            self.step(unshuffled(number), place)?;
            place = next;
            if place >= end {
                return Ok(());
            }
        }
    }

    /// From a run's last byte down to its end, both one byte lower than told; moves are negated.
    fn backward(&mut self, mut place: usize, end: usize) -> Result<(), Unread> {
        loop {
            let (number, before) = self.numbers.back(place)?;
            if number == 0 {
                return Err(Unread::Marker(place));
            }
            let (lat, lon) = unshuffled(number);
            self.step((lat.wrapping_neg(), lon.wrapping_neg()), place)?;
            place = before;
            if place <= end {
                return Ok(());
            }
        }
    }
}

/// Does something at each point of a border, the closing one left out.
pub(crate) fn walk_border(
    numbers: Numbers,
    version: u8,
    data: u32,
    border: u32,
    each: impl FnMut(i32, i32),
) -> Result<u64, Unread> {
    let mut walk = Walk { numbers, data, begin: border as usize, here: (0, 0), points: 0, each };
    if version == 0 { walk.plain() } else { walk.packed() }?;
    Ok(walk.points)
}

/// A grid's point in degrees.
pub(crate) fn degrees_of(precision: u8, (lat, lon): (i32, i32)) -> (f64, f64) {
    let steps = 2f64.powi(i32::from(precision) - 1);
    (f64::from(lat) * (90.0 / steps), f64::from(lon) * (180.0 / steps))
}

/// A string at a place, or behind the number there, and the place behind what stands at that place.
pub(crate) fn string_at(numbers: Numbers, metadata: usize, place: usize) -> Result<(String, usize), Unread> {
    let (number, next) = numbers.at(place)?;
    let (size, begin, behind) = if number < 256 {
        (number as usize, next, next + number as usize)
    } else {
        let elsewhere = (metadata as u32).wrapping_add(number as u32).wrapping_sub(256) as usize;
        let (size, begin) = numbers.at(elsewhere)?;
        if size > 256 {
            return Err(Unread::Length(place));
        }
        (size as usize, begin, next)
    };
    let bytes = if size == 0 { Some(&[][..]) } else { numbers.file.get(begin..begin + size) };
    let bytes = bytes.ok_or(Unread::String(place))?.iter().map(|byte| byte ^ 0x80);
    let text = String::from_utf8(bytes.collect()).map_err(|_| Unread::Utf8(place))?;
    Ok((text, behind))
}
