//! All of a map's file as it stands: its sections, every table entry, every border's points and every zone's fields. Read apart from the library.

use crate::answer::Field;
use crate::entry::{entry_at, Entry};
use crate::map::Map;
use crate::reading::{degrees_of, sections_of, string_at, walk_border, Numbers, Rows, Sections, Unread};

/// How many bytes a file's parts take.
#[derive(Clone, Copy, Debug, Eq, PartialEq)]
pub struct Sizes {
    /// The header with its three sizes.
    pub header: usize,
    /// The box table.
    pub table: usize,
    /// The zones' fields.
    pub metadata: usize,
    /// The borders.
    pub data: usize,
}

/// What is asked of a map here is answered strictly, but for [`Map::entry`]: a number that the file's end cuts is not read.
impl<B: AsRef<[u8]>> Map<B> {
    fn numbers(&self) -> Numbers<'_> {
        Numbers { file: self.bytes(), strict: true }
    }

    fn sections(&self) -> Result<Sections, Unread> {
        sections_of(self.numbers(), self.header().names.len())
    }

    /// The sizes of the file's sections, as its header has them.
    pub fn sizes(&self) -> Result<Sizes, Unread> {
        let Sections { table, metadata, data } = self.sections()?;
        let end = self.bytes().len();
        let data = (data as usize).clamp(metadata.min(end), end);
        Ok(Sizes { header: table, table: metadata - table, metadata: data.saturating_sub(metadata), data: end - data })
    }

    /// The table entry that begins at a place of the file, as a match has it; none where no entry does.
    pub fn entry(&self, place: u32) -> Option<Entry> {
        entry_at(self.bytes(), self.header(), place)
    }

    /// Every table entry, in the table's order; the last one may be why no more can be read.
    pub fn entries(&self) -> Result<impl Iterator<Item = Result<Entry, Unread>> + '_, Unread> {
        let header = self.header();
        let rows = Rows::new(self.numbers(), self.sections()?);
        Ok(rows.map(|row| row.map(|row| Entry::of(&row, self.bytes(), header))))
    }

    /// The points of an entry's border on the file's grid, latitude and longitude, the closing one left out.
    pub fn border(&self, entry: &Entry) -> Result<Vec<(i32, i32)>, Unread> {
        let mut points = vec![];
        let data = self.sections()?.data;
        walk_border(self.numbers(), self.header().version, data, entry.border, |lat, lon| points.push((lat, lon)))?;
        Ok(points)
    }

    /// A point of the file's grid, in degrees.
    pub fn degrees(&self, point: (i32, i32)) -> (f64, f64) {
        degrees_of(self.header().precision, point)
    }

    /// The fields of a zone, by the number that matches and entries have for it.
    pub fn fields(&self, metadata: u32) -> Result<Vec<Field>, Unread> {
        let sections = self.sections()?;
        let mut place = (sections.metadata as u32).wrapping_add(metadata) as usize;
        let mut field = |name: &String| {
            let (value, next) = string_at(self.numbers(), sections.metadata, place)?;
            place = next;
            Ok(Field { name: name.clone(), value })
        };
        self.header().names.iter().map(&mut field).collect()
    }

    /// The first of a zone's strings that is not wholly in the metadata section, its lengths included: its field's name, and where it is told.
    pub fn string_outside(&self, metadata: u32) -> Result<Option<(String, usize)>, Unread> {
        let (numbers, sections) = (self.numbers(), self.sections()?);
        let inside = |from: usize, to: usize| from >= sections.metadata && to <= sections.data as usize;
        let mut place = (sections.metadata as u32).wrapping_add(metadata) as usize;
        for name in &self.header().names {
            let (number, behind) = numbers.at(place)?;
            let near = number < 256;
            let next = if near { behind + number as usize } else { behind };
            let elsewhere = (sections.metadata as u32).wrapping_add(number as u32).wrapping_sub(256) as usize;
            let held = near || numbers.at(elsewhere).map(|(size, begin)| inside(elsewhere, begin.saturating_add(size as usize)))?;
            if !(inside(place, next) && held) {
                return Ok(Some((name.clone(), place)));
            }
            place = next;
        }
        Ok(None)
    }
}
