//! Files from yards.

use crate::answer::Table;
use crate::border::{most_bytes, word, words_of, Piece};
use crate::desk::Desk;
use crate::draft::Draft;
use crate::raw::{self, Lengths, Plan, Start, MOST_NAMES, MOST_YARDS, YARD_WORDS};
use crate::refusal::{Number, Refusal};
use std::fmt;

/// A file in the making: what [`Builder::new`] is given, and yards behind each other.
///
/// ```
/// # use uskelzar::{Builder, Table};
/// let depot = [(2, 2), (10, 2), (10, 10), (2, 10)];
/// let file = Builder::new(Table::Countries, 16, &["Name"]).yard(&depot, &["Depot"]).build()?;
/// # Ok::<(), uskelzar::NotBuilt>(())
/// ```
#[derive(Clone, Debug)]
pub struct Builder {
    table: Table,
    version: u8,
    precision: u8,
    names: Vec<String>,
    notice: String,
    room: usize,
    /// Four words a yard.
    yards: Vec<u32>,
    lats: Vec<i32>,
    lons: Vec<i32>,
    pieces: Vec<u32>,
    values: Vec<String>,
    /// The first yard with degrees that are no place.
    nowhere: Option<usize>,
}

/// The largest file.
const LARGEST: usize = 1 << 30;

/// Where in what was given a builder's refusal was met.
#[derive(Clone, Copy, Debug, Eq, PartialEq)]
pub enum Place {
    /// The file: its form, how many yards and names it has, its length.
    File,
    /// A name, by its index.
    Name(usize),
    /// The notice.
    Notice,
    /// A yard, by its index: its border, its pieces, how many values it has, or the data up to it.
    Yard(usize),
    /// A yard's value.
    Value {
        /// Which yard.
        yard: usize,
        /// Which of its values.
        field: usize,
    },
}

impl fmt::Display for Place {
    fn fmt(&self, f: &mut fmt::Formatter) -> fmt::Result {
        match self {
            Place::File => write!(f, "the file"),
            Place::Name(name) => write!(f, "name {name}"),
            Place::Notice => write!(f, "the notice"),
            Place::Yard(yard) => write!(f, "yard {yard}"),
            Place::Value { yard, field } => write!(f, "yard {yard}, value {field}"),
        }
    }
}

/// Why there is no file, and what it was that could not be built.
#[derive(Clone, Copy, Debug, Eq, PartialEq)]
pub struct NotBuilt {
    /// What met the refusal, counted from 0.
    pub place: Place,
    /// Why.
    pub why: Refusal,
}

impl fmt::Display for NotBuilt {
    fn fmt(&self, f: &mut fmt::Formatter) -> fmt::Result {
        write!(f, "{}: {}", self.place, self.why)
    }
}

impl std::error::Error for NotBuilt {}

/// One yard's parts of the flat lists.
struct Parts<'a> {
    lats: &'a [i32],
    lons: &'a [i32],
    pieces: &'a [u32],
    values: &'a [String],
}

impl Builder {
    /// Of this type and precision, with these names of fields; version 1, without a notice.
    pub fn new(table: Table, precision: u8, names: &[&str]) -> Builder {
        Builder {
            table,
            version: 1,
            precision,
            names: names.iter().map(|name| name.to_string()).collect(),
            notice: String::new(),
            room: LARGEST,
            yards: vec![],
            lats: vec![],
            lons: vec![],
            pieces: vec![],
            values: vec![],
            nowhere: None,
        }
    }

    /// Whose data it is.
    pub fn notice(mut self, notice: &str) -> Builder {
        self.notice = notice.to_string();
        self
    }

    /// How borders are written: 0 or 1.
    pub fn version(mut self, version: u8) -> Builder {
        self.version = version;
        self
    }

    /// The file may have so many bytes and no more.
    pub fn room(mut self, bytes: usize) -> Builder {
        self.room = bytes.min(LARGEST);
        self
    }

    /// A yard: its border's points on the file's grid, each a latitude and a longitude, and a value for each name. Yards with equal values are one zone; in such a zone
    /// a border that turns the other way than the one round it is a hole.
    pub fn yard(self, points: &[(i32, i32)], values: &[&str]) -> Builder {
        self.yard_with(points, &[], values)
    }

    /// A yard whose points are degrees, each a latitude and a longitude: the nearest points of the grid are taken. A point that falls on the one before it is left out, and so is the last where
    /// it falls on the first. Degrees that are no place on the globe are refused with 84 when the file is built.
    ///
    /// ```
    /// # use uskelzar::{Builder, Map, Table};
    /// let depot = [(0.10, 0.20), (0.50, 0.20), (0.50, 0.90), (0.10, 0.90), (0.10, 0.20)];
    /// let file = Builder::new(Table::Countries, 20, &["Name"]).yard_degrees(&depot, &["Depot"]).build()?;
    /// assert_eq!(Map::open(file)?.whole_description(0.3, 0.5)?.as_deref(), Some("Depot"));
    /// # Ok::<(), Box<dyn std::error::Error>>(())
    /// ```
    pub fn yard_degrees(mut self, points: &[(f64, f64)], values: &[&str]) -> Builder {
        let place = |&(lat, lon): &(f64, f64)| lat.abs() <= 90.0 && lon.abs() <= 180.0;
        if !points.iter().all(place) {
            self.nowhere = self.nowhere.or(Some(self.yards.len() / YARD_WORDS));
        }
        let steps = 2f64.powi(i32::from(self.precision) - 1);
        let nearest = |&(lat, lon): &(f64, f64)| ((lat / 90.0 * steps).round() as i32, (lon / 180.0 * steps).round() as i32);
        let mut ring: Vec<(i32, i32)> = points.iter().map(nearest).collect();
        ring.dedup();
        while ring.len() > 1 && ring.first() == ring.last() {
            ring.pop();
        }
        self.yard(&ring, values)
    }

    /// The refusal of a yard's degrees, before any other.
    fn placed(&self) -> Result<(), NotBuilt> {
        let why = Refusal { number: Number::NoPlace, cause: None, detail: 0 };
        self.nowhere.map_or(Ok(()), |yard| Err(NotBuilt { place: Place::Yard(yard), why }))
    }

    /// A yard that borrows some of its moves from the borders before it; the data section begins with one zero byte, and the first border stands behind that.
    pub fn yard_with(mut self, points: &[(i32, i32)], pieces: &[Piece], values: &[&str]) -> Builder {
        self.yards.extend([points.len(), points.len(), pieces.len(), values.len()].map(word));
        self.lats.extend(points.iter().map(|point| point.0));
        self.lons.extend(points.iter().map(|point| point.1));
        self.pieces.extend(pieces.iter().flat_map(words_of));
        self.values.extend(values.iter().map(|value| value.to_string()));
        self
    }

    fn kind(&self) -> u8 {
        match self.table {
            Table::TimeZones => b'T',
            Table::Countries => b'C',
        }
    }

    /// A draft with this form and room, these names and this notice, and these yards, whose yards may still change; or the first refusal and what met it.
    pub fn begin(&self) -> Result<Draft, NotBuilt> {
        self.placed()?;
        let texts = || self.names.iter().chain([&self.notice]);
        let lengths: Vec<u32> = texts().map(|text| word(text.len())).collect();
        let bytes: Vec<u8> = texts().flat_map(|text| text.bytes()).collect();
        let start = Start {
            kind: self.kind(),
            version: self.version,
            precision: self.precision,
            names: word(self.names.len()),
            room: self.room,
            lengths: &lengths,
            texts: &bytes,
        };
        let mut draft = Draft::begin(&start).map_err(|why| NotBuilt { place: self.place_of(why), why })?;
        for (index, yard) in self.parts().enumerate() {
            let added = draft.offer((yard.lats, yard.lons), yard.pieces, yard.values);
            added.map_err(|why| NotBuilt { place: self.place_in(index, why), why })?;
        }
        Ok(draft)
    }

    /// The file's bytes; or the first refusal and what met it.
    pub fn build(&self) -> Result<Vec<u8>, NotBuilt> {
        self.placed()?;
        let texts = || self.names.iter().chain([&self.notice]).chain(&self.values);
        let lengths: Vec<u32> = texts().map(|text| word(text.len())).collect();
        let bytes: Vec<u8> = texts().flat_map(|text| text.bytes()).collect();
        let plan = Plan {
            kind: self.kind(),
            version: self.version,
            precision: self.precision,
            names: word(self.names.len()),
            yards: &self.yards,
            lats: &self.lats,
            lons: &self.lons,
            pieces: &self.pieces,
            lengths: &lengths,
            texts: &bytes,
        };
        let mut out = vec![0; self.most_bytes().min(self.room)];
        let mut desk = self.desk();
        let mut boxes = vec![0; 4 * self.yards.len().min(MOST_YARDS * YARD_WORDS) / YARD_WORDS];
        let reply = raw::build(&plan, desk.lend(), &mut boxes, &mut vec![0; out.len()], &mut out);
        let [length, ..] = reply.map_err(|why| NotBuilt { place: self.place_of(why), why })?;
        out.truncate(length as usize);
        Ok(out)
    }

    /// The working lists. More yards and names than a file may have are refused before any of them is used.
    fn desk(&self) -> Desk {
        let yards = (self.yards.len() / YARD_WORDS).min(MOST_YARDS);
        let names = self.names.len().min(MOST_NAMES);
        let held = self.values.iter().map(String::len).sum();
        Desk::new(Lengths::of(yards, names, held))
    }

    /// No file of these yards is longer: seven bytes and three sizes, each text with its length or with a word and its length, six numbers an entry, a zero byte and the borders.
    fn most_bytes(&self) -> usize {
        let head: usize = self.names.iter().chain([&self.notice]).map(|text| text.len() + 2).sum();
        let values: usize = self.values.iter().map(|text| text.len() + 7).sum();
        let yards = self.yards.len() / YARD_WORDS;
        let borders: usize = self.parts().map(|yard| most_bytes(yard.lats.len())).sum();
        7 + 15 + head + values + 30 * yards + 1 + borders
    }

    fn parts(&self) -> impl Iterator<Item = Parts<'_>> {
        let (mut points, mut pieces, mut values) = (0, 0, 0);
        self.yards.chunks_exact(YARD_WORDS).map(move |yard| {
            let [tall, _, borrowed, valued] = [yard[0], yard[1], yard[2], yard[3]].map(|count| count as usize);
            let parts = Parts {
                lats: &self.lats[points..points + tall],
                lons: &self.lons[points..points + tall],
                pieces: &self.pieces[pieces..pieces + 5 * borrowed],
                values: &self.values[values..values + valued],
            };
            (points, pieces, values) = (points + tall, pieces + 5 * borrowed, values + valued);
            parts
        })
    }

    /// What met a refusal: the library says why, and here it is sought again, in the library's order.
    fn place_of(&self, why: Refusal) -> Place {
        let found = match why.number {
            Number::Yards => self.miscounted(),
            Number::Text => self.bad_text(),
            Number::Piece | Number::FileRoom => self.undrawn(),
            Number::Form => None,
            _ => self.unchecked(),
        };
        found.unwrap_or(Place::File)
    }

    /// What met the refusal of a yard that a draft was offered.
    fn place_in(&self, yard: usize, why: Refusal) -> Place {
        match why.number {
            Number::Yards if yard == MOST_YARDS => Place::File,
            Number::Text => self.bad_text().unwrap_or(Place::Yard(yard)),
            _ => Place::Yard(yard),
        }
    }

    /// The first yard whose border is refused by itself, 19 to 22.
    fn unchecked(&self) -> Option<Place> {
        let mut out = [];
        let checked = |yard: Parts| raw::write_border(0, yard.lats, yard.lons, &[], &[], &mut out).err();
        let refused = |why: Option<Refusal>| why.is_some_and(|why| why.number != Number::OutputRoom);
        self.parts().map(checked).position(refused).map(Place::Yard)
    }

    /// The first yard with more or fewer values than names, where the numbers of yards and names are allowed.
    fn miscounted(&self) -> Option<Place> {
        let allowed = self.yards.len() / YARD_WORDS <= MOST_YARDS && self.names.len() <= MOST_NAMES;
        let yard = self.parts().position(|yard| yard.values.len() != self.names.len());
        yard.filter(|_| allowed).map(Place::Yard)
    }

    /// The first text of more than 255 bytes; a `String` is UTF-8.
    fn bad_text(&self) -> Option<Place> {
        let long = |text: &String| text.len() > 255;
        let name = self.names.iter().position(long).map(Place::Name);
        let notice = long(&self.notice).then_some(Place::Notice);
        let value = |(yard, parts): (usize, Parts)| Some(Place::Value { yard, field: parts.values.iter().position(long)? });
        name.or(notice).or_else(|| self.parts().enumerate().find_map(value))
    }

    /// The first yard whose pieces are refused, or with which the data alone is too long.
    fn undrawn(&self) -> Option<Place> {
        let mut data = vec![0];
        for (index, yard) in self.parts().enumerate() {
            let start = data.len();
            let mut border = vec![0; most_bytes(yard.lats.len())];
            match raw::write_border(self.version, yard.lats, yard.lons, yard.pieces, &data, &mut border) {
                Ok([length, ..]) if start + length as usize <= self.room => data.extend(&border[..length as usize]),
                _ => return Some(Place::Yard(index)),
            }
        }
        None
    }
}
