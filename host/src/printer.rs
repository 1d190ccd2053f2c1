//! The printer's whole question: the slip of a request, or of a fix and an instant, or why there is none. The library decides all of it.

use crate::answer::{Error, Match, Zones};
use crate::bundle::Bundle;
use crate::entries::{text_of, Entries};
use crate::map::Map;
use crate::raw::{self, Paper, Reply};
use crate::refusal::NotStamped;
use std::fmt;

/// A map of time zones, and the bundle of their TZif files.
///
/// ```
/// use uskelzar::{Bundle, Map, Number, Printer};
///
/// let printer = Printer::new(Map::read("../examples/world-9.plb")?, Bundle::read("../examples/zones.tzdata")?);
/// let slip = printer.stamp(52.52, 13.40, 1_782_907_199)?;
/// assert_eq!(slip.line, "Wed 2026-07-01 13:59:59 +02:00 CEST Europe/Berlin");
/// assert_eq!(printer.stamp_request("52.52 13.40 2026-07-01T11:59:59Z")?, slip);
/// let sea = printer.stamp(0.0, -30.0, 0).unwrap_err();
/// assert_eq!((sea.why.number, sea.to_string().as_str()), (Number::NoZone, "86 0 0 no zone holds the fix"));
/// # Ok::<(), Box<dyn std::error::Error>>(())
/// ```
pub struct Printer<B> {
    map: Map<B>,
    zones: Bundle,
}

/// A stamped slip.
#[derive(Clone, Debug, PartialEq)]
pub struct Stamped {
    /// What is printed, without a line end.
    pub line: String,
    /// Seconds east of UT.
    pub offset: i32,
    /// The zones that hold the fix, by a search that was whole.
    pub matches: Vec<Match>,
}

/// The words of a slip's line.
#[derive(Clone, Debug, Eq, PartialEq)]
pub struct Line<'a> {
    /// `Sun` to `Sat`.
    pub weekday: &'a str,
    /// `2026-07-01`.
    pub date: &'a str,
    /// `13:59:59`.
    pub time: &'a str,
    /// `+02:00`, with seconds where it has some.
    pub offset: &'a str,
    /// Of each zone the abbreviation and the name.
    pub zones: Vec<(&'a str, &'a str)>,
}

impl Stamped {
    /// The line, taken apart at its blanks: no word of it has one, and an abbreviation may be empty. Behind each name but the last stands a comma.
    pub fn words(&self) -> Line<'_> {
        let words: Vec<&str> = self.line.split(' ').collect();
        let word = |i: usize| words.get(i).copied().unwrap_or_default();
        let pairs = words.get(4..).unwrap_or_default().chunks_exact(2);
        let last = pairs.len().saturating_sub(1);
        let zones = pairs.enumerate().map(|(i, pair)| (pair[0], if i < last { uncomma(pair[1]) } else { pair[1] })).collect();
        Line { weekday: word(0), date: word(1), time: word(2), offset: word(3), zones }
    }
}

fn uncomma(word: &str) -> &str {
    word.strip_suffix(',').unwrap_or(word)
}

impl fmt::Display for Stamped {
    fn fmt(&self, f: &mut fmt::Formatter) -> fmt::Result {
        f.write_str(&self.line)
    }
}

impl<B: AsRef<[u8]>> Printer<B> {
    /// A printer with a map, and the files of its zones. The room that it lends is the map's ([`Map::with_room`]); where the map holds an atlas, slips are stamped through it.
    pub fn new(map: Map<B>, zones: Bundle) -> Printer<B> {
        Printer { map, zones }
    }

    /// The map.
    pub fn map(&self) -> &Map<B> {
        &self.map
    }

    /// The zones' files.
    pub fn zones(&self) -> &Bundle {
        &self.zones
    }

    /// The slip at a fix, in degrees, and an instant, in seconds from 1970.
    pub fn stamp(&self, lat: f32, lon: f32, instant: i64) -> Result<Stamped, NotStamped> {
        self.stamped(|map, zones, paper| match self.map.atlas() {
            Some(atlas) => raw::slip_at_atlas((lat, lon, instant), map, atlas.words(), zones, paper),
            None => raw::slip_at((lat, lon, instant), map, zones, paper),
        })
    }

    /// The same for degrees that come as `f64`: each is rounded once, to the nearest `f32`.
    pub fn stamp_degrees(&self, lat: f64, lon: f64, instant: i64) -> Result<Stamped, NotStamped> {
        self.stamp(lat as f32, lon as f32, instant)
    }

    /// The slip that a line asks for, as [`crate::Request::read`] reads it.
    pub fn stamp_request(&self, line: impl AsRef<[u8]>) -> Result<Stamped, NotStamped> {
        self.stamped(|map, zones, paper| match self.map.atlas() {
            Some(atlas) => raw::slip_atlas(line.as_ref(), map, atlas.words(), zones, paper),
            None => raw::slip(line.as_ref(), map, zones, paper),
        })
    }

    /// The zones by which a slip at this fix is stamped or not: the map's own answer, which a refused slip does not carry.
    pub fn found(&self, lat: f32, lon: f32) -> Result<Zones, Error> {
        self.map.found(lat, lon)
    }

    fn stamped(&self, call: impl FnOnce(&[u8], &[u8], Paper) -> Result<Reply, NotStamped>) -> Result<Stamped, NotStamped> {
        let (mut hits, mut text) = self.map.buffers(1);
        let mut out = vec![0; self.map.room().line];
        let paper = Paper { hits: &mut hits, text: &mut text, out: &mut out };
        let [length, matches, offset, ..] = call(self.map.bytes(), self.zones.to_bytes(), paper)?;
        let matches = self.map.matches_of(matches as usize, &hits, &mut Entries(&text));
        Ok(Stamped {
            line: text_of(&out[..length as usize]),
            offset: offset as u32 as i32,
            matches: matches.expect("the library's matches are in a zone or on its border"),
        })
    }
}
