//! A map: the bytes of a PLB file, opened, and what it answers.

use crate::answer::{End, Error, Field, Header, Kind, Match, Simple, Table, Unknown, Zones};
use crate::atlas::Atlas;
use crate::entries::{text_of, Entries};
use crate::raw::{self, Reply, HIT_WORDS};
use crate::refusal::Refusal;
use std::path::Path;

/// What a map lends the library for one call: hits, before those of one zone are merged, bytes of text, and for a slip bytes of line. By default as much as the program `stamp` has.
#[derive(Clone, Copy, Debug)]
pub struct Room {
    /// Hits.
    pub hits: usize,
    /// Bytes.
    pub text: usize,
    /// Bytes of a slip's line.
    pub line: usize,
}

impl Default for Room {
    fn default() -> Room {
        Room {
            hits: 1024,
            text: 16_384,
            line: 4096,
        }
    }
}

/// A file that the library has opened. `B` holds its bytes: a `Vec<u8>`, a slice, or a [`crate::Mapping`].
///
/// ```
/// use uskelzar::{End, Map};
///
/// let map = Map::read("../examples/world-9.plb")?;
/// assert_eq!(map.whole_description(52.52, 13.40)?.as_deref(), Some("Europe/Berlin"));
/// let zones = map.lookup(41.88, -87.63)?;
/// assert_eq!((zones.matches.len(), zones.end), (3, End::Whole)); // on the border of three zones
/// # Ok::<(), uskelzar::Error>(())
/// ```
pub struct Map<B> {
    bytes: B,
    header: Header,
    room: Room,
    /// It is this file's: it was built for it, or held against it.
    atlas: Option<Atlas>,
}

/// Room for 255 names and a notice of up to 256 bytes each.
const HEADER_TEXT: usize = 256 * 258;

impl Map<Vec<u8>> {
    /// Reads a file into memory and opens it.
    pub fn read(path: impl AsRef<Path>) -> Result<Map<Vec<u8>>, Error> {
        Map::open(std::fs::read(path)?)
    }

    /// Reads a file and its atlas, which [`Atlas::write`] or `depot atlas` wrote, and opens it with that.
    #[cfg(feature = "office")]
    pub fn read_with(path: impl AsRef<Path>, atlas: impl AsRef<Path>) -> Result<Map<Vec<u8>>, Error> {
        Map::open_with(std::fs::read(path)?, std::fs::read(atlas)?)
    }
}

impl<B: AsRef<[u8]>> Map<B> {
    /// Opens a file's bytes.
    pub fn open(bytes: B) -> Result<Map<B>, Error> {
        Map::open_by(raw::open, bytes)
    }

    /// Opens a file's bytes, and refuses a number that their end cuts. Lookups in the map stay plain; [`Map::lookup_strict`] is the strict one.
    pub fn open_strict(bytes: B) -> Result<Map<B>, Error> {
        Map::open_by(raw::open_strict, bytes)
    }

    /// Opens a file's bytes with those of its atlas. Each word of it is worked out again, here and once; words that are not this file's say why ([`crate::NotAtlas`]).
    /// Every lookup but the strict one, and a [`crate::Printer`]'s slips, then go through it and read a small part of the file; no answer is another one.
    ///
    /// ```
    /// use uskelzar::{Atlas, Error, Map, NotAtlas};
    ///
    /// let map = Map::read("../examples/world-9.plb")?;
    /// let atlas = Atlas::build(&map)?.to_bytes();
    /// let quick = Map::open_with(map.bytes(), &atlas)?;
    /// assert_eq!(quick.found(52.52, 13.40)?, map.found(52.52, 13.40)?);
    /// let other = std::fs::read("../examples/world-15.plb")?;
    /// assert!(matches!(Map::open_with(other, &atlas), Err(Error::NotAtlas(NotAtlas::OtherMap))));
    /// # Ok::<(), uskelzar::Error>(())
    /// ```
    #[cfg(feature = "office")]
    pub fn open_with(bytes: B, atlas: impl AsRef<[u8]>) -> Result<Map<B>, Error> {
        let map = Map::open(bytes)?;
        let atlas = Atlas::of_bytes(atlas.as_ref(), &map)?;
        Ok(Map { atlas: Some(atlas), ..map })
    }

    /// Opens a file's bytes with those of its atlas, which is not worked out again: [`Atlas::believed`] says what is asked of it, and whose word it takes.
    ///
    /// ```
    /// # #[cfg(feature = "office")] {
    /// use uskelzar::{Atlas, Map};
    ///
    /// let map = Map::read("../examples/world-9.plb")?;
    /// let atlas = Atlas::build(&map)?.to_bytes(); // in the office
    /// let quick = Map::open_believing(map.bytes(), &atlas)?; // in the printer
    /// assert_eq!(quick.found(52.52, 13.40)?, map.found(52.52, 13.40)?);
    /// # }
    /// # Ok::<(), uskelzar::Error>(())
    /// ```
    pub fn open_believing(bytes: B, atlas: impl AsRef<[u8]>) -> Result<Map<B>, Error> {
        let map = Map::open(bytes)?;
        let atlas = Atlas::believed(atlas.as_ref(), &map)?;
        Ok(Map { atlas: Some(atlas), ..map })
    }

    fn open_by(call: Open, bytes: B) -> Result<Map<B>, Error> {
        let header = header_by(call, bytes.as_ref())?;
        Ok(Map {
            bytes,
            header,
            room: Room::default(),
            atlas: None,
        })
    }

    /// Builds the map's atlas and holds it, as [`Map::open_with`] holds one that is there. Where none can be built the map stays as it is.
    #[cfg(feature = "office")]
    pub fn build_atlas(&mut self) -> Result<&Atlas, Error> {
        let atlas = Atlas::build(self)?;
        Ok(self.atlas.insert(atlas))
    }

    /// Lends other room; refusals 17 and 18 say that it was too little.
    pub fn with_room(self, room: Room) -> Map<B> {
        Map { room, ..self }
    }

    /// What the file says of itself.
    pub fn header(&self) -> &Header {
        &self.header
    }

    /// The file's bytes.
    pub fn bytes(&self) -> &[u8] {
        self.bytes.as_ref()
    }

    /// The atlas that it holds.
    pub fn atlas(&self) -> Option<&Atlas> {
        self.atlas.as_ref()
    }

    pub(crate) fn room(&self) -> Room {
        self.room
    }

    /// The zones that hold a fix, in degrees, with the distance to the nearest border.
    pub fn lookup(&self, lat: f32, lon: f32) -> Result<Zones, Error> {
        self.asked((lat, lon, true))
    }

    /// The same for degrees that come as `f64`: each is rounded once, to the nearest `f32`, which is what the library asks by.
    pub fn lookup_degrees(&self, lat: f64, lon: f64) -> Result<Zones, Error> {
        self.lookup(lat as f32, lon as f32)
    }

    /// What [`Map::lookup`] gives without that distance, which is 0 then: what a slip is stamped by.
    pub fn found(&self, lat: f32, lon: f32) -> Result<Zones, Error> {
        self.asked((lat, lon, false))
    }

    /// Through the atlas, where there is one.
    fn asked(&self, (lat, lon, safezone): (f32, f32, bool)) -> Result<Zones, Error> {
        self.found_by(|hits, text| match &self.atlas {
            Some(atlas) => raw::lookup_atlas(self.bytes(), atlas.words(), (lat, lon, safezone), hits, text),
            None => raw::lookup(self.bytes(), lat, lon, safezone, hits, text),
        })
    }

    /// What [`Map::lookup`] gives, but a number that the file's end cuts is refused where the search or a field meets it. It goes through no atlas.
    pub fn lookup_strict(&self, lat: f32, lon: f32) -> Result<Zones, Error> {
        self.found_by(|hits, text| raw::lookup_strict(self.bytes(), lat, lon, true, hits, text))
    }

    /// What a lookup answers that is given hits and text to write in.
    pub(crate) fn found_by(&self, call: impl FnOnce(&mut [u32], &mut [u8]) -> Result<Reply, Refusal>) -> Result<Zones, Error> {
        let (mut hits, mut text) = self.buffers(1);
        let reply = call(&mut hits, &mut text)?;
        let [matches, mark, safezone, used, _] = reply;
        let mut fields = Entries(&text[..used as usize]);
        Ok(self.zones_of([matches, mark, safezone], &hits, &mut fields)?)
    }

    /// From match count, end mark and safezone bits, what stands in front of the hits and of the fields.
    pub(crate) fn zones_of(&self, [matches, mark, safezone]: [u64; 3], hits: &[u32], fields: &mut Entries) -> Result<Zones, Unknown> {
        Ok(Zones {
            matches: self.matches_of(matches as usize, hits, fields)?,
            end: End::of(mark)?,
            safezone: f32::from_bits(safezone as u32),
        })
    }

    /// So many matches, from the front of the hits and of the fields.
    pub(crate) fn matches_of(&self, count: usize, hits: &[u32], fields: &mut Entries) -> Result<Vec<Match>, Unknown> {
        let hits = hits.chunks_exact(HIT_WORDS).take(count);
        hits.map(|hit| self.match_of(hit, fields)).collect()
    }

    /// A description of the first zone that holds a fix, in degrees.
    pub fn simple_lookup(&self, lat: f32, lon: f32) -> Result<Simple, Error> {
        let (mut hits, mut text) = self.buffers(1);
        let reply = match self.atlas() {
            Some(atlas) => raw::simple_atlas(self.bytes(), atlas.words(), (lat, lon), &mut hits, &mut text)?,
            None => raw::simple_lookup(self.bytes(), lat, lon, &mut hits, &mut text)?,
        };
        let [matches, mark, described, length, _] = reply;
        Ok(Simple {
            description: (described == 1).then(|| text_of(&text[..length as usize])),
            matches: matches as usize,
            end: End::of(mark)?,
        })
    }

    /// The first match's description, where the search was whole; a slip asks more, see [`crate::Printer`].
    pub fn whole_description(&self, lat: f32, lon: f32) -> Result<Option<String>, Error> {
        let found = self.simple_lookup(lat, lon)?;
        Ok(found.description.filter(|_| found.end == End::Whole))
    }

    /// The old name of [`Map::whole_description`].
    #[deprecated(note = "no slip is stamped by it: a slip has all zones of a border, and is refused off the globe. `Printer` stamps slips; `whole_description` is this function")]
    pub fn zone_for_slip(&self, lat: f32, lon: f32) -> Result<Option<String>, Error> {
        self.whole_description(lat, lon)
    }

    /// The map's room so many times.
    pub(crate) fn buffers(&self, times: usize) -> (Vec<u32>, Vec<u8>) {
        (vec![0; times * HIT_WORDS * self.room.hits], vec![0; times * self.room.text])
    }

    fn match_of(&self, hit: &[u32], fields: &mut Entries) -> Result<Match, Unknown> {
        let names = &self.header.names;
        let field = |_| Field {
            name: names[usize::from(fields.tag())].clone(),
            value: fields.string(),
        };
        Ok(Match {
            polygon: hit[0],
            metadata: hit[1],
            kind: Kind::of(hit[2])?,
            entry: hit[3],
            fields: (0..names.len()).map(field).collect(),
        })
    }
}

/// Opening over lent buffers, plain or strict.
type Open = fn(&[u8], &mut [u8]) -> Result<Reply, Refusal>;

fn header_by(call: Open, file: &[u8]) -> Result<Header, Error> {
    let mut text = vec![0; HEADER_TEXT];
    let [kind, version, precision, count, used] = call(file, &mut text)?;
    let mut strings = Entries(&text[..used as usize]);
    Ok(Header {
        table: Table::of(kind)?,
        version: version as u8,
        precision: precision as u8,
        names: (0..count).map(|_| strings.string()).collect(),
        notice: strings.string(),
    })
}
