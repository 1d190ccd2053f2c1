//! An atlas beside a map: a lookup through it reads the entries whose box meets the fix's tile, and of their borders only the stretches whose box holds the fix.

use crate::answer::{Error, Zones};
use crate::map::Map;
use crate::raw;
use crate::words;
use std::fmt;
use std::path::Path;

/// The words of an atlas: an index with marks along the borders. They are of one map alone: every way to get one holds it against the map, each word of it, but for [`Atlas::believed`]. [`Map`] holds both.
#[derive(Clone, Debug, Eq, PartialEq)]
pub struct Atlas {
    words: Vec<u32>,
}

/// Why words are no atlas of a map, which is refusal 36. Whichever it is, it is built again: by `depot atlas`, or by `Atlas::build`.
#[derive(Clone, Copy, Debug, Eq, PartialEq)]
pub enum NotAtlas {
    /// The front of this map's atlas: it was cut, or it is an index.
    Cut {
        /// How many words are there.
        words: usize,
        /// How many there should be.
        of: usize,
    },
    /// It keeps another length, header or table: built for another map, or for this one before it was changed; or it is no atlas at all.
    OtherMap,
    /// It keeps this map's length, header and table, and goes on with other words: of another release, or damaged.
    OtherWords,
}

impl fmt::Display for NotAtlas {
    fn fmt(&self, f: &mut fmt::Formatter) -> fmt::Result {
        f.write_str("refusal 36: no atlas of this map: ")?;
        match self {
            NotAtlas::Cut { words, of } => write!(f, "{words} words of {of}, so it was cut or is an index"),
            NotAtlas::OtherMap => f.write_str("it was built for another map, or for this one before it was changed"),
            NotAtlas::OtherWords => f.write_str("it is of another release, or damaged"),
        }?;
        f.write_str("; build it again with `depot atlas`")
    }
}

impl std::error::Error for NotAtlas {}

/// Of so many bytes of a file an atlas takes at most a word, in most maps: half of its length.
#[cfg(feature = "office")]
const BYTES_A_WORD: usize = 8;

impl Atlas {
    /// Builds the atlas of a map.
    #[cfg(feature = "office")]
    pub fn build<B: AsRef<[u8]>>(map: &Map<B>) -> Result<Atlas, Error> {
        let first = map.bytes().len() / BYTES_A_WORD;
        Ok(Atlas { words: words::built(first, |room| raw::build_atlas(map.bytes(), room))? })
    }

    /// Its words.
    pub fn words(&self) -> &[u32] {
        &self.words
    }

    /// The words as bytes, the low byte of each first.
    pub fn to_bytes(&self) -> Vec<u8> {
        words::to_bytes(&self.words)
    }

    /// What `to_bytes` gave for this map. Each word is worked out again: of any others, whoever wrote them, it is said why they are none ([`NotAtlas`]).
    #[cfg(feature = "office")]
    pub fn of_bytes<B: AsRef<[u8]>>(bytes: &[u8], map: &Map<B>) -> Result<Atlas, Error> {
        let atlas = Atlas { words: words::of_bytes(bytes) };
        if bytes.len() % 4 == 0 && atlas.is_of(map) {
            return Ok(atlas);
        }
        Err(why_not(&atlas.words, map))
    }

    /// Keeps it in a file.
    pub fn write(&self, path: impl AsRef<Path>) -> Result<(), Error> {
        Ok(std::fs::write(path, self.to_bytes())?)
    }

    /// Reads what `write` wrote for this map, and asks as `of_bytes` does.
    #[cfg(feature = "office")]
    pub fn read<B: AsRef<[u8]>>(path: impl AsRef<Path>, map: &Map<B>) -> Result<Atlas, Error> {
        Atlas::of_bytes(&std::fs::read(path)?, map)
    }

    /// What `to_bytes` gave for this map, as a printer takes it from its office: the map's length, header and table are compared, lists and marks believed. So it must be one that the office has held against
    /// this map (`depot atlas MAP --check ATLAS`): of any other words the answers are theirs, and may miss a zone.
    pub fn believed<B: AsRef<[u8]>>(bytes: &[u8], map: &Map<B>) -> Result<Atlas, Error> {
        let words = words::of_bytes(bytes);
        match raw::index_tied(map.bytes(), &words) {
            Ok(_) if bytes.len() % 4 == 0 => Ok(Atlas { words }),
            Ok(_) => Err(NotAtlas::OtherWords.into()),
            Err(_) => Err(NotAtlas::OtherMap.into()),
        }
    }

    /// Whether it is what `build` gives for a map; then a lookup through it is the plain lookup.
    #[cfg(feature = "office")]
    pub fn is_of<B: AsRef<[u8]>>(&self, map: &Map<B>) -> bool {
        raw::is_atlas(map.bytes(), &self.words).is_ok()
    }
}

/// Why words are not those that are built for a map, which is done to say it; or why none can be built.
#[cfg(feature = "office")]
fn why_not<B: AsRef<[u8]>>(words: &[u32], map: &Map<B>) -> Error {
    let built = match Atlas::build(map) {
        Ok(atlas) => atlas.words,
        Err(error) => return error,
    };
    if words.len() < built.len() && built.starts_with(words) {
        return NotAtlas::Cut { words: words.len(), of: built.len() }.into();
    }
    match raw::index_tied(map.bytes(), words) {
        Ok(_) => NotAtlas::OtherWords.into(),
        Err(_) => NotAtlas::OtherMap.into(),
    }
}

impl<B: AsRef<[u8]>> Map<B> {
    /// What [`Map::lookup`] gives, through an atlas of this map, which is not asked here: a map that `Map::open_with` opened has been.
    pub fn lookup_atlas(&self, atlas: &Atlas, lat: f32, lon: f32) -> Result<Zones, Error> {
        self.found_by(|hits, text| raw::lookup_atlas(self.bytes(), atlas.words(), (lat, lon, true), hits, text))
    }
}
