//! A tile index beside a map: a lookup through it reads only the entries whose box meets the fix's tile.

use crate::answer::{Error, Zones};
use crate::map::Map;
use crate::raw;
use crate::words;
#[cfg(feature = "office")]
use std::io;
use std::path::Path;

/// The words of an index. It goes with every file that has the length, header and table of the one it was built for.
#[derive(Clone, Debug, Eq, PartialEq)]
pub struct Index {
    words: Vec<u32>,
}

/// The words that say where the list of each tile begins, and then where the last one ends.
const LISTS: std::ops::Range<usize> = 3..3 + 32 * 64 + 1;

impl Index {
    /// Builds the index of a map.
    #[cfg(feature = "office")]
    pub fn build<B: AsRef<[u8]>>(map: &Map<B>) -> Result<Index, Error> {
        Ok(Index { words: words::built(0, |room| raw::build_index(map.bytes(), room))? })
    }

    /// An index of these words. Any are taken, and their records, starts and lists are believed: `Index::is_of`, of the office, says of words that another program wrote whether they are its index.
    pub fn of_words(words: Vec<u32>) -> Index {
        Index { words }
    }

    /// Its words.
    pub fn words(&self) -> &[u32] {
        &self.words
    }

    /// How many entries a lookup in each tile reads.
    pub fn in_tiles(&self) -> impl Iterator<Item = usize> + '_ {
        let places = self.words.get(LISTS).unwrap_or_default();
        places.windows(2).map(|ends| ends[1].saturating_sub(ends[0]) as usize)
    }

    /// The words as bytes, the low byte of each first.
    pub fn to_bytes(&self) -> Vec<u8> {
        words::to_bytes(&self.words)
    }

    /// What `to_bytes` gave for this map. Each word is worked out again: any other words are refused with 36, whoever wrote them; bytes that are not four a word
    /// are no index.
    #[cfg(feature = "office")]
    pub fn of_bytes<B: AsRef<[u8]>>(bytes: &[u8], map: &Map<B>) -> Result<Index, Error> {
        if bytes.len() % 4 != 0 {
            let said = format!("{} bytes are no whole number of words, so it is no index or a cut one: build it again", bytes.len());
            return Err(io::Error::new(io::ErrorKind::InvalidData, said).into());
        }
        let words = words::of_bytes(bytes);
        raw::is_index(map.bytes(), &words)?;
        Ok(Index { words })
    }

    /// Keeps it in a file.
    pub fn write(&self, path: impl AsRef<Path>) -> Result<(), Error> {
        Ok(std::fs::write(path, self.to_bytes())?)
    }

    /// Reads what `write` wrote for this map, and asks as `of_bytes` does.
    #[cfg(feature = "office")]
    pub fn read<B: AsRef<[u8]>>(path: impl AsRef<Path>, map: &Map<B>) -> Result<Index, Error> {
        Index::of_bytes(&std::fs::read(path)?, map)
    }

    /// Whether it is what `build` gives for a map, whoever wrote it; then a lookup through it, with or without a comparison, is the plain lookup.
    #[cfg(feature = "office")]
    pub fn is_of<B: AsRef<[u8]>>(&self, map: &Map<B>) -> bool {
        raw::is_index(map.bytes(), &self.words).is_ok()
    }

    /// Whether it keeps a map's length, header and table; then lookups through an index that was built may leave the comparison out.
    pub fn is_tied<B: AsRef<[u8]>>(&self, map: &Map<B>) -> bool {
        raw::index_tied(map.bytes(), &self.words).is_ok()
    }
}

impl<B: AsRef<[u8]>> Map<B> {
    /// What [`Map::lookup`] gives, through an index, which is held against the file at each call; refusal 36 says that it does not go with it.
    pub fn lookup_indexed(&self, index: &Index, lat: f32, lon: f32) -> Result<Zones, Error> {
        self.found_by(|hits, text| raw::lookup_indexed(self.bytes(), index.words(), (lat, lon, true), hits, text))
    }

    /// The same without the comparison: for an index that was built, of which [`Index::is_tied`] said yes, or any of which `Index::is_of` did.
    pub fn lookup_through(&self, index: &Index, lat: f32, lon: f32) -> Result<Zones, Error> {
        self.found_by(|hits, text| raw::lookup_through(self.bytes(), index.words(), (lat, lon, true), hits, text))
    }
}
