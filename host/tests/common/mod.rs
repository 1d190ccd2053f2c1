//! What several tests use.
#![allow(dead_code)] // each test uses some of it

#[cfg(feature = "office")]
pub mod desk;
pub mod encode;
pub mod fence;
pub mod files;
pub mod model;
pub mod tzif;

use fence::{Edge, Fence};
use uskelzar::raw::{self, Reply, HIT_WORDS};
use uskelzar::Refusal;
#[cfg(feature = "office")]
use uskelzar::{Atlas, Map};

pub const WORLD: &str = concat!(env!("CARGO_MANIFEST_DIR"), "/../examples/world-9.plb");

/// A fix, and whether the safezone is asked for.
#[derive(Clone, Copy)]
pub struct Fix {
    pub lat: f32,
    pub lon: f32,
    pub asked: bool,
}

/// The buffers of a lookup, between guards.
pub struct Buffers {
    hits: Fence,
    text: Fence,
}

/// A reply, with all that was lent.
#[derive(Clone, Debug, PartialEq)]
pub struct Outcome {
    pub reply: Result<Reply, Refusal>,
    pub hits: Vec<u32>,
    pub text: Vec<u8>,
}

impl Outcome {
    pub fn number(&self) -> u8 {
        self.reply
            .map_or_else(|refusal| refusal.number as u8, |_| 0)
    }

    /// On a refusal all is zero; on an answer all behind the matches, and behind so much of the text.
    pub fn assert_zero_behind(&self, used: impl Fn(Reply) -> u64) {
        let (words, bytes) = match self.reply {
            Ok(reply) => (HIT_WORDS * reply[0] as usize, used(reply) as usize),
            Err(_) => (0, 0),
        };
        assert!(self.hits[words..].iter().all(|word| *word == 0), "{self:?}");
        assert!(self.text[bytes..].iter().all(|byte| *byte == 0), "{self:?}");
    }
}

/// A lookup through an index or an atlas, as the crate has it over lent buffers.
pub type Beside = fn(&[u8], &[u32], (f32, f32, bool), &mut [u32], &mut [u8]) -> Result<Reply, Refusal>;

impl Buffers {
    pub fn new() -> Buffers {
        Buffers {
            hits: Fence::new(4096),
            text: Fence::new(4096),
        }
    }

    pub fn open(&mut self, file: &[u8], bytes: usize, edge: Edge) -> Outcome {
        self.open_by(raw::open, file, bytes, edge)
    }

    pub fn open_strict(&mut self, file: &[u8], bytes: usize, edge: Edge) -> Outcome {
        self.open_by(raw::open_strict, file, bytes, edge)
    }

    fn open_by(
        &mut self,
        call: fn(&[u8], &mut [u8]) -> Result<Reply, Refusal>,
        file: &[u8],
        bytes: usize,
        edge: Edge,
    ) -> Outcome {
        let text = self.text.lend::<u8>(bytes, edge);
        let reply = call(file, text);
        let text = text.to_vec();
        self.text.assert_kept(bytes, edge);
        Outcome {
            reply,
            hits: vec![],
            text,
        }
    }

    pub fn lookup(
        &mut self,
        file: &[u8],
        fix: Fix,
        words: usize,
        bytes: usize,
        edge: Edge,
    ) -> Outcome {
        self.call(words, bytes, edge, |hits, text| {
            raw::lookup(file, fix.lat, fix.lon, fix.asked, hits, text)
        })
    }

    pub fn lookup_strict(
        &mut self,
        file: &[u8],
        fix: Fix,
        words: usize,
        bytes: usize,
        edge: Edge,
    ) -> Outcome {
        self.call(words, bytes, edge, |hits, text| {
            raw::lookup_strict(file, fix.lat, fix.lon, fix.asked, hits, text)
        })
    }

    /// Through words beside the file, by one of the three functions that do.
    pub fn lookup_by(
        &mut self,
        looking: Beside,
        (file, beside): (&[u8], &[u32]),
        fix: Fix,
        words: usize,
        bytes: usize,
        edge: Edge,
    ) -> Outcome {
        self.call(words, bytes, edge, |hits, text| {
            looking(file, beside, (fix.lat, fix.lon, fix.asked), hits, text)
        })
    }

    pub fn simple(
        &mut self,
        file: &[u8],
        fix: Fix,
        words: usize,
        bytes: usize,
        edge: Edge,
    ) -> Outcome {
        self.call(words, bytes, edge, |hits, text| {
            raw::simple_lookup(file, fix.lat, fix.lon, hits, text)
        })
    }

    pub fn simple_atlas(&mut self, (file, atlas): (&[u8], &[u32]), fix: Fix, words: usize, bytes: usize, edge: Edge) -> Outcome {
        self.call(words, bytes, edge, |hits, text| raw::simple_atlas(file, atlas, (fix.lat, fix.lon), hits, text))
    }

    fn call(
        &mut self,
        words: usize,
        bytes: usize,
        edge: Edge,
        call: impl FnOnce(&mut [u32], &mut [u8]) -> Result<Reply, Refusal>,
    ) -> Outcome {
        let hits = self.hits.lend::<u32>(words, edge);
        let text = self.text.lend::<u8>(bytes, edge);
        let reply = call(hits, text);
        let outcome = Outcome {
            reply,
            hits: hits.to_vec(),
            text: text.to_vec(),
        };
        self.hits.assert_kept(4 * words, edge);
        self.text.assert_kept(bytes, edge);
        outcome
    }
}

/// The atlas of the last file that was asked for.
#[cfg(feature = "office")]
#[derive(Default)]
pub struct AtlasOf {
    file: Vec<u8>,
    words: Vec<u32>,
}

#[cfg(feature = "office")]
impl AtlasOf {
    /// No word where the file has none.
    pub fn of(&mut self, file: &[u8]) -> Vec<u32> {
        if self.file != file {
            let atlas = Map::open(file).and_then(|map| Atlas::build(&map));
            *self = AtlasOf { file: file.to_vec(), words: atlas.map_or(vec![], |atlas| atlas.words().to_vec()) };
        }
        self.words.clone()
    }
}

/// Numbers that look random, the same in every run.
pub struct Dice(pub u64);

impl Dice {
    pub fn any(&mut self) -> u64 {
        self.0 ^= self.0 << 13;
        self.0 ^= self.0 >> 7;
        self.0 ^= self.0 << 17;
        self.0
    }

    /// Below a number that is not 0.
    pub fn below(&mut self, most: usize) -> usize {
        (self.any() >> 11) as usize % most
    }
}
