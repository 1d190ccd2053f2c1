//! The lists that a builder works in.

use crate::raw::{Lengths, Work};

/// The lists that the builders of [`raw`](crate::raw) work in, one desk for any number of calls.
#[derive(Clone, Debug, Default)]
pub struct Desk {
    starts: Vec<u32>,
    keys: Vec<u64>,
    spare: Vec<u64>,
    kept: Vec<u32>,
    held: Vec<u8>,
    words: Vec<u32>,
    places: Vec<u32>,
}

impl Desk {
    /// With lists of these lengths.
    pub fn new(lengths: Lengths) -> Desk {
        let mut desk = Desk::default();
        desk.widen(lengths);
        desk
    }

    /// No list is shorter afterwards than this.
    pub fn widen(&mut self, lengths: Lengths) {
        widen(&mut self.starts, lengths.starts);
        widen(&mut self.keys, lengths.keys);
        widen(&mut self.spare, lengths.spare);
        widen(&mut self.kept, lengths.kept);
        widen(&mut self.held, lengths.held);
        widen(&mut self.words, lengths.words);
        widen(&mut self.places, lengths.places);
    }

    /// All of them.
    pub fn lend(&mut self) -> Work<'_> {
        Work {
            starts: &mut self.starts,
            keys: &mut self.keys,
            spare: &mut self.spare,
            kept: &mut self.kept,
            held: &mut self.held,
            words: &mut self.words,
            places: &mut self.places,
        }
    }
}

/// Zeros behind a list that is shorter.
pub(crate) fn widen<T: Clone + Default>(list: &mut Vec<T>, length: usize) {
    if list.len() < length {
        list.resize(length, T::default());
    }
}
