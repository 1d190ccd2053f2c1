//! A hit in a lent list. bench/ and compare/ take this file too.

/// The words of a hit: polygon id, metadata id, kind, the file place of its table entry. A list of n words has room for n / `HIT_WORDS` hits.
pub const HIT_WORDS: usize = 4;
