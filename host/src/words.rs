//! What an index and an atlas have in common: words that are built in a room that grows, and kept as bytes.

#[cfg(feature = "office")]
use crate::answer::Error;
#[cfg(feature = "office")]
use crate::raw::Reply;
#[cfg(feature = "office")]
use crate::refusal::{Number, Refusal};

/// The least room that is tried.
#[cfg(feature = "office")]
const LEAST_ROOM: usize = 1 << 16;

/// The words that a building gives, which is tried in a room of so many words at first; it grows while they do not fit.
#[cfg(feature = "office")]
pub fn built(first: usize, building: impl Fn(&mut [u32]) -> Result<Reply, Refusal>) -> Result<Vec<u32>, Error> {
    let mut room = first.max(LEAST_ROOM);
    loop {
        let mut words = vec![0; room];
        match building(&mut words) {
            Ok(reply) => {
                words.truncate(reply[0] as usize);
                return Ok(words);
            }
            Err(refusal) if refusal.number == Number::IndexRoom && room < 1 << 32 => room *= 2,
            Err(refusal) => return Err(refusal.into()),
        }
    }
}

/// The words as bytes, the low byte of each first.
pub fn to_bytes(words: &[u32]) -> Vec<u8> {
    words.iter().flat_map(|word| word.to_le_bytes()).collect()
}

/// The words again, those that are whole.
pub fn of_bytes(bytes: &[u8]) -> Vec<u32> {
    bytes.chunks_exact(4).map(|four| u32::from_le_bytes([four[0], four[1], four[2], four[3]])).collect()
}
