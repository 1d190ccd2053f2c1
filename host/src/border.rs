//! A border from its points.

use crate::raw;
use crate::refusal::Refusal;

/// A run of the earlier data that stands for some of a border's moves.
#[derive(Clone, Copy, Debug, Eq, PartialEq)]
pub struct Piece {
    /// Where the run starts in the earlier data.
    pub start: u32,
    /// The run's length in bytes.
    pub bytes: u32,
    /// Whether it is read from its end to its start.
    pub backward: bool,
    /// The first move that it stands for.
    pub first: u32,
    /// How many moves it stands for.
    pub count: u32,
}

/// The bytes of a border from its points on the file's grid, each a latitude and a longitude. `earlier` is the data section
/// up to the border's first byte; each piece borrows some of the moves from it.
pub fn write_border(
    version: u8,
    points: &[(i32, i32)],
    pieces: &[Piece],
    earlier: &[u8],
) -> Result<Vec<u8>, Refusal> {
    let (lats, lons): (Vec<i32>, Vec<i32>) = points.iter().copied().unzip();
    let words: Vec<u32> = pieces.iter().flat_map(words_of).collect();
    let mut out = vec![0; most_bytes(points.len())];
    let reply = raw::write_border(version, &lats, &lons, &words, earlier, &mut out)?;
    out.truncate(reply[0] as usize);
    Ok(out)
}

pub(crate) fn words_of(piece: &Piece) -> [u32; 5] {
    [
        piece.start,
        piece.bytes,
        u32::from(piece.backward),
        piece.first,
        piece.count,
    ]
}

/// Room for every border of so many points: ten bytes a move, a count or 16 pieces of at most 12 bytes, and two at the end.
pub(crate) fn most_bytes(points: usize) -> usize {
    points * 10 + 16 * 12 + 2
}

/// A count as the library takes it; one that it cannot take is refused there.
pub(crate) fn word(count: usize) -> u32 {
    u32::try_from(count).unwrap_or(u32::MAX)
}
