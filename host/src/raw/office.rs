//! The office's thirteen functions.

use super::{answered, Reply};
use crate::library;
use crate::refusal::Refusal;

/// Salvage's list has so many words a line.
pub const DROPPED_WORDS: usize = 2;

/// A yard of the builder has so many words, and a file at most so many yards and names.
pub const YARD_WORDS: usize = 4;
#[allow(missing_docs)]
pub const MOST_YARDS: usize = 4096;
#[allow(missing_docs)]
pub const MOST_NAMES: usize = 255;

/// The numbers of a builder that holds yards: the library's own, handed on from call to call.
pub type State = [u64; STATE_WORDS];
#[allow(missing_docs)]
pub const STATE_WORDS: usize = 14;

/// The words used; the index in the words.
pub fn build_index(file: &[u8], index: &mut [u32]) -> Result<Reply, Refusal> {
    answered(|reply| library::uskelzar_build_index(file, index, reply))
}

/// Whether words are those that `build_index`, lent as many, leaves for this file, whoever wrote them; no value.
pub fn is_index(file: &[u8], index: &[u32]) -> Result<Reply, Refusal> {
    answered(|reply| library::uskelzar_is_index(file, index, reply))
}

/// The words used; the atlas in the words.
pub fn build_atlas(file: &[u8], atlas: &mut [u32]) -> Result<Reply, Refusal> {
    answered(|reply| library::uskelzar_build_atlas(file, atlas, reply))
}

/// Whether words are those that `build_atlas`, lent as many, leaves for this file, whoever wrote them; no value.
pub fn is_atlas(file: &[u8], atlas: &[u32]) -> Result<Reply, Refusal> {
    answered(|reply| library::uskelzar_is_atlas(file, atlas, reply))
}

/// The border's length; the border in `out`. A piece is five words: start, bytes, direction, first move, move count.
pub fn write_border(
    version: u8,
    lats: &[i32],
    lons: &[i32],
    pieces: &[u32],
    earlier: &[u8],
    out: &mut [u8],
) -> Result<Reply, Refusal> {
    answered(|reply| library::uskelzar_write_border(version, lats, lons, pieces, earlier, out, reply))
}

/// The new file's length, the list's lines, the entries kept; the new file in `out`, and of each dropped entry its number and first reason.
pub fn salvage(file: &[u8], dropped: &mut [u32], out: &mut [u8]) -> Result<Reply, Refusal> {
    answered(|reply| library::uskelzar_salvage(file, dropped, out, reply))
}

/// What a file is built of, as flat lists: of each yard four words say how many latitudes, longitudes, pieces (of five words) and values are its own.
#[derive(Clone, Copy, Debug)]
pub struct Plan<'a> {
    /// `T` or `C`.
    pub kind: u8,
    /// How its borders are written: 0 or 1.
    pub version: u8,
    /// The bits of its grid: 1 to 31.
    pub precision: u8,
    /// How many names there are.
    pub names: u32,
    /// Four words a yard.
    pub yards: &'a [u32],
    /// The latitudes of all yards.
    pub lats: &'a [i32],
    /// Their longitudes.
    pub lons: &'a [i32],
    /// The words of their pieces.
    pub pieces: &'a [u32],
    /// How many bytes each text has: the names, the notice, the values yard by yard.
    pub lengths: &'a [u32],
    /// The bytes of all texts.
    pub texts: &'a [u8],
}

/// Lists that are lent to be written, and how long each must be: two structs with the same names.
macro_rules! lists {
    ($(#[$said:meta])* $lists:ident, $(#[$long:meta])* $lengths:ident { $($name:ident: $item:ty,)* }) => {
        $(#[$said])*
        #[derive(Debug)]
        #[allow(missing_docs)] // the lengths say how long each is
        pub struct $lists<'a> {
            $(pub $name: &'a mut [$item],)*
        }

        $(#[$long])*
        #[derive(Clone, Copy, Debug, Eq, PartialEq)]
        #[allow(missing_docs)] // the names are those of the lists
        pub struct $lengths {
            $(pub $name: usize,)*
        }
    };
}

lists! {
    /// The lists that a builder works in. They may hold anything, and are zero afterwards ([`add`] may leave them untouched); include/uskelzar.h says what each must be for.
    Work,
    /// How long the working lists must be; longer ones are as good.
    Lengths {
        starts: u32,
        keys: u64,
        spare: u64,
        kept: u32,
        held: u8,
        words: u32,
        places: u32,
    }
}

impl Lengths {
    /// For so many yards and names, and so many bytes of values.
    pub fn of(yards: usize, names: usize, value_bytes: usize) -> Lengths {
        let fields = yards * names;
        Lengths {
            starts: fields + 1,
            keys: fields.max(yards),
            spare: fields.max(yards),
            kept: fields,
            held: value_bytes,
            words: fields,
            places: 2 * yards,
        }
    }
}

/// The file's length; the file in `out`. Four numbers a yard of `boxes` and as many `bytes` as `out` has are worked in too. A refusal does not say which yard met it.
pub fn build(plan: &Plan, work: Work, boxes: &mut [i32], bytes: &mut [u8], out: &mut [u8]) -> Result<Reply, Refusal> {
    answered(|reply| {
        library::uskelzar_build(
            plan.kind, plan.version, plan.precision, plan.names,
            plan.yards, plan.lats, plan.lons, plan.pieces, plan.lengths, plan.texts,
            work.starts, work.keys, work.spare, work.kept, work.held, work.words, work.places, boxes, bytes, out,
            reply,
        )
    })
}

/// What a builder that holds yards is begun with.
#[derive(Clone, Copy, Debug)]
pub struct Start<'a> {
    /// `T` or `C`.
    pub kind: u8,
    /// How borders are written: 0 or 1.
    pub version: u8,
    /// The bits of the grid: 1 to 31.
    pub precision: u8,
    /// How many names there are.
    pub names: u32,
    /// How many bytes the file may have.
    pub room: usize,
    /// How many bytes each text has: the names, the notice.
    pub lengths: &'a [u32],
    /// Their bytes.
    pub texts: &'a [u8],
}

/// A yard for a builder.
#[derive(Clone, Copy, Debug)]
#[allow(missing_docs)] // as in `Plan`
pub struct Offer<'a> {
    pub lats: &'a [i32],
    pub lons: &'a [i32],
    pub pieces: &'a [u32],
    pub lengths: &'a [u32],
    pub texts: &'a [u8],
}

/// The lists in which a builder holds its yards, the library's own as its state is: four numbers of `boxes` and one of `borders` a yard, a length a text
/// with names and notice, the bytes of all texts, the data section.
#[derive(Debug)]
#[allow(missing_docs)]
pub struct Holding<'a> {
    pub boxes: &'a mut [i32],
    pub borders: &'a mut [u32],
    pub lengths: &'a mut [u32],
    pub texts: &'a mut [u8],
    pub bytes: &'a mut [u8],
}

lists! {
    /// What a builder notes beside its yards, so that an add does not sum all of them afresh: of adds alone. Lend the same four lists to each, as the last one
    /// left them; what they hold before the first does not matter. With others its totals may be wrong, and nothing outside the lists is touched.
    Notes,
    /// How long the notes must be; longer ones are as good.
    NoteLengths {
        marks: u32,
        chains: u32,
        groups: u32,
        begins: u32,
    }
}

impl NoteLengths {
    /// For so many yards and names.
    pub fn of(yards: usize, names: usize) -> NoteLengths {
        NoteLengths {
            marks: yards * names + 1,
            chains: 4096 + yards * names,
            groups: 4096 + yards,
            begins: yards,
        }
    }
}

/// The totals of an empty builder; on a refusal its state and lists are zero. Every call of a builder answers with table, metadata and data size, the number
/// of yards and the greatest lower latitude's bits; the later ones, refused, leave state and lists as they are.
pub fn begin(start: &Start, state: &mut State, holding: Holding) -> Result<Reply, Refusal> {
    answered(|reply| {
        library::uskelzar_begin(
            state, start.kind, start.version, start.precision, start.names, start.room,
            start.lengths, start.texts,
            holding.boxes, holding.borders, holding.lengths, holding.texts, holding.bytes,
            reply,
        )
    })
}

/// The totals with a yard more. `out` is worked in: as long as the data with this yard's border; as much of it as a border of so many points can take is zero afterwards, and the rest
/// as it was. The lists of `work` are zero afterwards, or all as they were.
pub fn add(offer: &Offer, state: &mut State, holding: Holding, notes: Notes, work: Work, out: &mut [u8]) -> Result<Reply, Refusal> {
    answered(|reply| {
        library::uskelzar_add(
            state,
            offer.lats, offer.lons, offer.pieces, offer.lengths, offer.texts,
            holding.boxes, holding.borders, holding.lengths, holding.texts, holding.bytes,
            notes.marks, notes.chains, notes.groups, notes.begins,
            work.starts, work.keys, work.spare, work.kept, work.held, work.words, work.places, out,
            reply,
        )
    })
}

/// The totals without the last yard.
pub fn drop_last(state: &mut State, holding: Holding, work: Work) -> Result<Reply, Refusal> {
    answered(|reply| {
        library::uskelzar_drop_last(
            state,
            holding.boxes, holding.borders, holding.lengths, holding.texts, holding.bytes,
            work.starts, work.keys, work.spare, work.kept, work.held, work.words, work.places,
            reply,
        )
    })
}

/// The totals with another text in the place of a yard's value. `out` is worked in and zero afterwards: as long as all texts.
pub fn replace(
    (yard, field): (u32, u32),
    text: &[u8],
    state: &mut State,
    holding: Holding,
    work: Work,
    out: &mut [u8],
) -> Result<Reply, Refusal> {
    answered(|reply| {
        library::uskelzar_replace(
            state, yard, field,
            text,
            holding.boxes, holding.borders, holding.lengths, holding.texts, holding.bytes,
            work.starts, work.keys, work.spare, work.kept, work.held, work.words, work.places, out,
            reply,
        )
    })
}

/// The totals of the builder as it was begun.
pub fn clear(state: &mut State, holding: Holding) -> Result<Reply, Refusal> {
    answered(|reply| {
        library::uskelzar_clear(
            state,
            holding.boxes, holding.borders, holding.lengths, holding.texts, holding.bytes,
            reply,
        )
    })
}

/// The file's length; the file of the held yards in `out`. State and lists are only read.
pub fn finish(state: &State, holding: &Holding, work: Work, out: &mut [u8]) -> Result<Reply, Refusal> {
    answered(|reply| {
        library::uskelzar_finish(
            state,
            holding.boxes, holding.borders, holding.lengths, holding.texts, holding.bytes,
            work.starts, work.keys, work.spare, work.kept, work.held, work.words, work.places, out,
            reply,
        )
    })
}
