//! The library's functions over lent buffers (include/uskelzar.h has their contracts): the printer's twenty, and with the feature `office` the other thirteen. It asks nothing of `std`.

#[cfg(feature = "office")]
mod office;

pub use crate::hit::HIT_WORDS;
use crate::library;
#[cfg(feature = "office")]
pub use crate::library::OFFICE_PROTOTYPES;
pub use crate::library::PRINTER_PROTOTYPES;
use crate::refusal::{NotStamped, Refusal, Stop};
#[cfg(feature = "office")]
pub use office::*;

/// The five words of a reply.
pub type Reply = [u64; 5];

/// The third list of many fixes has so many words of each.
pub const ANSWER_WORDS: usize = 3;

/// Many fixes are at most so many.
pub const MOST_FIXES: usize = 4096;

/// The reply of a call that gave 0, or the refusal's number and words, of which so many may be other than 0. Every call begins with a reply that no
/// answer has, to be written over.
fn replied(call: impl FnOnce(&mut Reply) -> u8, words: usize) -> Result<Reply, (u8, Reply)> {
    let mut reply = [u64::MAX; 5];
    let number = call(&mut reply);
    if number == 0 {
        return Ok(reply);
    }
    debug_assert!(
        reply[words..].iter().all(|word| *word == 0),
        "a refusal has zeros behind its words"
    );
    Err((number, reply))
}

/// Of a call whose refusals have a cause and a detail alone.
fn answered(call: impl FnOnce(&mut Reply) -> u8) -> Result<Reply, Refusal> {
    replied(call, 2).map_err(|(number, reply)| Refusal::of(number, reply))
}

/// Opening in the library, plain or strict.
type Opening = fn(&[u8], &mut [u8], &mut Reply) -> u8;

fn open_by(opening: Opening, file: &[u8], text: &mut [u8]) -> Result<Reply, Refusal> {
    answered(|reply| opening(file, text, reply))
}

/// Type, version, precision, field count, bytes used; names then notice in the text.
pub fn open(file: &[u8], text: &mut [u8]) -> Result<Reply, Refusal> {
    open_by(library::uskelzar_open, file, text)
}

/// As `open`, but a number that the file's end cuts is refused.
pub fn open_strict(file: &[u8], text: &mut [u8]) -> Result<Reply, Refusal> {
    open_by(library::uskelzar_open_strict, file, text)
}

/// Lookup in the library, plain or strict.
type Looking = fn(&[u8], f32, f32, bool, &mut [u32], &mut [u8], &mut Reply) -> u8;

fn lookup_by(
    looking: Looking,
    file: &[u8],
    (lat, lon, asked): (f32, f32, bool),
    hits: &mut [u32],
    text: &mut [u8],
) -> Result<Reply, Refusal> {
    answered(|reply| looking(file, lat, lon, asked, hits, text, reply))
}

/// Matches, end mark, safezone bits, bytes used; the matches in the hits, their fields in the text.
pub fn lookup(
    file: &[u8],
    lat: f32,
    lon: f32,
    asked: bool,
    hits: &mut [u32],
    text: &mut [u8],
) -> Result<Reply, Refusal> {
    lookup_by(library::uskelzar_lookup, file, (lat, lon, asked), hits, text)
}

/// As `lookup`, but a number that the file's end cuts is refused.
pub fn lookup_strict(
    file: &[u8],
    lat: f32,
    lon: f32,
    asked: bool,
    hits: &mut [u32],
    text: &mut [u8],
) -> Result<Reply, Refusal> {
    lookup_by(library::uskelzar_lookup_strict, file, (lat, lon, asked), hits, text)
}

/// Fixes, matches of all of them, bytes used; the matches of one fix behind those of the other in the hits, their fields in the text, and of each fix
/// its match count, end mark and safezone bits in the answers. A refusal has the index of its fix, behind its detail.
pub fn lookup_many(
    file: &[u8],
    lats: &[f32],
    lons: &[f32],
    asked: bool,
    hits: &mut [u32],
    text: &mut [u8],
    answers: &mut [u32],
) -> Result<Reply, Stop> {
    stopped(|reply| library::uskelzar_lookup_many(file, lats, lons, asked, hits, text, answers, reply))
}

/// As `lookup_many`, through an atlas that `is_atlas` answered for.
pub fn many_atlas(
    (file, atlas): (&[u8], &[u32]),
    lats: &[f32],
    lons: &[f32],
    asked: bool,
    hits: &mut [u32],
    text: &mut [u8],
    answers: &mut [u32],
) -> Result<Reply, Stop> {
    stopped(|reply| library::uskelzar_many_atlas(file, atlas, lats, lons, asked, hits, text, answers, reply))
}

/// Of many fixes, whose refusals have the index of a fix.
fn stopped(call: impl FnOnce(&mut Reply) -> u8) -> Result<Reply, Stop> {
    replied(call, 3).map_err(|(number, reply)| Stop {
        index: reply[2] as usize,
        why: Refusal::of(number, reply),
    })
}

/// Matches, end mark, described (1) or not (0), the description's length; the description in the text.
pub fn simple_lookup(
    file: &[u8],
    lat: f32,
    lon: f32,
    hits: &mut [u32],
    text: &mut [u8],
) -> Result<Reply, Refusal> {
    answered(|reply| library::uskelzar_simple_lookup(file, lat, lon, hits, text, reply))
}

/// As `simple_lookup`, through an atlas that `is_atlas` answered for.
pub fn simple_atlas(
    file: &[u8],
    atlas: &[u32],
    (lat, lon): (f32, f32),
    hits: &mut [u32],
    text: &mut [u8],
) -> Result<Reply, Refusal> {
    answered(|reply| library::uskelzar_simple_atlas(file, atlas, lat, lon, hits, text, reply))
}

/// Whether words keep this file's length, header and table; records, starts and lists are believed. No value.
pub fn index_tied(file: &[u8], index: &[u32]) -> Result<Reply, Refusal> {
    answered(|reply| library::uskelzar_index_tied(file, index, reply))
}

/// Lookups through words beside the file, each by its function of the library.
macro_rules! lookups {
    ($($(#[$said:meta])* $name:ident: $looks:ident;)*) => {$(
        $(#[$said])*
        pub fn $name(
            file: &[u8],
            words: &[u32],
            (lat, lon, asked): (f32, f32, bool),
            hits: &mut [u32],
            text: &mut [u8],
        ) -> Result<Reply, Refusal> {
            answered(|reply| library::$looks(file, words, lat, lon, asked, hits, text, reply))
        }
    )*};
}

lookups! {
    /// As `lookup`, through an index that `index_tied` answered for.
    lookup_through: uskelzar_lookup_through;
    /// As `lookup`, through an atlas that `is_atlas` answered for.
    lookup_atlas: uskelzar_lookup_atlas;
    /// `index_tied`, then `lookup_through`.
    lookup_indexed: uskelzar_lookup_indexed;
}

/// Year, month, day, hour, minute, second, weekday (0 is Sunday) of an instant, so many seconds east of UT.
pub fn civil_time(instant: i64, offset: i32) -> Result<[u64; 7], Refusal> {
    let mut reply = [u64::MAX; 7];
    let number = library::uskelzar_civil_time(instant, offset, &mut reply);
    if number == 0 {
        return Ok(reply);
    }
    debug_assert_eq!(reply, [0; 7], "a refusal leaves zeros");
    Err(Refusal::of(number, [0; 5]))
}

/// Local time's first word: it is not known.
pub const NO_SCALE: u64 = 0;
/// It is known, and the instant was read as UNIX time.
pub const UNIX_SCALE: u64 = 1;
/// It is known, and the instant was read on the file's own scale, which counts leap seconds.
pub const OWN_SCALE: u64 = 2;

/// The scale, offset bits, daylight flag, the abbreviation's length, bits of the correction; the abbreviation in the text. All zero where it is unknown.
pub fn local_time(file: &[u8], instant: i64, text: &mut [u8]) -> Result<Reply, Refusal> {
    answered(|reply| library::uskelzar_local_time(file, instant, text, reply))
}

/// The latitude's bits, the longitude's bits, the instant's bits, of a line that is a sentence of a receiver or three words.
pub fn request(request: &[u8]) -> Result<Reply, Refusal> {
    answered(|reply| library::uskelzar_request(request, reply))
}

/// Where the file of a zone begins in a bundle, and its length.
pub fn bundle_find(bundle: &[u8], name: &[u8]) -> Result<Reply, Refusal> {
    answered(|reply| library::uskelzar_bundle_find(bundle, name, reply))
}

/// What a slip writes: the matches, their fields, and its line.
#[derive(Debug)]
#[allow(missing_docs)] // as `lookup` has them
pub struct Paper<'a> {
    pub hits: &'a mut [u32],
    pub text: &'a mut [u8],
    pub out: &'a mut [u8],
}

/// Of a slip, whose refusals have the number of a match as their cause.
fn stamped(call: impl FnOnce(&mut Reply) -> u8) -> Result<Reply, NotStamped> {
    replied(call, 2).map_err(|(number, reply)| NotStamped::of(number, reply))
}

/// The length of the line, the matches, the offset's bits; the line in `out`. The request is read as [`request`] does.
pub fn slip(request: &[u8], map: &[u8], zones: &[u8], paper: Paper) -> Result<Reply, NotStamped> {
    stamped(|reply| library::uskelzar_slip(request, map, zones, paper.hits, paper.text, paper.out, reply))
}

/// The same at a fix and an instant.
pub fn slip_at((lat, lon, instant): (f32, f32, i64), map: &[u8], zones: &[u8], paper: Paper) -> Result<Reply, NotStamped> {
    stamped(|reply| library::uskelzar_slip_at(lat, lon, instant, map, zones, paper.hits, paper.text, paper.out, reply))
}

/// As `slip`, through an atlas of the map that `is_atlas` answered for.
pub fn slip_atlas(request: &[u8], map: &[u8], atlas: &[u32], zones: &[u8], paper: Paper) -> Result<Reply, NotStamped> {
    stamped(|reply| library::uskelzar_slip_atlas(request, map, atlas, zones, paper.hits, paper.text, paper.out, reply))
}

/// As `slip_at`, through an atlas of the map that `is_atlas` answered for.
pub fn slip_at_atlas((lat, lon, instant): (f32, f32, i64), map: &[u8], atlas: &[u32], zones: &[u8], paper: Paper) -> Result<Reply, NotStamped> {
    stamped(|reply| library::uskelzar_slip_at_atlas(lat, lon, instant, map, atlas, zones, paper.hits, paper.text, paper.out, reply))
}
