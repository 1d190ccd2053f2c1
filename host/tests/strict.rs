//! Strict opening and lookup: refused 31, or as the plain ones; in every room from 0 to 64 words and 0 to 64 bytes, and of files whose last byte is changed, with
//! the file and all buffers at a page that may not be touched.

mod common;

use common::fence::{Fence, EDGES};
use common::files::{overlap, LAT_STEP, LON_STEP, SQUARE, SQUARE_LAT, SQUARE_LON};
use common::{Buffers, Fix};
use uskelzar::{End, Error, Map, Number};

const MOST: usize = 64;
const AMPLE: usize = 512;

fn in_the_square() -> Fix {
    Fix {
        lat: f32::from_bits(SQUARE_LAT),
        lon: f32::from_bits(SQUARE_LON),
        asked: true,
    }
}

#[test]
fn a_whole_file_in_every_room() {
    // no number of it is cut, so strict and plain are the same
    let fix = Fix {
        lat: 5.1 * LAT_STEP,
        lon: 5.1 * LON_STEP,
        asked: true,
    };
    for version in [0, 1] {
        let file = overlap(version);
        let (mut fence, mut lent) = (Fence::new(file.len()), Buffers::new());
        for edge in EDGES {
            let held = fence.hold(&file, edge);
            for bytes in 0..=MOST {
                assert_eq!(lent.open_strict(held, bytes, edge), lent.open(held, bytes, edge));
                for words in 0..=MOST {
                    let strict = lent.lookup_strict(held, fix, words, bytes, edge);
                    assert_eq!(strict, lent.lookup(held, fix, words, bytes, edge));
                }
            }
            fence.assert_kept(file.len(), edge);
        }
    }
}

#[test]
fn every_last_byte() {
    // with its high bit set the last byte cuts the border's closing mark, and a strict lookup that reads so far is refused
    let fix = in_the_square();
    let (mut fence, mut lent) = (Fence::new(SQUARE.len()), Buffers::new());
    let mut cut = 0;
    for edge in EDGES {
        for last in 0..=255 {
            let mut file = SQUARE;
            file[SQUARE.len() - 1] = last;
            let held = fence.hold(&file, edge);
            assert_eq!(lent.open_strict(held, AMPLE, edge), lent.open(held, AMPLE, edge));
            let strict = lent.lookup_strict(held, fix, AMPLE, AMPLE, edge);
            strict.assert_zero_behind(|reply| reply[3]);
            if strict.number() == Number::Incomplete as u8 {
                assert!(128 <= last);
                cut += 1;
            } else {
                assert!(last < 128);
                assert_eq!(strict, lent.lookup(held, fix, AMPLE, AMPLE, edge));
            }
        }
    }
    assert_eq!(cut, 2 * 128);
}

#[test]
fn a_file_of_every_length() {
    // opening a file that is cut: refused 31, or as the plain opening
    let (mut fence, mut lent) = (Fence::new(SQUARE.len()), Buffers::new());
    for edge in EDGES {
        for length in 0..=SQUARE.len() {
            let held = fence.hold(&SQUARE[..length], edge);
            let strict = lent.open_strict(held, AMPLE, edge);
            if strict.number() == Number::Incomplete as u8 {
                assert!(strict.text.iter().all(|byte| *byte == 0));
            } else {
                assert_eq!(strict, lent.open(held, AMPLE, edge));
            }
        }
    }
}

#[test]
fn where_plain_says_7_strict_says_31() {
    let file = [0x50, 0x4C, 0x42, 0x43, 0x01, 0x10, 0x01, 0x80];
    let number = |map: Result<Map<[u8; 8]>, Error>| match map {
        Err(Error::Refused(refusal)) => refusal.number,
        _ => panic!("not refused"),
    };
    assert_eq!(number(Map::open(file)), Number::Notice);
    assert_eq!(number(Map::open_strict(file)), Number::Incomplete);
}

#[test]
fn a_strict_lookup_in_a_map() {
    let fix = in_the_square();
    let map = Map::open_strict(SQUARE).unwrap();
    let zones = map.lookup_strict(fix.lat, fix.lon).unwrap();
    assert_eq!(zones, map.lookup(fix.lat, fix.lon).unwrap());
    assert_eq!(zones.end, End::Whole);
    let mut file = SQUARE;
    file[SQUARE.len() - 1] = 0x80;
    let map = Map::open_strict(file).unwrap();
    assert_eq!(map.lookup(fix.lat, fix.lon).unwrap().end, End::Whole);
    match map.lookup_strict(fix.lat, fix.lon) {
        Err(Error::Refused(refusal)) => assert_eq!(refusal.number, Number::Incomplete),
        other => panic!("{other:?}"),
    }
}
