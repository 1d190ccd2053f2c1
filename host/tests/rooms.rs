//! Every room from 0 to 64 words of hits and 0 to 64 bytes of text, with the file and all buffers at a page that may not be
//! touched: refused exactly where the answer does not fit, and zero wherever there is no answer.

mod common;

use common::fence::{Edge, Fence, EDGES};
use common::files::{overlap, LAT_STEP, LON_STEP};
use common::{Buffers, Fix, Outcome, WORLD};
use uskelzar::raw::HIT_WORDS;

const MOST: usize = 64;
const AMPLE: usize = 512;

/// What a call needs: hits while it searches, and bytes of text.
struct Needs {
    hits: usize,
    bytes: usize,
}

/// What a room must give: 17 while hits are wanting, then 18, and else the ample answer.
fn assert_fits(got: &Outcome, ample: &Outcome, needs: &Needs) {
    let (words, bytes) = (got.hits.len(), got.text.len());
    let want = match () {
        _ if words / HIT_WORDS < needs.hits => 17,
        _ if bytes < needs.bytes => 18,
        _ => 0,
    };
    assert_eq!(got.number(), want, "{words} words, {bytes} bytes");
    if want == 0 {
        let front = HIT_WORDS * ample.reply.unwrap()[0] as usize;
        assert_eq!(got.reply, ample.reply);
        assert_eq!(got.hits[..front], ample.hits[..front]);
        assert_eq!(got.text[..needs.bytes], ample.text[..needs.bytes]);
    }
}

/// Both lookups, in each room at an edge.
fn try_rooms(file: &[u8], fix: Fix, full: &Needs, simple: &Needs, edge: Edge) {
    let mut lent = Buffers::new();
    let ample = lent.lookup(file, fix, AMPLE, AMPLE, edge);
    let described = lent.simple(file, fix, AMPLE, AMPLE, edge);
    for words in 0..=MOST {
        for bytes in 0..=MOST {
            let got = lent.lookup(file, fix, words, bytes, edge);
            assert_fits(&got, &ample, full);
            got.assert_zero_behind(|reply| reply[3]);
            let got = lent.simple(file, fix, words, bytes, edge);
            assert_fits(&got, &described, simple);
            got.assert_zero_behind(|reply| reply[3]);
        }
    }
}

fn try_lookups(file: &[u8], fix: Fix, full: Needs, simple: Needs) {
    let mut fence = Fence::new(file.len());
    for edge in EDGES {
        let held = fence.hold(file, edge);
        try_rooms(held, fix, &full, &simple, edge);
        assert_eq!(held, file);
        fence.assert_kept(file.len(), edge);
    }
}

#[test]
fn lookups_in_every_room() {
    // three hits, two matches: four fields of three bytes, each behind three more; Up/One
    for asked in [false, true] {
        for version in [0, 1] {
            let fix = Fix {
                lat: 5.1 * LAT_STEP,
                lon: 5.1 * LON_STEP,
                asked,
            };
            let (full, simple) = (Needs { hits: 3, bytes: 24 }, Needs { hits: 3, bytes: 6 });
            try_lookups(&overlap(version), fix, full, simple);
        }
    }
}

#[test]
fn berlin_in_every_room() {
    // one hit: Europe/ Berlin DE Germany
    let berlin = Fix {
        lat: 52.52,
        lon: 13.40,
        asked: true,
    };
    let (full, simple) = (Needs { hits: 1, bytes: 34 }, Needs { hits: 1, bytes: 13 });
    try_lookups(&std::fs::read(WORLD).unwrap(), berlin, full, simple);
}

#[test]
fn no_match_needs_no_room() {
    let sea = Fix {
        lat: 0.0,
        lon: -30.0,
        asked: true,
    };
    let (full, simple) = (Needs { hits: 0, bytes: 0 }, Needs { hits: 0, bytes: 0 });
    try_lookups(&std::fs::read(WORLD).unwrap(), sea, full, simple);
}

#[test]
fn open_in_every_room() {
    // TimezoneIdPrefix TimezoneId none, each behind two bytes
    let (file, needed) = (overlap(1), 16 + 10 + 4 + 6);
    let (mut fence, mut lent) = (Fence::new(file.len()), Buffers::new());
    for edge in EDGES {
        let held = fence.hold(&file, edge);
        for bytes in 0..=MOST {
            let got = lent.open(held, bytes, edge);
            assert_eq!(got.number(), if bytes < needed { 18 } else { 0 });
            let used = got.reply.map_or(0, |_| needed);
            assert!(got.text[used..].iter().all(|byte| *byte == 0));
            if let Ok(reply) = got.reply {
                assert_eq!(reply, [u64::from(b'T'), 1, 16, 2, needed as u64]);
                assert_eq!(
                    &got.text[..used],
                    b"\0\x10TimezoneIdPrefix\0\x0ATimezoneId\0\x04none"
                );
            }
        }
    }
}
