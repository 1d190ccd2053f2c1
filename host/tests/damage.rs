//! Files that are cut or damaged, at a page that may not be touched.

mod common;

use common::fence::{Edge, Fence, EDGES};
use common::files::{
    header, overlap, LAT_STEP, LON_STEP, SQUARE, SQUARE_DATA, SQUARE_LAT, SQUARE_LON, SQUARE_TABLE,
    SQUARE_THIRD_SIZE,
};
use common::{Buffers, Fix, Outcome};
use std::collections::BTreeSet;

const ROOM: usize = 64;

fn square_fix() -> Fix {
    Fix {
        lat: f32::from_bits(SQUARE_LAT),
        lon: f32::from_bits(SQUARE_LON),
        asked: true,
    }
}

/// All three calls on a file held at an edge, each with zeros behind its answer.
fn ask(lent: &mut Buffers, fence: &mut Fence, file: &[u8], fix: Fix, edge: Edge) -> [Outcome; 3] {
    let held = fence.hold(file, edge);
    let opened = lent.open(held, ROOM, edge);
    let looked = lent.lookup(held, fix, ROOM, ROOM, edge);
    let simple = lent.simple(held, fix, ROOM, ROOM, edge);
    let used = opened.reply.map_or(0, |reply| reply[4] as usize);
    assert!(opened.text[used..].iter().all(|byte| *byte == 0));
    looked.assert_zero_behind(|reply| reply[3]);
    simple.assert_zero_behind(|reply| reply[3]);
    [opened, looked, simple]
}

/// Number, cause and detail of a refusal; zeros for an answer.
fn told(outcome: &Outcome) -> (u8, u8, u64) {
    outcome.reply.map_or_else(
        |refusal| {
            (
                refusal.number as u8,
                refusal.cause.map_or(0, |cause| cause as u8 + 1),
                refusal.detail,
            )
        },
        |_| (0, 0, 0),
    )
}

/// What document 01 has for its own example, cut to a length.
fn wanted_of_cut(length: usize) -> (u8, u8, u64) {
    match length {
        0..=6 => (2, 0, length as u64),
        7 => (6, 1, 0),
        8..=11 => (14, 0, 0),
        12 => (7, 1, 0),
        13 => (8, 0, 0),
        14 => (9, 0, 0),
        15 => (10, 0, 0),
        16..=32 => (11, 0, 33),
        _ => (0, 0, 0),
    }
}

#[test]
fn a_file_cut_at_every_length() {
    let (mut lent, mut fence) = (Buffers::new(), Fence::new(SQUARE.len()));
    for edge in EDGES {
        for length in 0..=SQUARE.len() {
            for outcome in ask(&mut lent, &mut fence, &SQUARE[..length], square_fix(), edge) {
                assert_eq!(told(&outcome), wanted_of_cut(length), "cut to {length}");
            }
        }
    }
}

#[test]
fn a_larger_file_cut_at_every_length_is_refused() {
    let file = overlap(1);
    let fix = Fix {
        lat: 5.1 * LAT_STEP,
        lon: 5.1 * LON_STEP,
        asked: true,
    };
    let (mut lent, mut fence) = (Buffers::new(), Fence::new(file.len()));
    for edge in EDGES {
        for length in 0..file.len() {
            let numbers = ask(&mut lent, &mut fence, &file[..length], fix, edge)
                .map(|outcome| told(&outcome));
            assert!(
                numbers[0].0 != 0 && numbers == [numbers[0]; 3],
                "cut to {length}: {numbers:?}"
            );
        }
        let whole = ask(&mut lent, &mut fence, &file, fix, edge).map(|outcome| outcome.number());
        assert_eq!(whole, [0; 3]);
    }
}

#[test]
fn a_border_cut_under_a_header_that_fits_ends_the_search_with_mark_3() {
    let (mut lent, mut fence) = (Buffers::new(), Fence::new(SQUARE.len()));
    for edge in EDGES {
        for kept in 0..=9 {
            let mut file = SQUARE[..SQUARE_DATA + kept].to_vec();
            file[SQUARE_THIRD_SIZE] = kept as u8;
            let [_, looked, simple] = ask(&mut lent, &mut fence, &file, square_fix(), edge);
            let want = if kept == 9 { [1, 1] } else { [0, 3] };
            assert_eq!(
                looked.reply.unwrap()[..2],
                want,
                "{kept} bytes of the border"
            );
            assert_eq!(
                simple.reply.unwrap()[..2],
                want,
                "{kept} bytes of the border"
            );
        }
    }
}

#[test]
fn a_table_entry_cut_by_the_end_of_the_file_ends_the_search_with_mark_2() {
    let (mut lent, mut fence) = (Buffers::new(), Fence::new(SQUARE.len()));
    let entry = &SQUARE[SQUARE_TABLE..SQUARE_TABLE + 6];
    for edge in EDGES {
        for kept in 0..=6 {
            let mut file = header(b'C', 1, &[], "", [kept, 0, 0]);
            file.extend(&entry[..kept]);
            let [_, looked, simple] = ask(&mut lent, &mut fence, &file, square_fix(), edge);
            // nothing to read; an entry cut; an entry that is whole, but has no border
            let mark = [1, 2, 2, 2, 2, 2, 3][kept];
            assert_eq!(
                looked.reply.unwrap()[..2],
                [0, mark],
                "{kept} bytes of the entry"
            );
            assert_eq!(
                simple.reply.unwrap(),
                [0, mark, 0, 0, 0],
                "{kept} bytes of the entry"
            );
        }
    }
}

#[test]
fn every_byte_changed_to_every_value() {
    let fix = Fix {
        lat: 5.1 * LAT_STEP,
        lon: 5.1 * LON_STEP,
        asked: true,
    };
    let (mut lent, mut fence) = (Buffers::new(), Fence::new(ROOM * 4));
    let mut met = BTreeSet::new();
    for version in [0, 1] {
        let mut file = overlap(version);
        for place in 0..file.len() {
            let kept = file[place];
            for value in 0..=255 {
                file[place] = value;
                let [_, looked, simple] = ask(&mut lent, &mut fence, &file, fix, Edge::Back);
                met.insert(
                    looked
                        .reply
                        .map_or_else(|refusal| (refusal.number as u8, 0), |reply| (0, reply[1])),
                );
                if let (Ok(full), Ok(short)) = (looked.reply, simple.reply) {
                    assert_eq!((looked.hits, &full[..2]), (simple.hits, &short[..2]));
                }
            }
            file[place] = kept;
        }
    }
    // refusals of opening, of the search and of fields, and two end marks were among them
    let refusals = [3, 4, 5, 6, 7, 11, 12, 14, 15, 16].map(|number| (number, 0));
    for case in refusals.into_iter().chain([(0, 1), (0, 3)]) {
        assert!(met.contains(&case), "{case:?} was not met: {met:?}");
    }
}
