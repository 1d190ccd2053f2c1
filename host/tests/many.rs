//! Many fixes: the reply and all three lists are those of lookups one by one, each in the room that the earlier ones left; in every room from 0 to 64,
//! with the file, the fixes and all lists at a page that may not be touched.
#![cfg(feature = "office")]

mod common;

use common::fence::{Edge, Fence, EDGES};
use common::files::{overlap, LAT_STEP, LON_STEP, SQUARE, SQUARE_LAT, SQUARE_LON, TABLE_CUT, TABLE_CUT_LAT, TABLE_CUT_LON};
use common::{AtlasOf, WORLD};
use uskelzar::raw::{self, Reply, ANSWER_WORDS, HIT_WORDS, MOST_FIXES};
use uskelzar::{Map, Number, Refusal, Room, Stop};

const MOST: usize = 64;

/// Berlin, the sea, two zones' border in America, and no number.
const FIXES: [(f32, f32); 4] = [(52.52, 13.40), (0.0, -30.0), (41.88, -87.63), (f32::NAN, f32::INFINITY)];

/// In and out of the overlapping zones.
fn overlapping() -> [(f32, f32); 4] {
    let at = |lat: f32, lon: f32| (lat * LAT_STEP, lon * LON_STEP);
    [at(5.1, 5.1), at(500.0, 500.0), at(15.1, 15.1), at(1.5, 1.5)]
}

/// How many of each are lent.
#[derive(Clone, Copy, Debug)]
struct Lent {
    words: usize,
    bytes: usize,
    third: usize,
}

/// A reply, with all that was lent.
#[derive(Debug, PartialEq)]
struct Outcome {
    reply: Result<Reply, Stop>,
    hits: Vec<u32>,
    text: Vec<u8>,
    answers: Vec<u32>,
}

fn refused(lent: Lent, index: usize, why: Refusal) -> Outcome {
    Outcome {
        reply: Err(Stop { index, why }),
        hits: vec![0; lent.words],
        text: vec![0; lent.bytes],
        answers: vec![0; lent.third],
    }
}

/// One by one: lookups that open the file each time, in what the earlier ones left.
fn one_by_one(file: &[u8], fixes: &[(f32, f32)], asked: bool, lent: Lent) -> Outcome {
    let (mut hits, mut text, mut answers) = (vec![0; lent.words], vec![0; lent.bytes], vec![0; lent.third]);
    let (mut matches, mut used) = (0, 0);
    for (index, &(lat, lon)) in fixes.iter().enumerate() {
        match raw::lookup(file, lat, lon, asked, &mut hits[HIT_WORDS * matches..], &mut text[used..]) {
            Ok([count, mark, safezone, bytes, _]) => {
                let said = [count as u32, mark as u32, safezone as u32];
                answers[ANSWER_WORDS * index..][..ANSWER_WORDS].copy_from_slice(&said);
                (matches, used) = (matches + count as usize, used + bytes as usize);
            }
            Err(why) => return refused(lent, index, why),
        }
    }
    Outcome {
        reply: Ok([fixes.len() as u64, matches as u64, used as u64, 0, 0]),
        hits,
        text,
        answers,
    }
}

/// The lists of a call, between guards.
struct Fenced {
    lats: Fence,
    lons: Fence,
    hits: Fence,
    text: Fence,
    answers: Fence,
    words: Fence,
    atlas: AtlasOf,
}

impl Fenced {
    fn new() -> Fenced {
        let fence = || Fence::new(1 << 18);
        Fenced {
            lats: fence(),
            lons: fence(),
            hits: fence(),
            text: fence(),
            answers: fence(),
            words: fence(),
            atlas: AtlasOf::default(),
        }
    }

    /// Through no atlas, through the file's own, where it has one, and plainly, which is the same.
    fn ask(&mut self, file: &[u8], lats: &[f32], lons: &[f32], asked: bool, lent: Lent, edge: Edge) -> Outcome {
        let plain = self.ask_by(file, None, (lats, lons, asked), lent, edge);
        for words in [vec![], self.atlas.of(file)] {
            assert_eq!(self.ask_by(file, Some(&words), (lats, lons, asked), lent, edge), plain);
        }
        plain
    }

    fn ask_by(&mut self, file: &[u8], atlas: Option<&[u32]>, (lats, lons, asked): (&[f32], &[f32], bool), lent: Lent, edge: Edge) -> Outcome {
        let (lats, lons) = (self.lats.hold(lats, edge), self.lons.hold(lons, edge));
        let (hits, text) = (self.hits.lend(lent.words, edge), self.text.lend(lent.bytes, edge));
        let answers = self.answers.lend(lent.third, edge);
        let outcome = Outcome {
            reply: match atlas {
                None => raw::lookup_many(file, lats, lons, asked, hits, text, answers),
                Some(words) => raw::many_atlas((file, self.words.hold(words, edge)), lats, lons, asked, hits, text, answers),
            },
            hits: hits.to_vec(),
            text: text.to_vec(),
            answers: answers.to_vec(),
        };
        self.hits.assert_kept(4 * lent.words, edge);
        self.text.assert_kept(lent.bytes, edge);
        self.answers.assert_kept(4 * lent.third, edge);
        outcome
    }

    fn ask_fixes(&mut self, file: &[u8], fixes: &[(f32, f32)], asked: bool, lent: Lent, edge: Edge) -> Outcome {
        let (lats, lons): (Vec<f32>, Vec<f32>) = fixes.iter().copied().unzip();
        self.ask(file, &lats, &lons, asked, lent, edge)
    }
}

fn plain(number: Number) -> Refusal {
    Refusal {
        number,
        cause: None,
        detail: 0,
    }
}

/// At both edges and in each room, as one by one; how many calls were answered.
fn try_rooms(file: &[u8], fixes: &[(f32, f32)], asked: bool) -> usize {
    let (mut fence, mut lists, mut answered) = (Fence::new(file.len()), Fenced::new(), 0);
    for edge in EDGES {
        let held = fence.hold(file, edge);
        for words in 0..=MOST {
            for bytes in 0..=MOST {
                let lent = Lent { words, bytes, third: ANSWER_WORDS * fixes.len() + words % 3 };
                let got = lists.ask_fixes(held, fixes, asked, lent, edge);
                assert_eq!(got, one_by_one(file, fixes, asked, lent), "{lent:?}");
                answered += usize::from(got.reply.is_ok());
            }
        }
        assert_eq!(held, file);
        fence.assert_kept(file.len(), edge);
    }
    answered
}

#[test]
fn every_room() {
    // three hits at the first fix, of which two matches stay; one match at each of the two last. 48 bytes of text
    for version in [0, 1] {
        for asked in [false, true] {
            assert_eq!(try_rooms(&overlap(version), &overlapping(), asked), 2 * (65 - 16) * (65 - 48));
        }
    }
}

#[test]
fn every_room_under_mark_two() {
    let fix = (f32::from_bits(TABLE_CUT_LAT), f32::from_bits(TABLE_CUT_LON));
    assert!(0 < try_rooms(&TABLE_CUT, &[fix, (0.0, 0.0), fix], true));
}

#[test]
fn every_length_of_the_third_list() {
    let (file, fixes, mut lists) = (overlap(1), overlapping(), Fenced::new());
    for edge in EDGES {
        for third in 0..=MOST {
            let lent = Lent { words: 64, bytes: 64, third };
            let got = lists.ask_fixes(&file, &fixes, true, lent, edge);
            if third < ANSWER_WORDS * fixes.len() {
                assert_eq!(got, refused(lent, 0, plain(Number::Fixes)));
            } else {
                assert_eq!(got, one_by_one(&file, &fixes, true, lent));
            }
        }
    }
}

#[test]
fn lists_of_unequal_length() {
    // before everything else: the file is none
    let (lent, mut lists) = (Lent { words: 64, bytes: 64, third: 64 }, Fenced::new());
    for lats in 0..8 {
        for lons in 0..8 {
            let got = lists.ask(b"none", &vec![0.5; lats], &vec![0.5; lons], false, lent, Edge::Back);
            let why = if lats == lons { Refusal { detail: 4, ..plain(Number::TooShort) } } else { plain(Number::Fixes) };
            assert_eq!(got, refused(lent, 0, why));
        }
    }
}

#[test]
fn no_fix() {
    // answered with zeros once the file opens, whatever its precision
    let (lent, mut lists) = (Lent { words: 5, bytes: 5, third: 5 }, Fenced::new());
    let mut file = SQUARE;
    for precision in [0, 16, 33] {
        file[5] = precision;
        let got = lists.ask(&file, &[], &[], true, lent, Edge::Back);
        assert_eq!(got, Outcome { reply: Ok([0; 5]), ..refused(lent, 0, plain(Number::Fixes)) });
    }
    assert_eq!(Map::open(file).unwrap().lookup_many(&[]).unwrap().count(), 0);
    let Err(stop) = Map::open(file).unwrap().lookup_many(&[(0.0, 0.0)]).map(|_| ()) else { panic!("precision 33 is answered") };
    assert_eq!(stop, Stop { index: 0, why: plain(Number::Precision) });
}

#[test]
fn the_most_fixes_and_one_more() {
    let (file, mut lists) = (SQUARE, Fenced::new());
    let fix = (f32::from_bits(SQUARE_LAT), f32::from_bits(SQUARE_LON));
    // a match has four words and four bytes of text
    let lent = Lent { words: HIT_WORDS * MOST_FIXES, bytes: 4 * MOST_FIXES, third: ANSWER_WORDS * (MOST_FIXES + 1) };
    for edge in EDGES {
        let got = lists.ask_fixes(&file, &[fix; MOST_FIXES], true, lent, edge);
        assert_eq!(got.reply, Ok([4096, 4096, 4 * 4096, 0, 0]));
        assert_eq!(got, one_by_one(&file, &[fix; MOST_FIXES], true, lent));
        let got = lists.ask_fixes(&file, &[fix; MOST_FIXES + 1], true, lent, edge);
        assert_eq!(got, refused(lent, 0, plain(Number::Fixes)));
        // room for all but the last
        let scant = Lent { bytes: lent.bytes - 1, ..lent };
        let got = lists.ask_fixes(&file, &[fix; MOST_FIXES], true, scant, edge);
        assert_eq!(got, refused(scant, MOST_FIXES - 1, plain(Number::TextRoom)));
    }
    let map = Map::open(file).unwrap();
    let alone = map.lookup(fix.0, fix.1).unwrap();
    let mut count = 0;
    for zones in map.lookup_many(&[fix; MOST_FIXES]).unwrap() {
        assert_eq!(zones.unwrap(), alone);
        count += 1;
    }
    assert_eq!(count, MOST_FIXES);
    assert_eq!(map.lookup_many(&[fix; MOST_FIXES + 1]).err().unwrap().why.number, Number::Fixes);
}

#[test]
fn a_map_answers_as_fix_by_fix() {
    let map = Map::read(WORLD).unwrap();
    let grid = |step: i16| (0..step).map(move |i| f32::from(i) / f32::from(step));
    let spread = grid(40).flat_map(|y| grid(50).map(move |x| (180.0 * y - 90.0, 360.0 * x - 180.0)));
    let fixes: Vec<(f32, f32)> = FIXES.into_iter().chain(spread).collect();
    let mut answers = map.lookup_many(&fixes).unwrap();
    for (lat, lon) in &fixes {
        let (many, alone) = (answers.next().unwrap().unwrap(), map.lookup(*lat, *lon).unwrap());
        assert_eq!((&many.matches, many.end), (&alone.matches, alone.end));
        assert_eq!(many.safezone.to_bits(), alone.safezone.to_bits());
    }
    assert!(answers.next().is_none());
}

#[test]
fn room_that_is_enough_for_one_is_enough_for_all() {
    let berlin = (52.52, 13.40);
    let map = Map::read(WORLD).unwrap().with_room(Room { hits: 1, text: 34, ..Room::default() });
    assert_eq!(map.lookup_many(&[berlin; 1000]).unwrap().filter(|zones| zones.is_ok()).count(), 1000);
    let map = map.with_room(Room { hits: 1, text: 33, ..Room::default() });
    assert_eq!(map.lookup_many(&[berlin; 2]).err().unwrap(), Stop { index: 1, why: plain(Number::TextRoom) });
    let map = map.with_room(Room { hits: 0, text: 34, ..Room::default() });
    let sea = (0.0, -30.0);
    assert_eq!(map.lookup_many(&[sea, sea, berlin]).err().unwrap(), Stop { index: 2, why: plain(Number::TooManyHits) });
}
