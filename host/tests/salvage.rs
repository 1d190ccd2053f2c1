//! Salvage: what is kept, why the rest is dropped, and that what is kept answers as before; in every room, with the file and both outputs at a page
//! that may not be touched.
#![cfg(feature = "office")]

mod common;

use common::encode::{signed, string, varint};
use common::fence::{Edge, Fence, EDGES};
use common::files::{header, overlap, Sections, SQUARE, TABLE_CUT};
use common::WORLD;
use uskelzar::raw::{self, Reply};
use uskelzar::{salvage, Dropped, Error, Map, Match, Number, Refusal};

const MOST: usize = 64;
const AMPLE: usize = 512;

/// A reply, with all that was lent.
#[derive(Debug, PartialEq)]
struct Outcome {
    reply: Result<Reply, Refusal>,
    dropped: Vec<u32>,
    out: Vec<u8>,
}

/// What a call takes, between guards.
struct Fenced {
    file: Fence,
    dropped: Fence,
    out: Fence,
}

impl Fenced {
    fn new() -> Fenced {
        let fence = || Fence::new(1 << 14);
        Fenced {
            file: fence(),
            dropped: fence(),
            out: fence(),
        }
    }

    fn ask(&mut self, file: &[u8], words: usize, bytes: usize, edge: Edge) -> Outcome {
        let held = self.file.hold(file, edge);
        let (dropped, out) = (self.dropped.lend(words, edge), self.out.lend(bytes, edge));
        let outcome = Outcome {
            reply: raw::salvage(held, dropped, out),
            dropped: dropped.to_vec(),
            out: out.to_vec(),
        };
        assert_eq!(held, file);
        self.file.assert_kept(file.len(), edge);
        self.dropped.assert_kept(4 * words, edge);
        self.out.assert_kept(bytes, edge);
        outcome
    }
}

fn padded<T: Copy + Default>(front: &[T], length: usize) -> Vec<T> {
    let mut list = front.to_vec();
    list.resize(length, T::default());
    list
}

fn refused(number: Number, words: usize, bytes: usize) -> Outcome {
    let why = Refusal {
        number,
        cause: None,
        detail: 0,
    };
    Outcome {
        reply: Err(why),
        dropped: vec![0; words],
        out: vec![0; bytes],
    }
}

/// An entry with a box of nothing.
fn entry(metadata: i64, data: u64) -> Vec<u8> {
    [signed(0), signed(0), signed(0), signed(0), signed(metadata), varint(data)].concat()
}

/// The sections of the overlapping zones, by their sizes from the file's end.
fn parts(version: u8) -> (Vec<u8>, Sections) {
    let file = overlap(version);
    let names = header(b'T', version, &["TimezoneIdPrefix", "TimezoneId"], "none", [0, 0, 0]).len() - 3;
    let [table, metadata, _] = [names, names + 1, names + 2].map(|place| usize::from(file[place]));
    let (start, end) = (names + 3 + table, names + 3 + table + metadata);
    let sections = Sections {
        table: file[names + 3..start].to_vec(),
        metadata: file[start..end].to_vec(),
        data: file[end..].to_vec(),
    };
    (file, sections)
}

fn joined(version: u8, all: &Sections) -> Vec<u8> {
    let sizes = [all.table.len(), all.metadata.len(), all.data.len()];
    let mut file = header(b'T', version, &["TimezoneIdPrefix", "TimezoneId"], "none", sizes);
    file.extend([&all.table[..], &all.metadata, &all.data].concat());
    file
}

/// The overlapping zones, an entry whose border is behind the file's end, one whose strings stand in the data section, and one whose first number
/// has eleven bytes.
fn damaged(version: u8) -> (Vec<u8>, Vec<u8>) {
    let (whole, mut all) = parts(version);
    let strings = (all.metadata.len() + all.data.len()) as i64;
    all.data.extend([string("far"), string("off")].concat());
    // the last of the three has the second record and the last border
    let (record, border) = (8, all.data.len() as u64);
    all.table.extend(entry(0, 10 * border));
    all.table.extend(entry(strings - record, (1 << 32) - 10 * border));
    all.table.extend([0xFF; 11]);
    (whole, joined(version, &all))
}

/// Its list.
const LINES: [u32; 8] = [3, 71, 4, 72, 5, 12, 6, 73];

#[test]
fn every_room() {
    let mut lent = Fenced::new();
    for version in [0, 1] {
        let (whole, file) = damaged(version);
        for edge in EDGES {
            let rooms = (0..=MOST).chain(whole.len() - 2..=whole.len() + 2);
            for bytes in rooms {
                for words in 0..=MOST {
                    let got = lent.ask(&file, words, bytes, edge);
                    let want = if words < LINES.len() || bytes < whole.len() {
                        refused(Number::FileRoom, words, bytes)
                    } else {
                        Outcome {
                            reply: Ok([whole.len() as u64, 4, 3, 0, 0]),
                            dropped: padded(&LINES, words),
                            out: padded(&whole, bytes),
                        }
                    };
                    assert_eq!(got, want, "{words} words, {bytes} bytes");
                }
            }
        }
    }
}

#[test]
fn reasons_in_words() {
    let said: Vec<String> = salvage(&damaged(1).1).unwrap().dropped.iter().map(Dropped::to_string).collect();
    let words = [
        "entry 3: its border fails",
        "entry 4: a string of it is not wholly in the metadata section",
        "entry 5: eleventh varint byte",
        "entry 6: it and all behind it can't be found",
    ];
    assert_eq!(said, words);
    let cut = salvage(&TABLE_CUT).unwrap_err();
    assert!(matches!(cut, Error::Refused(Refusal { number: Number::NothingLeft, .. })), "{cut}");
}

#[test]
fn refusals_in_their_order() {
    let mut lent = Fenced::new();
    // a name of 256 bytes, which stands in the data section; no entry
    let mut long = vec![b'P', b'L', b'B', b'C', 1, 16, 1];
    long.extend([varint(256 + 14), string(""), varint(0), varint(0), varint(258), varint(256)].concat());
    long.extend([b'a' ^ 0x80; 256]);
    // one entry, whose border is behind the end
    let mut none = header(b'C', 1, &[], "", [6, 0, 0]);
    none.extend(entry(0, 99));
    for edge in EDGES {
        for (words, bytes) in [(0, 0), (AMPLE, AMPLE)] {
            assert_eq!(lent.ask(&long, words, bytes, edge), refused(Number::Text, words, bytes));
            let cut = lent.ask(&SQUARE[..20], words, bytes, edge);
            assert_eq!(cut.reply.unwrap_err().number, Number::LengthMismatch);
        }
        // header, sizes and an empty table have eleven bytes
        for (words, bytes, number) in [(2, 10, Number::FileRoom), (1, 11, Number::FileRoom), (2, 11, Number::NothingLeft)] {
            assert_eq!(lent.ask(&none, words, bytes, edge), refused(number, words, bytes));
        }
    }
}

/// Whatever a byte becomes: what is salvaged opens strictly, and salvaged again is itself, with nothing dropped.
#[test]
fn each_byte_damaged() {
    let (mut answered, mut dropped) = (0, 0);
    for version in [0, 1] {
        let file = overlap(version);
        for place in 7..file.len() {
            for byte in [0, 1, 2, 3, 0x7F, 0x80, 0xFF, file[place] ^ 1, file[place].wrapping_add(1)] {
                let mut file = file.clone();
                file[place] = byte;
                let Ok(salvaged) = salvage(&file) else { continue };
                Map::open_strict(&salvaged.file).expect("it opens strictly");
                let again = salvage(&salvaged.file).expect("it is salvaged again");
                assert_eq!((&again.file, again.kept), (&salvaged.file, salvaged.kept));
                assert_eq!(again.dropped, []);
                answered += 1;
                dropped += usize::from(!salvaged.dropped.is_empty());
            }
        }
    }
    assert!(answered > 500 && dropped > 50, "{answered} answered, {dropped} of them with something dropped");
}

/// The places of entries aside, which move with the header's and the table's lengths.
fn without_places(matches: Vec<Match>) -> Vec<Match> {
    matches.into_iter().map(|found| Match { entry: 0, ..found }).collect()
}

#[test]
fn a_whole_file_answers_as_before() {
    let old = Map::read(WORLD).unwrap();
    let salvaged = old.salvage().unwrap();
    assert_eq!(salvaged.dropped, []);
    let new = Map::open(&salvaged.file[..]).unwrap();
    assert_eq!(new.header(), old.header());
    for step in 0..400 {
        let fix = ((step * 37 % 179) as f32 - 89.3, (step * 83 % 359) as f32 - 179.2);
        let (before, after) = (old.lookup(fix.0, fix.1).unwrap(), new.lookup(fix.0, fix.1).unwrap());
        assert_eq!(without_places(after.matches), without_places(before.matches));
        assert_eq!(after.safezone.to_bits(), before.safezone.to_bits());
    }
}
