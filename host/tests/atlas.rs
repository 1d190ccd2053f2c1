//! The atlas: built in rooms around its need, held against files, and looked up through in every room from 0 to 64 words and 0 to 64 bytes, with file, atlas and all
//! buffers at a page that may not be touched; and on maps, against the plain lookup.
#![cfg(feature = "office")]

mod common;

use common::fence::{Fence, EDGES};
use common::files::{overlap, LAT_STEP, LON_STEP, OUT_OF_ORDER};
use common::{Buffers, Fix, WORLD};
use std::sync::atomic::{AtomicBool, Ordering};
use uskelzar::{raw, Atlas, Builder, End, Error, Index, Map, NotAtlas, Number, Room, Table};

const MOST: usize = 64;

fn fix(asked: bool) -> Fix {
    Fix { lat: 5.1 * LAT_STEP, lon: 5.1 * LON_STEP, asked }
}

fn built(file: &[u8]) -> Vec<u32> {
    Atlas::build(&Map::open(file).unwrap()).unwrap().words().to_vec()
}

#[test]
fn built_in_every_room() {
    let file = overlap(1);
    let atlas = built(&file);
    let mut fence = Fence::new(4 * (atlas.len() + MOST));
    for edge in EDGES {
        for room in (0..=MOST).chain([2051, 2052, atlas.len() - 2, atlas.len() - 1]).chain(atlas.len()..=atlas.len() + MOST) {
            let lent = fence.lend::<u32>(room, edge);
            let reply = raw::build_atlas(&file, lent);
            if room < atlas.len() {
                assert_eq!(reply.unwrap_err().number, Number::IndexRoom);
                assert!(lent.iter().all(|word| *word == 0));
            } else {
                assert_eq!(reply.unwrap(), [atlas.len() as u64, 0, 0, 0, 0]);
                assert_eq!(lent[..atlas.len()], atlas);
                assert!(lent[atlas.len()..].iter().all(|word| *word == 0));
            }
            fence.assert_kept(4 * room, edge);
        }
    }
}

#[test]
fn through_it_in_every_room() {
    for version in [0, 1] {
        let file = overlap(version);
        let atlas = built(&file);
        let (mut held, mut words, mut lent) = (Fence::new(file.len()), Fence::new(4 * atlas.len()), Buffers::new());
        for edge in EDGES {
            let file = held.hold(&file, edge);
            let kept = words.lend::<u32>(atlas.len(), edge);
            kept.copy_from_slice(&atlas);
            let kept: &[u32] = kept;
            assert_eq!(raw::is_atlas(file, kept).unwrap(), [0; 5]);
            for asked in [false, true] {
                for hits in 0..=MOST {
                    for bytes in 0..=MOST {
                        let plain = lent.lookup(file, fix(asked), hits, bytes, edge);
                        assert_eq!(lent.lookup_by(raw::lookup_atlas, (file, kept), fix(asked), hits, bytes, edge), plain);
                        let simple = lent.simple(file, fix(asked), hits, bytes, edge);
                        assert_eq!(lent.simple_atlas((file, kept), fix(asked), hits, bytes, edge), simple);
                        assert_eq!(lent.simple_atlas((file, &[]), fix(asked), hits, bytes, edge), simple);
                    }
                }
            }
        }
    }
}

/// Each word changed, of a file with few points and of one with marks: it is no atlas of the file any more, and whatever a lookup through it answers, nothing outside is touched.
#[test]
fn every_word_changed() {
    let world = std::fs::read(WORLD).unwrap();
    for (file, step) in [(overlap(0), 1), (overlap(1), 1), (world, 17)] {
        let mut atlas = built(&file);
        let mut lent = Buffers::new();
        for at in (0..atlas.len()).step_by(step) {
            for change in [1, u32::MAX, 0x8000_0000] {
                atlas[at] ^= change;
                if step == 1 || at % 289 == 0 {
                    assert_eq!(raw::is_atlas(&file, &atlas).unwrap_err().number, Number::OtherIndex);
                }
                for edge in EDGES {
                    let got = lent.lookup_by(raw::lookup_atlas, (&file, &atlas), fix(false), MOST, 512, edge);
                    got.assert_zero_behind(|reply| reply[3]);
                    assert!(at > 1 || got.number() == Number::OtherIndex as u8);
                }
                atlas[at] ^= change;
            }
        }
        assert_eq!(raw::is_atlas(&file, &atlas).unwrap(), [0; 5]);
    }
}

/// Cut, and with words behind it that are not zero, it is none.
#[test]
fn only_what_was_built() {
    let file = overlap(1);
    let atlas = built(&file);
    let mut words = Fence::new(4 * (atlas.len() + MOST));
    for edge in EDGES {
        for room in (0..=MOST).chain([2051, 2052, atlas.len() - 1]).chain(atlas.len()..=atlas.len() + MOST) {
            let lent = words.lend::<u32>(room, edge);
            let both = room.min(atlas.len());
            lent[..both].copy_from_slice(&atlas[..both]);
            lent[both..].fill(0);
            assert_eq!(raw::is_atlas(&file, lent).is_ok(), room >= atlas.len());
            if room > atlas.len() {
                lent[room - 1] = 1;
                assert_eq!(raw::is_atlas(&file, lent).unwrap_err().number, Number::OtherIndex);
            }
        }
    }
}

#[test]
fn kept_in_a_file() {
    let map = Map::read(WORLD).unwrap();
    let atlas = Atlas::build(&map).unwrap();
    let path = std::env::temp_dir().join(format!("uskelzar-atlas-{}", std::process::id()));
    atlas.write(&path).unwrap();
    let again = Atlas::read(&path, &map).unwrap();
    std::fs::remove_file(&path).unwrap();
    assert_eq!(again, atlas);
    for step in 0..500 {
        let (lat, lon) = (step as f32 * 0.37 % 180.0 - 90.0, step as f32 * 1.71 % 360.0 - 180.0);
        assert_eq!(map.lookup_atlas(&again, lat, lon).unwrap(), map.lookup(lat, lon).unwrap());
    }
}

fn not(bytes: &[u8], map: &Map<Vec<u8>>) -> NotAtlas {
    match (Atlas::of_bytes(bytes, map), Map::open_with(map.bytes(), bytes).err()) {
        (Err(Error::NotAtlas(not)), Some(Error::NotAtlas(again))) if not == again => not,
        (one, other) => panic!("{one:?}, {other:?}"),
    }
}

/// What is no atlas of a map says why, and what to do.
#[test]
fn why_it_is_none() {
    let map = Map::read(WORLD).unwrap();
    let bytes = Atlas::build(&map).unwrap().to_bytes();
    let of = bytes.len() / 4;
    for cut in [1, 2, 3, 4, 4 * 1000, bytes.len() - 1, bytes.len()] {
        assert_eq!(not(&bytes[..bytes.len() - cut], &map), NotAtlas::Cut { words: (bytes.len() - cut) / 4, of });
    }
    let index = Index::build(&map).unwrap().to_bytes();
    assert_eq!(not(&index, &map), NotAtlas::Cut { words: index.len() / 4, of });
    let changed = |word: usize| {
        let mut bytes = bytes.clone();
        bytes[4 * word] ^= 1;
        bytes
    };
    // the file's length, a record, a mark
    assert_eq!([0, 2052 + 3, of - 1].map(|word| not(&changed(word), &map)), [NotAtlas::OtherMap, NotAtlas::OtherWords, NotAtlas::OtherWords]);
    assert_eq!(not(&[&bytes[..], &[0]].concat(), &map), NotAtlas::OtherWords);
    assert_eq!(not(b"no atlas at all, but a text.", &map), NotAtlas::OtherMap);
    assert_eq!(not(&bytes, &Map::open(overlap(1)).unwrap()), NotAtlas::OtherMap);
    for not in [NotAtlas::Cut { words: 7, of }, NotAtlas::OtherMap, NotAtlas::OtherWords] {
        let said = not.to_string();
        assert!(said.starts_with("refusal 36: no atlas of this map: ") && said.ends_with("; build it again with `depot atlas`"), "{said}");
        assert_eq!(Error::from(not).to_string(), said);
    }
    // of this map none can be built
    let unordered = Map::open_with(OUT_OF_ORDER, &bytes).err();
    assert!(matches!(&unordered, Some(Error::Refused(why)) if why.number == Number::IndexTable), "{unordered:?}");
    let mut unordered = Map::open(OUT_OF_ORDER).unwrap();
    assert!(unordered.build_atlas().is_err() && unordered.atlas().is_none());
    assert!(matches!(Map::read_with(WORLD, "/nonexistent"), Err(Error::File(_))));
    assert!(matches!(Map::open_with(vec![1, 2, 3], &bytes), Err(Error::Refused(why)) if why.number == Number::TooShort));
}

/// Held with its map it is kept, and nothing is answered otherwise, with the safezone and without.
#[test]
fn held_with_its_map() {
    let plain = Map::read(WORLD).unwrap();
    let mut built = Map::read(WORLD).unwrap();
    assert_eq!(built.build_atlas().unwrap(), &Atlas::build(&plain).unwrap());
    let path = std::env::temp_dir().join(format!("uskelzar-held-{}", std::process::id()));
    built.atlas().unwrap().write(&path).unwrap();
    let read = Map::read_with(WORLD, &path).unwrap();
    std::fs::remove_file(&path).unwrap();
    assert_eq!((plain.atlas(), read.atlas()), (None, built.atlas()));
    let read = read.with_room(Room { hits: 8, ..Room::default() });
    assert!(read.atlas().is_some());
    for step in 0..500 {
        let (lat, lon) = (step as f32 * 0.37 % 180.0 - 90.0, step as f32 * 1.71 % 360.0 - 180.0);
        for map in [&built, &read] {
            assert_eq!(map.lookup(lat, lon).unwrap(), plain.lookup(lat, lon).unwrap());
            assert_eq!(map.found(lat, lon).unwrap(), plain.found(lat, lon).unwrap());
            assert_eq!(map.simple_lookup(lat, lon).unwrap(), plain.simple_lookup(lat, lon).unwrap());
        }
        assert_eq!(plain.found(lat, lon).unwrap().safezone, 0.0);
    }
}

/// A printer compares length, header and table, and believes the rest: the right words answer as those that were worked out again; a cut atlas, and an index, are refused at the fix.
#[test]
fn believed_by_a_printer() {
    let map = Map::read(WORLD).unwrap();
    let bytes = Atlas::build(&map).unwrap().to_bytes();
    let quick = Map::open_believing(map.bytes(), &bytes).unwrap();
    assert_eq!(quick.atlas(), Map::open_with(map.bytes(), &bytes).unwrap().atlas());
    assert_eq!(quick.lookup(52.52, 13.40).unwrap(), map.lookup(52.52, 13.40).unwrap());
    for words in [&bytes[..bytes.len() - 4], &Index::build(&map).unwrap().to_bytes()] {
        let cut = Map::open_believing(map.bytes(), words).unwrap().found(52.52, 13.40);
        assert!(matches!(&cut, Err(Error::Refused(why)) if why.number == Number::OtherIndex), "{cut:?}");
    }
    let not = |file: &[u8], bytes: &[u8]| match Map::open_believing(file, bytes) {
        Err(Error::NotAtlas(not)) => not,
        _ => panic!("believed"),
    };
    assert_eq!(not(map.bytes(), &bytes[..bytes.len() - 1]), NotAtlas::OtherWords);
    assert_eq!([not(map.bytes(), b"no atlas"), not(&overlap(1), &bytes), not(map.bytes(), &[])], [NotAtlas::OtherMap; 3]);
}

/// Bytes that become others behind the map's back.
struct Swapped {
    before: Vec<u8>,
    after: Vec<u8>,
    is_over: AtomicBool,
}

impl AsRef<[u8]> for &Swapped {
    fn as_ref(&self) -> &[u8] {
        if self.is_over.load(Ordering::Relaxed) { &self.after } else { &self.before }
    }
}

/// A lookup in a map that holds an atlas goes through it: it does not read a stretch of a border whose box does not hold the fix, not even where that stretch has become unreadable.
#[test]
fn what_is_not_read() {
    let ring: Vec<(i32, i32)> = (0..1024).map(|i| f64::from(i) / 512.0 * std::f64::consts::PI).map(|turn| ((2e4 * turn.cos()) as i32 + 1, (2e4 * turn.sin()) as i32 + 1)).collect();
    let before = Builder::new(Table::Countries, 20, &["Name"]).yard(&ring, &["A ring"]).build().unwrap();
    let mut after = before.clone();
    // 16 bytes in the ring's middle: a number without an end
    let middle = before.len() - before.len() / 2;
    after[middle..middle + 16].fill(0xFF);
    let file = Swapped { before, after, is_over: AtomicBool::new(false) };
    let mut map = Map::open(&file).unwrap();
    map.build_atlas().unwrap();
    let zones = map.found(0.0, 0.0).unwrap();
    assert_eq!((zones.matches.len(), zones.end), (1, End::Whole));
    file.is_over.store(true, Ordering::Relaxed);
    assert_eq!(map.found(0.0, 0.0).unwrap(), zones);
    assert_eq!(map.whole_description(0.0, 0.0).unwrap().as_deref(), Some("A ring"));
    assert!(Map::open(&file).unwrap().found(0.0, 0.0).is_err());
}

/// On the map of USKELZAR_MAP, at each city of USKELZAR_CITIES, with the safezone and without.
#[test]
#[ignore = "needs a map; host/run gives one"]
fn every_city_as_by_the_plain_lookup() {
    let file = std::fs::read(std::env::var("USKELZAR_MAP").unwrap()).unwrap();
    let atlas = built(&file);
    let cities = std::fs::read_to_string(std::env::var("USKELZAR_CITIES").unwrap()).unwrap();
    let mut lent = Buffers::new();
    let mut count = 0;
    for line in cities.lines() {
        let mut words = line.split_whitespace();
        let lat: f32 = words.next().unwrap().parse().unwrap();
        let lon: f32 = words.next().unwrap().parse().unwrap();
        let asked = count % 2 == 0;
        let fix = || Fix { lat, lon, asked };
        assert_eq!(lent.lookup_by(raw::lookup_atlas, (&file, &atlas), fix(), MOST, 512, EDGES[0]), lent.lookup(&file, fix(), MOST, 512, EDGES[0]), "{line}");
        count += 1;
    }
    println!("{count} cities, {} words of atlas", atlas.len());
}
