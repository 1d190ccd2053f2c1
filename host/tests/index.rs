//! The tile index: built in every room near its need, held against files, and looked up through in every room from 0 to 64 words and 0 to 64 bytes, with file,
//! index and all buffers at a page that may not be touched; and on maps, against the plain lookup.
#![cfg(feature = "office")]

mod common;

use common::fence::{Fence, EDGES};
use common::files::{overlap, LAT_STEP, LON_STEP};
use common::{Buffers, Fix, WORLD};
use uskelzar::{raw, Error, Index, Map, Number};

const MOST: usize = 64;

fn fix() -> Fix {
    Fix {
        lat: 5.1 * LAT_STEP,
        lon: 5.1 * LON_STEP,
        asked: true,
    }
}

fn built(file: &[u8]) -> Vec<u32> {
    Index::build(&Map::open(file).unwrap()).unwrap().words().to_vec()
}

#[test]
fn built_in_every_room() {
    let file = overlap(1);
    let index = built(&file);
    let mut fence = Fence::new(4 * (index.len() + MOST));
    for edge in EDGES {
        for room in [0, 1, 2051, 2052, index.len() - 1, index.len(), index.len() + 1, index.len() + MOST] {
            let lent = fence.lend::<u32>(room, edge);
            let reply = raw::build_index(&file, lent);
            if room < index.len() {
                assert_eq!(reply.unwrap_err().number, Number::IndexRoom);
                assert!(lent.iter().all(|word| *word == 0));
            } else {
                assert_eq!(reply.unwrap(), [index.len() as u64, 0, 0, 0, 0]);
                assert_eq!(lent[..index.len()], index);
                assert!(lent[index.len()..].iter().all(|word| *word == 0));
            }
            fence.assert_kept(4 * room, edge);
        }
    }
}

#[test]
fn through_it_in_every_room() {
    for version in [0, 1] {
        let file = overlap(version);
        let index = built(&file);
        let (mut held, mut words, mut lent) = (Fence::new(file.len()), Fence::new(4 * index.len()), Buffers::new());
        for edge in EDGES {
            let file = held.hold(&file, edge);
            let kept = words.lend::<u32>(index.len(), edge);
            kept.copy_from_slice(&index);
            let kept: &[u32] = kept;
            assert_eq!(raw::index_tied(file, kept).unwrap(), [0; 5]);
            for hits in 0..=MOST {
                for bytes in 0..=MOST {
                    let plain = lent.lookup(file, fix(), hits, bytes, edge);
                    assert_eq!(lent.lookup_by(raw::lookup_indexed, (file, kept), fix(), hits, bytes, edge), plain);
                    assert_eq!(lent.lookup_by(raw::lookup_through, (file, kept), fix(), hits, bytes, edge), plain);
                }
            }
        }
    }
}

/// Each word changed: it is no index of the file any more, and whatever a lookup through it answers, nothing outside is touched. The tie, which believes records,
/// starts and lists, refuses only a changed length, metadata start or count, kept bytes, and where the lists begin.
#[test]
fn every_word_changed() {
    let file = overlap(1);
    let mut index = built(&file);
    let mut lent = Buffers::new();
    for at in 0..index.len() {
        for change in [1, u32::MAX, 0x8000_0000] {
            index[at] ^= change;
            assert_eq!(raw::is_index(&file, &index).unwrap_err().number, Number::OtherIndex);
            for edge in EDGES {
                let got = lent.lookup_by(raw::lookup_indexed, (&file, &index), fix(), MOST, 512, edge);
                got.assert_zero_behind(|reply| reply[3]);
                let through = lent.lookup_by(raw::lookup_through, (&file, &index), fix(), MOST, 512, edge);
                through.assert_zero_behind(|reply| reply[3]);
                assert!(at > 1 || got.number() == Number::OtherIndex as u8);
            }
            index[at] ^= change;
        }
    }
}

/// The words at a page that may not be touched, as many as building leaves them in: with zeros behind them they are the index, cut or with anything else they are not.
#[test]
fn only_what_was_built() {
    for version in [0, 1] {
        let file = overlap(version);
        let index = built(&file);
        let (mut held, mut words) = (Fence::new(file.len()), Fence::new(4 * (index.len() + MOST)));
        for edge in EDGES {
            let file = held.hold(&file, edge);
            for room in (0..=MOST).chain([2051, 2052, index.len() - 1]).chain(index.len()..=index.len() + MOST) {
                let lent = words.lend::<u32>(room, edge);
                let both = room.min(index.len());
                lent[..both].copy_from_slice(&index[..both]);
                lent[both..].fill(0);
                let said = raw::is_index(file, lent);
                if room < index.len() {
                    assert_eq!(said.unwrap_err().number, Number::OtherIndex);
                } else {
                    assert_eq!(said.unwrap(), [0; 5]);
                }
                if room > index.len() {
                    lent[room - 1] = 1;
                    assert_eq!(raw::is_index(file, lent).unwrap_err().number, Number::OtherIndex);
                }
            }
        }
    }
}

/// A record, a start and a list that no comparison of header and table looks at: tied, and no index.
#[test]
fn tied_and_no_index() {
    let file = overlap(1);
    let index = built(&file);
    for at in [4, 2052 + 5, index.len() - 1] {
        let mut other = index.clone();
        other[at] ^= 1;
        assert_eq!(raw::index_tied(&file, &other).unwrap(), [0; 5]);
        assert_eq!(raw::is_index(&file, &other).unwrap_err().number, Number::OtherIndex);
    }
}

#[test]
fn another_file_is_refused() {
    let (one, other) = (overlap(0), overlap(1));
    let index = Index::of_words(built(&one));
    let map = Map::open(other.as_slice()).unwrap();
    assert!(!index.is_tied(&map));
    match map.lookup_indexed(&index, 1.0, 1.0) {
        Err(Error::Refused(refusal)) => assert_eq!(refusal.number, Number::OtherIndex),
        other => panic!("{other:?}"),
    }
}

#[test]
fn kept_in_a_file() {
    let map = Map::read(WORLD).unwrap();
    let index = Index::build(&map).unwrap();
    let path = std::env::temp_dir().join(format!("uskelzar-index-{}", std::process::id()));
    index.write(&path).unwrap();
    let again = Index::read(&path, &map).unwrap();
    std::fs::remove_file(&path).unwrap();
    assert_eq!(again, index);
    assert!(again.is_tied(&map) && again.is_of(&map));
    for step in 0..500 {
        let (lat, lon) = (step as f32 * 0.37 % 180.0 - 90.0, step as f32 * 1.71 % 360.0 - 180.0);
        let plain = map.lookup(lat, lon).unwrap();
        assert_eq!(map.lookup_indexed(&again, lat, lon).unwrap(), plain);
        assert_eq!(map.lookup_through(&again, lat, lon).unwrap(), plain);
    }
}

/// Bytes that are no words are an error that says what to do; words that are no index of the map are refused.
#[test]
fn kept_badly() {
    let map = Map::read(WORLD).unwrap();
    let good = Index::build(&map).unwrap().to_bytes();
    assert!(Index::of_bytes(&good, &map).unwrap().is_tied(&map));
    for cut in [1, 2, 3, 4, 8, good.len() / 8 * 4, good.len()] {
        let error = Index::of_bytes(&good[..good.len() - cut], &map).unwrap_err();
        if cut % 4 == 0 {
            assert_eq!(error.to_string(), "refusal 36: index and file differ");
        } else {
            assert!(error.to_string().ends_with("it is no index or a cut one: build it again"), "{error}");
        }
    }
    assert!(matches!(Index::read("/nonexistent", &map), Err(Error::File(_))));
}

/// So many entries are in the lists of all tiles as the index has words behind its head, records and kept bytes.
#[test]
fn entries_in_tiles() {
    let map = Map::read(WORLD).unwrap();
    let index = Index::build(&map).unwrap();
    let words = index.words();
    let lists = words.len() - 2052 - 7 * words[2] as usize - (words[1] as usize).div_ceil(4);
    assert_eq!(index.in_tiles().count(), 32 * 64);
    assert_eq!(index.in_tiles().sum::<usize>(), lists);
    assert_eq!(Index::of_words(vec![1; 2051]).in_tiles().count(), 0);
}

/// On the map of USKELZAR_MAP, at each city of USKELZAR_CITIES.
#[test]
#[ignore = "needs a map; host/run gives one"]
fn every_city_as_by_the_plain_lookup() {
    let map = Map::read(std::env::var("USKELZAR_MAP").unwrap()).unwrap();
    let index = Index::build(&map).unwrap();
    let cities = std::fs::read_to_string(std::env::var("USKELZAR_CITIES").unwrap()).unwrap();
    let mut count = 0;
    for line in cities.lines() {
        let mut words = line.split_whitespace();
        let lat: f32 = words.next().unwrap().parse().unwrap();
        let lon: f32 = words.next().unwrap().parse().unwrap();
        let plain = map.lookup(lat, lon).unwrap();
        assert_eq!(map.lookup_indexed(&index, lat, lon).unwrap(), plain, "{line}");
        assert_eq!(map.lookup_through(&index, lat, lon).unwrap(), plain, "{line}");
        count += 1;
    }
    println!("{count} cities, {} words of index", index.words().len());
}
