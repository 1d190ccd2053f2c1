//! All of a file as it stands: what is read back is what was written, and where nothing is found wrong a lookup meets nothing wrong.
#![cfg(feature = "office")]

mod common;

use common::files::{file, header, overlap, sections, Sections, Zone, LAT_STEP, LON_STEP, OUT_OF_ORDER, SQUARE, TABLE_CUT};
use common::WORLD;
use uskelzar::{write_border, End, Entry, Error, Map, Number, Piece, Reason, Unread};

const LONG: [(i32, i32); 6] = [(20, 20), (28, 21), (35, 40), (20, 60), (10, 50), (9, 30)];

fn entries(map: &Map<Vec<u8>>) -> Vec<Entry> {
    map.entries().unwrap().map(Result::unwrap).collect()
}

fn borders(map: &Map<Vec<u8>>) -> Vec<Vec<(i32, i32)>> {
    entries(map).iter().map(|entry| map.border(entry).unwrap()).collect()
}

#[test]
fn borders_are_read_back() {
    let square = [(2, 2), (10, 2), (10, 10), (2, 10)];
    let zones = [Zone { fields: &["A"], borders: &[&square] }, Zone { fields: &["B"], borders: &[&LONG] }];
    for version in [0, 1] {
        let map = Map::open(file(b'C', version, &["Name"], "", &zones)).unwrap();
        assert_eq!(borders(&map), [square.to_vec(), LONG.to_vec()]);
        assert_eq!(map.degrees((2, 2)), (f64::from(2.0 * LAT_STEP), f64::from(2.0 * LON_STEP)));
    }
}

#[test]
fn borrowed_borders_are_read_back() {
    let back: Vec<(i32, i32)> = LONG.iter().rev().map(|point| (point.0 + 3, point.1 - 7)).collect();
    let ahead: Vec<(i32, i32)> = LONG.iter().map(|point| (point.0 + 300, point.1 - 700)).collect();
    let first = write_border(1, &LONG, &[], &[0]).unwrap();
    let begin = write_border(1, &LONG[..1], &[], &[]).unwrap().len() as u32 - 2;
    for (points, backward) in [(&back, true), (&ahead, false)] {
        let zones = [Zone { fields: &["A"], borders: &[&LONG] }, Zone { fields: &["B"], borders: &[points] }];
        let piece = Piece { start: begin, bytes: first.len() as u32 - 2 - begin, backward, first: 1, count: 5 };
        let Sections { table, metadata, .. } = sections(1, &zones);
        let border = write_border(1, points, &[piece], &first).unwrap();
        assert!(border.len() < first.len());
        let data = [first.clone(), border].concat();
        let mut file = header(b'C', 1, &["Name"], "", [table.len(), metadata.len(), data.len()]);
        file.extend([table, metadata, data].concat());
        let map = Map::open(file).unwrap();
        assert_eq!(borders(&map), [LONG.to_vec(), points.clone()]);
        assert_eq!(entries(&map)[1].points, Some(6));
    }
}

#[test]
fn fields_and_entries_are_those_of_lookups() {
    let map = Map::read(WORLD).unwrap();
    let all = entries(&map);
    assert_eq!(all.len(), 868);
    for (lat, lon) in [(52.52, 13.40), (-33.87, 151.21), (41.88, -87.63), (35.68, 139.69)] {
        for zone in map.lookup(lat, lon).unwrap().matches {
            assert_eq!(map.fields(zone.metadata).unwrap(), zone.fields);
            let entry = &all[zone.polygon as usize];
            assert_eq!((entry.place, entry.metadata), (zone.entry, zone.metadata));
            assert_eq!(map.entry(zone.entry).as_ref(), Some(entry));
        }
    }
    let sizes = map.sizes().unwrap();
    assert_eq!((sizes.header, sizes.table, sizes.metadata, sizes.data), (143, 8404, 5938, 26_814));
}

/// Whether every entry, border and field of a file is read.
fn is_read(map: &Map<Vec<u8>>) -> bool {
    let Ok(mut entries) = map.entries() else { return false };
    entries.all(|entry| entry.is_ok_and(|entry| map.border(&entry).is_ok() && map.fields(entry.metadata).is_ok()))
}

#[test]
fn where_all_is_read_a_lookup_meets_nothing_wrong() {
    let fixes = [(5.1 * LAT_STEP, 5.1 * LON_STEP), (15.1 * LAT_STEP, 15.1 * LON_STEP)];
    let (mut read, mut unread) = (0, 0);
    for whole in [SQUARE.to_vec(), overlap(0), overlap(1), OUT_OF_ORDER.to_vec(), TABLE_CUT.to_vec()] {
        for at in 7..whole.len() {
            for byte in (0..=255).step_by(17) {
                let mut file = whole.clone();
                file[at] = byte;
                let Ok(map) = Map::open_strict(file) else { continue };
                if !is_read(&map) {
                    unread += 1;
                    continue;
                }
                read += 1;
                for (lat, lon) in fixes {
                    match map.lookup_strict(lat, lon) {
                        Ok(zones) => assert!(matches!(zones.end, End::Whole | End::OutOfOrder), "{at} {byte}: {zones:?}"),
                        // the verdict's own steps
                        Err(Error::Refused(why)) => assert_eq!(why.number, Number::OutOfRange, "{at} {byte}"),
                        Err(error) => panic!("{at} {byte}: {error}"),
                    }
                }
            }
        }
    }
    assert!(read > 300 && unread > 300, "{read} {unread}");
}

#[test]
fn what_is_not_read_is_said() {
    let last = |file: &[u8]| Map::open(file.to_vec()).unwrap().entries().unwrap().last().unwrap();
    assert_eq!(last(&TABLE_CUT).unwrap_err(), Unread::Cut(44));
    assert_eq!(Unread::Cut(44).to_string(), "the file's end cuts the number at byte 44");
    let border = |file: Vec<u8>| {
        let map = Map::open(file).unwrap();
        let entry = map.entries().unwrap().next().unwrap().unwrap();
        map.border(&entry).unwrap_err()
    };
    let with = |place: usize, bytes: &[u8]| {
        let mut file = SQUARE.to_vec();
        file[place..place + bytes.len()].copy_from_slice(bytes);
        file
    };
    assert_eq!(border(with(32, &[0x80])), Unread::Cut(32));
    assert_eq!(border(with(31, &[0x02])), Unread::Missing(33));
    assert_eq!(border(with(24, &[0x00, 0x01, 0x08, 0x02])), Unread::Marker(32));
    assert_eq!(border(with(24, &[0x00, 0x01, 0x00, 0x03])), Unread::Missing(23));
    let map = Map::open(with(23, &[0x41])).unwrap();
    assert_eq!(map.fields(0).unwrap_err(), Unread::Utf8(22));
    let map = Map::open(with(22, &[0x20])).unwrap();
    assert_eq!(map.fields(0).unwrap_err(), Unread::String(22));
}

/// What salvage says of strings is what is read here: told outside where it drops an entry for that, and inside where it keeps one.
#[test]
fn strings_outside_are_those_that_salvage_drops() {
    let zones = [Zone { fields: &["A", "yes"], borders: &[&LONG] }, Zone { fields: &["Gate B", ""], borders: &[&LONG] }];
    let whole = file(b'C', 1, &["Name", "Open"], "", &zones);
    let (mut outside, mut inside) = (0, 0);
    for at in 7..whole.len() {
        for byte in 0..=255 {
            let mut bytes = whole.clone();
            bytes[at] = byte;
            let Ok(map) = Map::open_strict(bytes) else { continue };
            let Ok(salvaged) = map.salvage() else { continue };
            for entry in map.entries().unwrap().map_while(Result::ok) {
                let told = map.string_outside(entry.metadata);
                match salvaged.dropped.iter().find(|dropped| dropped.entry == entry.number).map(|dropped| dropped.reason) {
                    None => assert_eq!(told, Ok(None), "byte {at} is {byte}"),
                    Some(Reason::StringOutside) => assert!(matches!(told, Ok(Some(_))), "byte {at} is {byte}: {told:?}"),
                    Some(_) => continue,
                }
                outside += usize::from(told != Ok(None));
                inside += usize::from(told == Ok(None));
            }
        }
    }
    assert!(outside > 10 && inside > 1000, "{outside} {inside}");
}
