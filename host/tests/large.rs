//! The largest file, and one byte more: sparse, and mapped.
#![cfg(feature = "office")]

mod common;

use common::files::{header, sections, Zone, LAT_STEP, LON_STEP};
use std::fs::File;
use std::os::unix::fs::FileExt;
use std::path::PathBuf;
use uskelzar::raw::{self, Reply};
use uskelzar::{write_border, End, Error, Map, Mapping, Number, Refusal, TimeZone};

const LARGEST: usize = 1_073_741_824;
const TOO_LARGE: Refusal = Refusal {
    number: Number::TooLarge,
    cause: None,
    detail: 0,
};

/// A whole file of a length, whose one border stands at its very end; between is nothing but a hole.
fn make_file(name: &str, length: usize) -> File {
    let square: &[(i32, i32)] = &[(2, 2), (10, 2), (10, 10), (2, 10)];
    let sections = sections(
        1,
        &[Zone {
            fields: &["Far"],
            borders: &[square],
        }],
    );
    let border = sections.data;
    // the entry ends with its border's place, one byte for 0; the place at the file's end takes five
    let mut table = sections.table;
    assert_eq!(table.pop(), Some(0));
    let sizes = |data| [table.len() + 5, sections.metadata.len(), data];
    let front = header(b'C', 1, &["Name"], "", sizes(length)).len();
    let data = length - front - table.len() - 5 - sections.metadata.len();
    let mut bytes = header(b'C', 1, &["Name"], "", sizes(data));
    assert_eq!(bytes.len(), front);
    bytes.extend(&table);
    bytes.extend(five_bytes(data - border.len()));
    bytes.extend(sections.metadata);
    let file = File::options()
        .read(true)
        .write(true)
        .create(true)
        .truncate(true)
        .open(path(name))
        .unwrap();
    file.set_len(length as u64).unwrap();
    file.write_all_at(&bytes, 0).unwrap();
    file.write_all_at(&border, (length - border.len()) as u64)
        .unwrap();
    file
}

/// A number in five bytes, whatever its size.
fn five_bytes(value: usize) -> [u8; 5] {
    [0, 7, 14, 21, 28].map(|bits| (value >> bits) as u8 & 127 | if bits < 28 { 128 } else { 0 })
}

fn path(name: &str) -> PathBuf {
    PathBuf::from(env!("CARGO_TARGET_TMPDIR")).join(name)
}

fn mapped(name: &str, length: usize) -> Mapping {
    let file = make_file(name, length);
    // SAFETY: nobody else knows the file, and it is removed at once, not changed.
    let mapping = unsafe { Mapping::new(&file) }.unwrap();
    std::fs::remove_file(path(name)).unwrap();
    assert_eq!(mapping.as_ref().len(), length);
    mapping
}

#[test]
fn the_largest_file_is_read_to_its_end() {
    let map = Map::open(mapped("largest.plb", LARGEST)).unwrap();
    assert_eq!(map.header().names, ["Name"]);
    let inside = map.lookup(5.1 * LAT_STEP, 5.1 * LON_STEP).unwrap();
    assert_eq!(inside.matches[0].fields[0].value, "Far");
    assert_eq!(inside.end, End::Whole);
    assert_eq!(
        map.whole_description(5.1 * LAT_STEP, 5.1 * LON_STEP)
            .unwrap()
            .as_deref(),
        Some("Far")
    );
    assert_eq!(
        map.whole_description(11.1 * LAT_STEP, 5.1 * LON_STEP).unwrap(),
        None
    );
}

#[test]
fn one_byte_more_is_refused() {
    let refused = Map::open(mapped("too-large.plb", LARGEST + 1)).err();
    assert!(matches!(refused, Some(Error::Refused(TOO_LARGE))));
}

#[test]
fn the_writers_earlier_data_has_the_same_limit() {
    let mapping = mapped("earlier", LARGEST + 1);
    let write = |earlier| write_border(1, &[(2, 2), (10, 2), (10, 10)], &[], earlier);
    assert_eq!(write(mapping.as_ref()), Err(TOO_LARGE));
    assert!(write(&mapping.as_ref()[..LARGEST]).is_ok());
}

/// 1 comes before what the bytes say: no header of a TZif file is there.
#[test]
fn a_time_zone_has_the_same_limit() {
    let mapping = mapped("zone", LARGEST + 1);
    let refusal = |bytes| TimeZone::new(bytes).err().unwrap();
    assert_eq!(refusal(mapping.as_ref()), TOO_LARGE);
    let largest = refusal(&mapping.as_ref()[..LARGEST]);
    assert_eq!((largest.number, largest.detail), (Number::TzifMagic, 0));
}

#[test]
fn the_largest_file_is_salvaged() {
    let (mut dropped, mut out) = ([0; 2], [0; 64]);
    let mut salvage = |name, length| -> Result<Reply, Refusal> { raw::salvage(mapped(name, length).as_ref(), &mut dropped, &mut out) };
    assert_eq!(salvage("salvaged-too-large.plb", LARGEST + 1), Err(TOO_LARGE));
    let [length, lines, kept, ..] = salvage("salvaged.plb", LARGEST).unwrap();
    assert_eq!((lines, kept), (0, 1));
    let map = Map::open(&out[..length as usize]).unwrap();
    let inside = map.lookup(5.1 * LAT_STEP, 5.1 * LON_STEP).unwrap();
    assert_eq!(inside.matches[0].fields[0].value, "Far");
}
