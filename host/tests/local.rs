//! Local time: the answers of a small file, every room from 0 to 64, every cut and every changed byte, with the file and the text at
//! pages that may not be touched.

mod common;

use common::fence::{Edge, Fence, EDGES};
use common::tzif::{header, small};
use uskelzar::raw::{self, Reply};
use uskelzar::{CivilTime, LocalTime, Number, Refusal, TimeZone};

const MOST: usize = 64;

fn local(offset: i32, daylight: bool, name: &[u8]) -> Option<LocalTime> {
    Some(LocalTime {
        offset,
        daylight,
        abbreviation: name.to_vec(),
        leap_seconds: None,
    })
}

#[test]
fn answers() {
    let zone = TimeZone::new(small()).unwrap();
    let before = local(0, false, b"AAA");
    let summer = local(3600, true, b"BCD");
    for (instant, wanted) in [
        (i64::MIN, &before),
        (-1, &before),
        (0, &summer),
        ((1 << 33) - 1, &summer),
        (1 << 33, &before),
        ((1 << 33) + 1, &before),
        ((1 << 33) + 30 * 86_400, &summer),
        ((1 << 33) + 300 * 86_400, &before),
    ] {
        assert_eq!(zone.local_time(instant).unwrap(), *wanted, "{instant}");
    }
}

/// Outside the years 1 to 9999 the string is not asked; the transitions are.
#[test]
fn years() {
    let zone = TimeZone::new(small()).unwrap();
    for instant in [253_402_300_800, i64::MAX] {
        let why = zone.local_time(instant).unwrap_err();
        assert_eq!((why.number, why.detail), (Number::TzifYear, 0));
    }
    assert!(zone.local_time(253_402_300_799).is_ok());
    assert!(zone.local_time(i64::MIN).is_ok());
}

/// A string that is none, and one that contradicts the last transition.
#[test]
fn strings() {
    let file = small();
    let newline = file.len() - b"\nAAA0BCD,M3.5.0,M10.5.0\n".len();
    for (string, place) in [
        (&b"AA0"[..], newline + 3),
        (b"AAA0BCD", newline + 8),
        (b"AAA0BCD,M3.6.0,M10.5.0", newline + 12),
        (b"AAA0BCD,M3.5.0/25,M10.5.0", newline + 16),
        (b"AAA1", newline),
        (b"AAB0", newline),
    ] {
        let mut changed = file[..=newline].to_vec();
        changed.extend(string);
        changed.push(b'\n');
        let why = TimeZone::new(changed).err().unwrap();
        assert_eq!((why.number, why.detail as usize), (Number::TzifString, place));
    }
}

/// `AAA` at UT with these leap-second records, an occurrence and a correction each, in both blocks.
fn leaping(version: u8, records: &[(i32, i32)]) -> Vec<u8> {
    let counts = [0, 0, records.len() as u32, 0, 1, 4];
    let mut out = header(version, counts);
    out.extend(b"\0\0\0\0\0\0AAA\0");
    out.extend(records.iter().flat_map(|(time, correction)| [time.to_be_bytes(), correction.to_be_bytes()].concat()));
    out.extend(header(version, counts));
    out.extend(b"\0\0\0\0\0\0AAA\0");
    for (time, correction) in records {
        out.extend(i64::from(*time).to_be_bytes());
        out.extend(correction.to_be_bytes());
    }
    out.extend(b"\nAAA0\n");
    out
}

/// Version 4: a table that begins part-way and one that ends with an expiry are taken, an expiry in the middle is not; version 3 takes neither.
#[test]
fn fourth() {
    const MONTH: i32 = 2_419_199;
    let refused = |version, records: &[(i32, i32)]| {
        let why = TimeZone::new(leaping(version, records)).err()?;
        Some((why.number, why.detail))
    };
    let (occurrence, correction) = (Number::TzifOccurrence, Number::TzifCorrection);
    for (records, fourth, third) in [
        (&[][..], None, None),
        (&[(0, 1), (MONTH, 0)], None, None),
        (&[(0, 27)], None, Some((correction, 58))),
        (&[(0, 0)], None, Some((correction, 58))),
        (&[(0, 1), (1, 1)], None, Some((occurrence, 62))),
        (&[(0, 1), (MONTH, 1)], None, Some((correction, 66))),
        (&[(0, 1), (0, 1)], Some((occurrence, 62)), Some((occurrence, 62))),
        (&[(0, 1), (MONTH, 1), (2 * MONTH, 2)], Some((correction, 66)), Some((correction, 66))),
        (&[(0, 1), (MONTH, 1), (2 * MONTH, 1)], Some((correction, 66)), Some((correction, 66))),
        (&[(-1, 27)], Some((occurrence, 54)), Some((occurrence, 54))),
    ] {
        assert_eq!(refused(b'4', records), fourth, "{records:?}");
        assert_eq!(refused(b'3', records), third, "{records:?}");
    }
    let zone = TimeZone::new(leaping(b'4', &[(0, 27), (1, 27)])).unwrap();
    assert_eq!(zone.local_time(1 << 40).err().map(|why| why.number), Some(Number::TzifYear));
    let counted = |correction| local(0, false, b"AAA").map(|plain| LocalTime { leap_seconds: Some(correction), ..plain });
    assert_eq!(zone.local_time(2).unwrap(), counted(27));
    assert_eq!(zone.local_time(-1).unwrap(), counted(0));
    assert_eq!(TimeZone::new(leaping(b'4', &[(0, -1)])).unwrap().local_time(0).unwrap(), counted(-1));
    assert_eq!(TimeZone::new(leaping(b'4', &[(0, 0)])).unwrap().local_time(0).unwrap(), counted(0));
    assert_eq!(TimeZone::new(leaping(b'4', &[])).unwrap().local_time(0).unwrap(), local(0, false, b"AAA"));
    assert_eq!(TimeZone::new(leaping(b'5', &[])).err().unwrap().number, Number::TzifVersion);
}

fn civil(year: u16, date: [u8; 2], time: [u8; 3], weekday: u8) -> CivilTime {
    let ([month, day], [hour, minute, second]) = (date, time);
    CivilTime {
        year,
        month,
        day,
        hour,
        minute,
        second,
        weekday,
    }
}

#[test]
fn dates() {
    const FIRST: i64 = -62_135_596_800;
    const LAST: i64 = 253_402_300_799;
    for (instant, offset, wanted) in [
        (0, 0, civil(1970, [1, 1], [0, 0, 0], 4)),
        (951_782_400, 3600, civil(2000, [2, 29], [1, 0, 0], 2)),
        (-1, -1, civil(1969, [12, 31], [23, 59, 58], 3)),
        (FIRST, 0, civil(1, [1, 1], [0, 0, 0], 1)),
        (LAST, 0, civil(9999, [12, 31], [23, 59, 59], 5)),
        (LAST + 2_147_483_648, i32::MIN, civil(9999, [12, 31], [23, 59, 59], 5)),
    ] {
        assert_eq!(CivilTime::at(instant, offset), Ok(wanted), "{instant} {offset}");
    }
    for (instant, offset) in [(FIRST, -1), (LAST, 1), (i64::MIN, i32::MIN), (i64::MAX, i32::MAX)] {
        let why = CivilTime::at(instant, offset).unwrap_err();
        assert_eq!((why.number, why.detail), (Number::TzifYear, 0));
    }
}

/// A negative offset comes back as one.
#[test]
fn west() {
    let mut file = header(0, [0, 0, 0, 0, 1, 4]);
    file.extend((-18_000i32).to_be_bytes());
    file.extend(b"\0\0EST\0");
    let zone = TimeZone::new(file).unwrap();
    assert_eq!(zone.local_time(0).unwrap(), local(-18_000, false, b"EST"));
}

/// An abbreviation longer than the first room.
#[test]
fn long_name() {
    let mut file = header(0, [0, 0, 0, 0, 1, 200]);
    file.extend([0; 6]);
    file.extend([b'x'; 199]);
    file.push(0);
    let zone = TimeZone::new(file).unwrap();
    assert_eq!(zone.local_time(7).unwrap(), local(0, false, &[b'x'; 199]));
}

struct Got {
    reply: Result<Reply, Refusal>,
    text: Vec<u8>,
}

fn call(file: &[u8], instant: i64, fence: &mut Fence, room: usize, edge: Edge) -> Got {
    let text = fence.lend::<u8>(room, edge);
    let reply = raw::local_time(file, instant, text);
    let text = text.to_vec();
    fence.assert_kept(room, edge);
    Got { reply, text }
}

fn assert_zero_behind(got: &Got) {
    let used = got.reply.map_or(0, |reply| reply[3] as usize);
    assert!(got.text[used..].iter().all(|byte| *byte == 0));
}

#[test]
fn every_room() {
    let file = small();
    let mut held = Fence::new(file.len());
    let mut lent = Fence::new(4096);
    for edge in EDGES {
        let file = held.hold(&file, edge);
        for room in 0..=MOST {
            for (instant, name) in [(-1, &b"AAA"[..]), (0, b"BCD"), (1 << 34, b"BCD")] {
                let got = call(file, instant, &mut lent, room, edge);
                assert_zero_behind(&got);
                match got.reply {
                    Ok(reply) => {
                        assert!(name.len() <= room);
                        assert_eq!(reply[3] as usize, name.len());
                        assert_eq!(&got.text[..name.len()], name);
                    }
                    Err(why) => {
                        assert!(room < name.len());
                        assert_eq!((why.number, why.detail), (Number::TextRoom, 0));
                    }
                }
            }
        }
    }
}

/// Cut at every length, and each byte changed to every value: answered or refused with a place in the file, no byte beside it touched.
#[test]
fn every_cut_and_change() {
    let whole = small();
    let mut held = Fence::new(whole.len());
    let mut lent = Fence::new(4096);
    for edge in EDGES {
        for length in 0..whole.len() {
            let file = held.hold(&whole[..length], edge);
            let got = call(file, 0, &mut lent, 8, edge);
            let why = got.reply.expect_err("a cut file is refused");
            assert!(
                why.number as u8 >= 40 && why.detail as usize <= length,
                "{why:?}"
            );
            assert_zero_behind(&got);
        }
        for at in 0..whole.len() {
            let mut changed = whole.clone();
            for value in 0..=255 {
                changed[at] = value;
                let file = held.hold(&changed, edge);
                let got = call(file, 0, &mut lent, 8, edge);
                assert_zero_behind(&got);
                if let Err(why) = got.reply {
                    assert!(why.detail as usize <= whole.len(), "{why:?}");
                }
            }
        }
    }
}
