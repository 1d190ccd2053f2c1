//! The printer: a stamped slip, and each reason for none, with its words.

mod common;

use common::files::*;
use common::tzif::{ended, fixed, header, leaping, small};
use uskelzar::{Bundle, Cause, End, Error, Kind, Line, Map, NotStamped, Number, Printer, Refusal, Request, Room, Stamped, TimeZone};

const FIX: (f32, f32) = (5.1 * LAT_STEP, 5.1 * LON_STEP);
const ALONE: (f32, f32) = (15.1 * LAT_STEP, 15.1 * LON_STEP);
const NOWHERE: (f32, f32) = (60.0, 60.0);

/// A bundle as `Bundle` makes it: what it would leave out is an error.
fn zones(files: &[(&str, Vec<u8>)]) -> Bundle {
    let bundled = Bundle::of_files(None, files.iter().map(|(name, file)| (name.to_string(), file.clone())));
    assert!(bundled.left_out.is_empty(), "{:?}", bundled.left_out);
    bundled.bundle
}

/// A bundle of one file that `Bundle` would not take.
fn bad_zone(name: &str, file: &[u8]) -> Bundle {
    let stand_in = zones(&[(name, fixed(0, "UTC"))]);
    let mut bytes = stand_in.to_bytes()[..24 + 52].to_vec();
    bytes[20..24].copy_from_slice(&(76 + file.len() as u32).to_be_bytes());
    bytes[24 + 44..24 + 48].copy_from_slice(&(file.len() as u32).to_be_bytes());
    bytes.extend(file);
    Bundle::of_bytes(bytes)
}

fn stamp(file: &[u8], zones: Bundle, fix: (f32, f32), instant: i64) -> Result<Stamped, NotStamped> {
    Printer::new(Map::open(file).unwrap(), zones).stamp(fix.0, fix.1, instant)
}

/// Why there is no slip, in words.
fn why(file: &[u8], zones: Bundle, fix: (f32, f32), instant: i64) -> String {
    stamp(file, zones, fix, instant).unwrap_err().to_string()
}

#[test]
fn stamped() {
    let slip = stamp(&overlap(1), zones(&[("Up/One", fixed(7200, "CEST")), ("Up/Two", fixed(-16_201, "XYZ"))]), ALONE, 1_782_907_199).unwrap();
    assert_eq!(slip.line, "Wed 2026-07-01 07:29:58 -04:30:01 XYZ Up/Two");
    assert_eq!((slip.offset, slip.matches.len(), slip.to_string()), (-16_201, 1, slip.line.clone()));
    assert_eq!(slip.matches, Map::open(overlap(1)).unwrap().lookup(ALONE.0, ALONE.1).unwrap().matches);
    assert_eq!(slip.matches[0].kind, Kind::InZone);
}

#[test]
fn one_hour_of_two_zones() {
    let slip = stamp(&overlap(0), zones(&[("Up/One", fixed(7200, "CEST")), ("Up/Two", fixed(7200, "SAST"))]), FIX, 1_782_907_199).unwrap();
    assert_eq!(slip.line, "Wed 2026-07-01 13:59:59 +02:00 CEST Up/One, SAST Up/Two");
    assert_eq!(slip.matches.len(), 2);
}

#[test]
fn hours_that_differ() {
    let both = || zones(&[("Up/One", fixed(3600, "A")), ("Up/Two", fixed(7200, "B"))]);
    // inside two zones that overlap, and on the edge of one of them
    for fix in [FIX, (3.1 * LAT_STEP, 5.1 * LON_STEP)] {
        assert_eq!(why(&overlap(1), both(), fix, 0), "92 0 0 the hours differ");
        let printer = Printer::new(Map::open(overlap(1)).unwrap(), both());
        let found = printer.found(fix.0, fix.1).unwrap();
        assert_eq!((found.end, found.matches.len()), (End::Whole, 2));
    }
}

#[test]
fn not_whole() {
    let mut cut = overlap(1);
    let end = cut.len() - 2;
    cut[end..].fill(0x80);
    let fix = |lat, lon| (f32::from_bits(lat), f32::from_bits(lon));
    for (file, fix, mark) in [
        (&TABLE_CUT[..], fix(TABLE_CUT_LAT, TABLE_CUT_LON), 2),
        (&cut, FIX, 3),
        (&OUT_OF_ORDER, fix(OUT_OF_ORDER_LAT, OUT_OF_ORDER_LON), 4),
    ] {
        assert_eq!(why(file, zones(&[]), fix, 0), format!("85 0 {mark} the search was not whole"));
    }
}

#[test]
fn no_zone_and_no_names() {
    assert_eq!(why(&overlap(1), zones(&[]), NOWHERE, 0), "86 0 0 no zone holds the fix");
    // countries have a Name
    let fix = (f32::from_bits(SQUARE_LAT), f32::from_bits(SQUARE_LON));
    assert_eq!(why(&SQUARE, zones(&[]), fix, 0), "87 0 0 not a map of time zones");
}

/// A map's names are looked for in the bundle and nowhere else: no name leads to a file of the machine.
#[test]
fn names_that_would_lead_out() {
    for (prefix, id) in [("../", "secret"), ("", "../secret"), ("/", "etc/passwd"), ("Up/../", "secret"), ("", ""), ("./", "secret")] {
        let square = [(1, 1), (9, 1), (9, 9), (1, 9)];
        let zone = Zone { fields: &[prefix, id], borders: &[&square] };
        let file = file(b'T', 1, &["TimezoneIdPrefix", "TimezoneId"], "", &[zone]);
        assert_eq!(why(&file, zones(&[("secret", fixed(0, "UTC"))]), FIX, 0), "88 1 0 the zone is not in the bundle", "{prefix}{id}");
    }
}

#[test]
fn zones_that_do_not_answer() {
    let ask = |zones, instant| stamp(&overlap(1), zones, ALONE, instant).unwrap_err();
    assert_eq!(ask(zones(&[("Up/One", fixed(0, "UTC"))]), 0).to_string(), "88 1 0 the zone is not in the bundle");
    assert_eq!(ask(zones(&[("Up/Two", ended())]), 1).to_string(), "90 1 0 the local time is unknown");
    let cut = ask(bad_zone("Up/Two", &fixed(0, "UTC")[..40]), 0);
    assert_eq!(cut, NotStamped { why: Refusal { number: Number::TzifHeader, cause: None, detail: 0 }, at: Some(1) });
    assert_eq!(cut.to_string(), "42 1 0 the file ends inside a header");
    let mut bytes = zones(&[("Up/Two", fixed(0, "UTC"))]).to_bytes().to_vec();
    bytes[11] = 1;
    assert_eq!(ask(Bundle::of_bytes(bytes), 0).to_string(), "89 1 11 the bundle is damaged");
    // the second of two matches
    let second = stamp(&overlap(1), zones(&[("Up/One", fixed(0, "UTC"))]), FIX, 0).unwrap_err();
    assert_eq!((second.why.number, second.at, second.to_string().as_str()), (Number::NoFile, Some(2), "88 2 0 the zone is not in the bundle"));
}

/// 61 of the rule's years, 61 of the clock's alone, and neither.
#[test]
fn years_of_the_rule_and_of_the_clock() {
    const LAST: i64 = 253_402_300_799;
    let hour_east = || zones(&[("Up/Two", fixed(3600, "CET"))]);
    for instant in [LAST, LAST - 3599, i64::MAX, i64::MIN] {
        assert_eq!(why(&overlap(1), hour_east(), ALONE, instant), "61 1 0 the rule's instant, or the clock, is outside the years 1 to 9999", "{instant}");
    }
    assert_eq!(stamp(&overlap(1), hour_east(), ALONE, LAST - 3600).unwrap().line, "Fri 9999-12-31 23:59:59 +01:00 CET Up/Two");
    let ruled = || zones(&[("Up/Two", small())]);
    assert_eq!(stamp(&overlap(1), ruled(), ALONE, LAST + 1).unwrap_err().why.number, Number::TzifYear);
    assert!(stamp(&overlap(1), ruled(), ALONE, LAST).is_ok());
}

/// 91: its scale is not the instant's, whatever the instant.
#[test]
fn a_file_that_counts_leap_seconds() {
    for instant in [0, 78_796_799, 78_796_800, 1_761_440_400, i64::MIN, i64::MAX] {
        let leaps = bad_zone("Up/Two", &leaping(3600, "CET", &[78_796_800, 94_694_401]));
        assert_eq!(why(&overlap(1), leaps, ALONE, instant), "91 1 0 the zone's file counts leap seconds", "{instant}");
    }
    let plain = zones(&[("Up/Two", leaping(3600, "CET", &[]))]);
    assert_eq!(stamp(&overlap(1), plain, ALONE, 0).unwrap().line, "Thu 1970-01-01 01:00:00 +01:00 CET Up/Two");
}

/// 84: NaN, infinity and what is off the globe; the poles and the date line are places.
#[test]
fn no_place() {
    let printer = Printer::new(Map::open(overlap(1)).unwrap(), zones(&[]));
    let above = |degrees: f32| f32::from_bits(degrees.to_bits() + 1);
    for (lat, lon) in [
        (f32::NAN, FIX.1),
        (FIX.0, f32::NAN),
        (f32::NAN, f32::NAN),
        (f32::INFINITY, FIX.1),
        (FIX.0, f32::NEG_INFINITY),
        (above(90.0), FIX.1),
        (-above(90.0), FIX.1),
        (FIX.0, above(180.0)),
        (FIX.0, -above(180.0)),
    ] {
        assert_eq!(printer.stamp(lat, lon, 0).unwrap_err().to_string(), "84 0 0 out of range", "{lat} {lon}");
    }
    for (lat, lon) in [(90.0, 180.0), (-90.0, -180.0)] {
        assert_eq!(printer.stamp(lat, lon, 0).unwrap_err().why.number, Number::NoZone);
    }
}

/// A map whose fields can't be read is refused with its own cause, which is no match's number.
#[test]
fn a_map_that_is_refused() {
    let square = [(1, 1), (9, 1), (9, 9), (1, 9)];
    let zone = Zone { fields: &["Up/", "One"], borders: &[&square] };
    let mut bytes = file(b'T', 1, &["TimezoneIdPrefix", "TimezoneId"], "", &[zone]);
    let at = bytes.windows(3).position(|some| some == b"Up/".map(|byte| byte ^ 0x80)).unwrap();
    bytes[at] = 0x7f;
    let why = stamp(&bytes, zones(&[("Up/One", fixed(0, "UTC"))]), FIX, 0).unwrap_err();
    assert_eq!((why.why.number, why.why.cause, why.at), (Number::FieldValue, Some(Cause::Utf8), None));
    assert_eq!(why.to_string(), "15 2 0 field value");
    assert!(matches!(Printer::new(Map::open(bytes).unwrap(), zones(&[])).found(FIX.0, FIX.1), Err(Error::Refused(found)) if found == why.why));
}

/// A slip needs room for hits, fields and its line; the last refusal says how much line.
#[test]
fn room() {
    let in_room = |room| Printer::new(Map::open(overlap(1)).unwrap().with_room(room), zones(&[("Up/One", fixed(0, "A")), ("Up/Two", fixed(0, "B"))])).stamp(FIX.0, FIX.1, 0);
    let line = "Thu 1970-01-01 00:00:00 +00:00 A Up/One, B Up/Two";
    assert_eq!(in_room(Room { hits: 2, ..Room::default() }).unwrap_err().to_string(), "17 0 0 more hits than slots");
    assert_eq!(in_room(Room { text: 23, ..Room::default() }).unwrap_err().to_string(), "18 0 0 text doesn't fit");
    assert_eq!(in_room(Room { line: 48, ..Room::default() }).unwrap_err().to_string(), "18 0 49 text doesn't fit");
    assert_eq!(in_room(Room { hits: 3, text: 24, line: 49 }).unwrap().line, line);
}

#[test]
fn the_words_of_a_line() {
    let both = zones(&[("Up/One", fixed(-16_201, "A\u{e9} B")), ("Up/Two", fixed(-16_201, ""))]);
    let slip = stamp(&overlap(1), both, FIX, 1_782_907_199).unwrap();
    assert_eq!(slip.line, "Wed 2026-07-01 07:29:58 -04:30:01 A???B Up/One,  Up/Two");
    let zones = vec![("A???B", "Up/One"), ("", "Up/Two")];
    assert_eq!(slip.words(), Line { weekday: "Wed", date: "2026-07-01", time: "07:29:58", offset: "-04:30:01", zones });
    // commas of abbreviations and of the last name are theirs
    let odd = Stamped { line: "Thu 1970-01-01 00:00:00 +00:00 A, Up/One,, B Up/Two,".into(), ..slip };
    assert_eq!(odd.words().zones, [("A,", "Up/One,"), ("B", "Up/Two,")]);
}

/// A request is read by the library, and its slip is the slip at what it means.
#[test]
fn requests() {
    let printer = Printer::new(Map::read(common::WORLD).unwrap(), Bundle::of_folder("/usr/share/zoneinfo").unwrap().bundle);
    let sentence = "$GNRMC,115959.00,A,5231.200000,N,01324.000000,E,0.0,0.0,010726,,,A*41";
    let berlin = printer.stamp(52.52, 13.40, 1_782_907_199).unwrap();
    assert_eq!(berlin.line, "Wed 2026-07-01 13:59:59 +02:00 CEST Europe/Berlin");
    for line in [sentence.to_string(), format!("{sentence}\r\n"), "52.52 13.40 1782907199".into(), "+52.520 13.4\t2026-07-01T11:59:59Z\n".into()] {
        assert_eq!(printer.stamp_request(&line).unwrap(), berlin, "{line}");
        assert_eq!(Request::read(&line).unwrap(), Request { lat: 52.52, lon: 13.40, instant: 1_782_907_199 });
    }
    for (line, words) in [
        ("", "80 0 0 not a request"),
        ("52.52 13.40", "80 0 11 not a request"),
        ("$GNRMC,115959.00,V,,,,,,,010726,,,N*61", "81 0 0 the receiver has no fix"),
        ("$GNRMC,115959.00,A,5231.200001,N,01324.000000,E,0.0,0.0,010726,,,A*41", "82 0 66 the checksum is wrong"),
        ("$GPGLL,,,,,,V,N*64", "83 0 0 another sentence"),
        ("52.52 13.40 2016-12-31T23:59:60Z", "84 0 12 out of range"),
        ("0 -30 0", "86 0 0 no zone holds the fix"),
    ] {
        assert_eq!(printer.stamp_request(line).unwrap_err().to_string(), words, "{line}");
        let read = Request::read(line).map_err(|why| why.number as u8);
        assert!(words.starts_with("86") || read == Err(words[..2].parse().unwrap()), "{line}");
    }
}

/// Degrees that come as f64 are rounded once.
#[test]
fn degrees_of_twice_the_width() {
    let printer = Printer::new(Map::open(overlap(1)).unwrap(), zones(&[("Up/Two", fixed(0, "UTC"))]));
    let (lat, lon) = (f64::from(ALONE.0) + 1e-9, f64::from(ALONE.1) - 1e-9);
    assert_eq!(printer.stamp_degrees(lat, lon, 0).unwrap(), printer.stamp(ALONE.0, ALONE.1, 0).unwrap());
    assert_eq!(printer.map().lookup_degrees(lat, lon).unwrap(), printer.map().lookup(ALONE.0, ALONE.1).unwrap());
    // 90 and a little is the nearest place, 90
    assert_eq!(printer.stamp_degrees(90.000_000_1, 0.0, 0).unwrap_err().why.number, Number::NoZone);
    assert_eq!(printer.stamp_degrees(90.1, 0.0, 0).unwrap_err().why.number, Number::NoPlace);
}

/// What the bundle has under a name is the file that the slip goes by; a head without a release says none.
#[test]
fn files_of_a_bundle() {
    let both = Bundle::of_files(Some("2026a"), [("Up/One".to_string(), fixed(0, "A")), ("Up/Two".to_string(), small())]).bundle;
    assert_eq!((both.find("Up/Two"), both.find(b"Up/One"), both.release()), (Ok(&small()[..]), Ok(&fixed(0, "A")[..]), Some("2026a")));
    assert_eq!(TimeZone::new(both.find("Up/One").unwrap()).unwrap().local_time(0).unwrap().unwrap().abbreviation, b"A");
    assert_eq!(both.find("Up/").unwrap_err().to_string(), "refusal 88: the zone is not in the bundle");
    assert_eq!(Bundle::of_bytes(header(0, [0; 6])).find("Up").unwrap_err().to_string(), "refusal 89: the bundle is damaged (place 0)");
    for bytes in [&b""[..], b"tzdata2026", b"tzdata?????\0", b"tzdata202\xff\xff\0"] {
        assert_eq!(Bundle::of_bytes(bytes.to_vec()).release(), None);
    }
}

/// Threads may stamp by one printer.
#[test]
fn threads() {
    let printer = Printer::new(Map::open(overlap(1)).unwrap(), zones(&[("Up/Two", small())]));
    let alone: Vec<Stamped> = (0..100).map(|i| printer.stamp(ALONE.0, ALONE.1, i << 28).unwrap()).collect();
    std::thread::scope(|scope| {
        for _ in 0..4 {
            scope.spawn(|| alone.iter().zip(0i64..).for_each(|(want, i)| assert_eq!(&printer.stamp(ALONE.0, ALONE.1, i << 28).unwrap(), want)));
        }
    });
}
