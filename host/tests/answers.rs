//! Known answers, through the safe wrapper.

mod common;

use common::files::{overlap, LAT_STEP, LON_STEP, SQUARE, SQUARE_LAT, SQUARE_LON};
use common::files::{OUT_OF_ORDER, OUT_OF_ORDER_LAT, OUT_OF_ORDER_LON};
use common::files::{TABLE_CUT, TABLE_CUT_LAT, TABLE_CUT_LON};
use common::WORLD;
use std::fs::{self, File};
use uskelzar::{Bundle, End, Error, Kind, Map, Mapping, Number, Printer, Room, Table};

fn world() -> Map<Vec<u8>> {
    Map::read(WORLD).unwrap()
}

/// Latitude, longitude and the rest of each line.
fn places(path: &str) -> Vec<(f32, f32, String)> {
    let text = fs::read_to_string(path).unwrap();
    let place = |line: &str| {
        let mut words = line.split_ascii_whitespace();
        let mut word = || words.next().unwrap().to_string();
        (word().parse().unwrap(), word().parse().unwrap(), word())
    };
    text.lines().map(place).collect()
}

#[test]
fn a_header() {
    let map = world();
    let header = map.header();
    assert_eq!(
        (header.table, header.version, header.precision),
        (Table::TimeZones, 1, 9)
    );
    assert_eq!(
        header.names,
        [
            "TimezoneIdPrefix",
            "TimezoneId",
            "CountryAlpha2",
            "CountryName"
        ]
    );
    assert_eq!(
        header.notice,
        "Borders: Natural Earth (public domain). Zones of cities: GeoNames (CC BY)."
    );
}

#[test]
fn document_01s_example() {
    let map = Map::open(SQUARE).unwrap();
    let zones = map
        .lookup(f32::from_bits(SQUARE_LAT), f32::from_bits(SQUARE_LON))
        .unwrap();
    assert_eq!(
        (zones.end, zones.safezone.to_bits()),
        (End::Whole, 0x3C07_0000)
    );
    let [zone] = zones.matches.as_slice() else {
        panic!("{zones:?}")
    };
    assert_eq!(
        (zone.polygon, zone.metadata, zone.kind, zone.entry),
        (0, 0, Kind::InZone, 16)
    );
    assert_eq!(
        map.entry(zone.entry).unwrap().to_string(),
        "entry 0 at 16: box 0.0055 0.0110 to 0.0275 0.0549, border at 24, 4 points"
    );
    assert_eq!([15, 17].map(|place| map.entry(place)), [None, None]);
    assert_eq!(
        (zone.fields[0].name.as_str(), zone.fields[0].value.as_str()),
        ("Name", "A")
    );
}

#[test]
fn some_cities_of_the_small_world() {
    let map = world();
    let places = places(concat!(env!("CARGO_MANIFEST_DIR"), "/../examples/cities"));
    assert!(places.len() > 20);
    for (lat, lon, zone) in places {
        let slip = map.whole_description(lat, lon).unwrap();
        assert_eq!(slip.as_deref().unwrap_or("none"), zone);
    }
}

#[test]
fn the_entry_behind_each_match() {
    let map = world();
    let places = places(concat!(env!("CARGO_MANIFEST_DIR"), "/../examples/cities"));
    let mut seen = 0;
    for (lat, lon, _) in places {
        for zone in map.lookup(lat, lon).unwrap().matches {
            let entry = map.entry(zone.entry).unwrap();
            assert_eq!(
                (entry.number, entry.metadata),
                (zone.polygon, zone.metadata)
            );
            // a fix is cut to the grid, so that its box holds it but for a step of the grid
            let (lat, lon, step) = (f64::from(lat), f64::from(lon), 90.0 / 256.0);
            assert!(entry.lower.0 - step <= lat && lat <= entry.upper.0 + step);
            assert!(entry.lower.1 - 2.0 * step <= lon && lon <= entry.upper.1 + 2.0 * step);
            assert!(entry.points.unwrap() > 2, "{entry}");
            seen += 1;
        }
    }
    assert!(seen > 20);
}

#[test]
fn an_entry_of_a_damaged_file_is_one_or_none() {
    for whole in [SQUARE.to_vec(), overlap(0), overlap(1)] {
        for at in 0..whole.len() {
            for byte in 0..=255 {
                let mut file = whole.clone();
                file[at] = byte;
                let places = 0..file.len() as u32 + 2;
                if let Ok(map) = Map::open(file) {
                    assert!(places.filter_map(|place| map.entry(place)).count() < 32);
                }
            }
        }
    }
}

#[test]
fn a_place_on_three_borders() {
    let chicago = world().lookup(41.88, -87.63).unwrap();
    let ids: Vec<&str> = chicago
        .matches
        .iter()
        .map(|zone| zone.fields[1].value.as_str())
        .collect();
    assert_eq!(ids, ["Chicago", "Indiana/Indianapolis", "Detroit"]);
    assert!(chicago
        .matches
        .iter()
        .all(|zone| zone.kind == Kind::OnBorderVertex));
    assert_eq!(chicago.safezone, 0.0);
}

/// A slip asks more than the first description: it has all zones of a border or is refused, and so is a place off the globe.
#[test]
#[allow(deprecated)]
fn the_first_description_is_no_slip() {
    let map = world();
    for (lat, lon) in [(52.52, 13.40), (41.88, -87.63), (91.0, 13.40), (0.0, -30.0)] {
        assert_eq!(map.zone_for_slip(lat, lon).unwrap(), map.whole_description(lat, lon).unwrap());
    }
    assert_eq!(map.whole_description(41.88, -87.63).unwrap().as_deref(), Some("America/Chicago"));
    let printer = Printer::new(map, Bundle::read(concat!(env!("CARGO_MANIFEST_DIR"), "/../examples/zones.tzdata")).unwrap());
    let refused = |lat, lon| printer.stamp(lat, lon, 1_782_907_199).unwrap_err().why.number;
    assert_eq!([refused(41.88, -87.63), refused(91.0, 13.40)], [Number::HoursDiffer, Number::NoPlace]);
}

#[test]
fn a_fix_that_is_no_number_counts_as_zero() {
    let map = world();
    assert_eq!(
        map.lookup(f32::NAN, f32::NAN).unwrap(),
        map.lookup(0.0, 0.0).unwrap()
    );
    assert_eq!(
        map.whole_description(f32::INFINITY, f32::NEG_INFINITY).unwrap(),
        None
    );
}

#[test]
fn no_slip_from_a_search_that_stopped() {
    // two zones, the second's border cut: the first is met, then the search stops
    let mut file = overlap(1);
    let (lat, lon) = (5.1 * LAT_STEP, 5.1 * LON_STEP);
    assert_eq!(
        Map::open(file.clone())
            .unwrap()
            .whole_description(lat, lon)
            .unwrap()
            .as_deref(),
        Some("Up/One")
    );
    let end = file.len() - 2;
    file[end..].fill(0x80);
    let map = Map::open(file).unwrap();
    let found = map.simple_lookup(lat, lon).unwrap();
    assert_eq!(
        (found.description.as_deref(), found.end),
        (Some("Up/One"), End::BorderFailed)
    );
    assert_eq!(map.whole_description(lat, lon).unwrap(), None);
}

#[test]
fn no_slip_behind_an_entry_that_could_not_be_read() {
    // one zone whose border's first vertex is the fix, then a table entry that is cut
    let map = Map::open(TABLE_CUT).unwrap();
    let (lat, lon) = (f32::from_bits(TABLE_CUT_LAT), f32::from_bits(TABLE_CUT_LON));
    let zones = map.lookup(lat, lon).unwrap();
    let kinds: Vec<Kind> = zones.matches.iter().map(|zone| zone.kind).collect();
    assert_eq!(
        (kinds.as_slice(), zones.end),
        ([Kind::OnBorderVertex].as_slice(), End::TableUnreadable)
    );
    let found = map.simple_lookup(lat, lon).unwrap();
    assert_eq!(
        (found.description.as_deref(), found.end),
        (Some("A"), End::TableUnreadable)
    );
    assert_eq!(map.whole_description(lat, lon).unwrap(), None);
}

#[test]
fn no_slip_from_a_table_out_of_order() {
    let map = Map::open(OUT_OF_ORDER).unwrap();
    let (lat, lon) = (
        f32::from_bits(OUT_OF_ORDER_LAT),
        f32::from_bits(OUT_OF_ORDER_LON),
    );
    assert_eq!(map.lookup(lat, lon).unwrap().end, End::OutOfOrder);
    let found = map.simple_lookup(lat, lon).unwrap();
    assert_eq!(
        (found.description.as_deref(), found.end),
        (Some("A"), End::OutOfOrder)
    );
    assert_eq!(map.whole_description(lat, lon).unwrap(), None);
}

#[test]
fn refusals_have_words() {
    let refused = |bytes: &[u8]| Map::open(bytes).err().unwrap().to_string();
    assert_eq!(refused(b"PLB"), "refusal 2: under 7 bytes (length 3)");
    assert_eq!(refused(b"PNG...."), "refusal 3: magic (bytes 504E47)");
    let cut = refused(&SQUARE[..20]);
    assert_eq!(cut, "refusal 11: length mismatch (computed length 33)");
    let mut name = SQUARE;
    name[8] = 0x7F;
    assert_eq!(refused(&name), "refusal 6: field name: UTF-8 (index 0)");
    assert!(matches!(Map::read("no such file"), Err(Error::File(_))));
}

#[test]
fn little_room_is_refused_and_more_is_enough() {
    let number = |hits, text| {
        let map = world().with_room(Room { hits, text, ..Room::default() });
        match map.lookup(52.52, 13.40) {
            Err(Error::Refused(refusal)) => Some(refusal.number),
            other => {
                other.unwrap();
                None
            }
        }
    };
    assert_eq!(number(0, 64), Some(Number::TooManyHits));
    assert_eq!(number(1, 33), Some(Number::TextRoom));
    assert_eq!(number(1, 34), None);
}

#[test]
fn threads_get_the_same_answers() {
    let map = world();
    let ask = || {
        (-90..90)
            .map(|lat| map.lookup(lat as f32, 10.0).unwrap())
            .collect::<Vec<_>>()
    };
    let alone = ask();
    std::thread::scope(|scope| {
        let others: Vec<_> = (0..4).map(|_| scope.spawn(ask)).collect();
        for other in others {
            assert_eq!(other.join().unwrap(), alone);
        }
    });
}

#[test]
#[ignore = "needs the map that host/run makes"]
fn all_cities_of_the_real_map() {
    let file = File::open(std::env::var("USKELZAR_MAP").unwrap()).unwrap();
    // SAFETY: nobody changes the map while it is tried.
    let map = Map::open(unsafe { Mapping::new(&file) }.unwrap()).unwrap();
    let places = places(&std::env::var("USKELZAR_CITIES").unwrap());
    let mut same = 0;
    for (lat, lon, zone) in &places {
        let found = map.simple_lookup(*lat, *lon).unwrap();
        assert_eq!(found.end, End::Whole);
        same += usize::from(found.description.as_deref() == Some(zone));
    }
    // a province has the zone of most of its cities, so that some cities lie in another zone than their own
    println!("{same} of {} cities have their own zone", places.len());
    assert!(same * 100 >= places.len() * 97);
}
