//! Files built from yards: every list at pages that may not be touched, in every room; what a built file answers; and which yard a refusal names.
#![cfg(feature = "office")]

mod common;

use common::desk::{is_zero, FencedDesk, Left, EACH_LENGTH};
use common::fence::{Edge, Fence, EDGES};
use common::files::{LAT_STEP, LON_STEP};
use uskelzar::raw::{self, Lengths, Plan, Reply};
use uskelzar::{Builder, End, Kind, Map, NotBuilt, Number, Piece, Place, Refusal, Table};

const OUTER: [(i32, i32); 4] = [(2, 2), (10, 2), (10, 10), (2, 10)];
/// Inside of it, turning the other way: with equal values a hole.
const HOLE: [(i32, i32); 4] = [(4, 4), (4, 8), (8, 8), (8, 4)];
/// South of the equator; its second and third moves are those of OUTER.
const SOUTH: [(i32, i32); 4] = [(-20, 20), (-12, 20), (-12, 28), (-20, 28)];
/// The data section begins with a zero byte, and OUTER behind that; its second move begins at 2.
const BORROWED: Piece = Piece {
    start: 2,
    bytes: 4,
    backward: false,
    first: 1,
    count: 2,
};

/// A plan's lists.
#[derive(Clone)]
struct Lists {
    yards: Vec<u32>,
    lats: Vec<i32>,
    lons: Vec<i32>,
    pieces: Vec<u32>,
    lengths: Vec<u32>,
    texts: Vec<u8>,
}

impl Lists {
    /// OUTER and HOLE of one zone, SOUTH of another, which borrows; two names, a notice, and a value found twice in the records.
    fn new() -> Lists {
        let points = [OUTER, HOLE, SOUTH].concat();
        let texts = ["Name", "Of", "ours", "Yard", "Both", "Yard", "Both", "Other", "Both"];
        Lists {
            yards: vec![4, 4, 0, 2, 4, 4, 0, 2, 4, 4, 1, 2],
            lats: points.iter().map(|point| point.0).collect(),
            lons: points.iter().map(|point| point.1).collect(),
            pieces: vec![2, 4, 0, 1, 2],
            lengths: texts.map(|text| text.len() as u32).to_vec(),
            texts: texts.concat().into_bytes(),
        }
    }
}

/// How long the lists are that are worked in.
#[derive(Clone, Copy, Debug)]
struct Rooms {
    work: Lengths,
    boxes: usize,
    bytes: usize,
}

/// What they are to be for the plan of `Lists::new`.
fn enough(out: usize) -> Rooms {
    Rooms {
        work: Lengths::of(3, 2, 25),
        boxes: 12,
        bytes: out,
    }
}

/// A reply, with the output and whether every working list is zero.
#[derive(Debug, PartialEq)]
struct Outcome {
    reply: Result<Reply, Refusal>,
    out: Vec<u8>,
    worked: bool,
}

/// Six inputs, two of the working lists and the output, each between guards, and the other working lists.
struct Desk([Fence; 9], FencedDesk);

impl Desk {
    fn new() -> Desk {
        Desk([(); 9].map(|()| Fence::new(1024)), FencedDesk::new())
    }

    fn build(&mut self, lists: &Lists, rooms: Rooms, room: usize, edge: Edge) -> Outcome {
        let [a, b, c, d, e, f, g, h, i] = &mut self.0;
        let plan = Plan {
            kind: b'C',
            version: 1,
            precision: 16,
            names: 2,
            yards: a.hold(&lists.yards, edge),
            lats: b.hold(&lists.lats, edge),
            lons: c.hold(&lists.lons, edge),
            pieces: d.hold(&lists.pieces, edge),
            lengths: e.hold(&lists.lengths, edge),
            texts: f.hold(&lists.texts, edge),
        };
        let boxes: &mut [i32] = g.lend(rooms.boxes, edge);
        let bytes: &mut [u8] = h.lend(rooms.bytes, edge);
        let out: &mut [u8] = i.lend(room, edge);
        let (reply, left) = self.1.work(rooms.work, edge, |work| raw::build(&plan, work, boxes, bytes, out));
        let outcome = Outcome {
            reply,
            out: out.to_vec(),
            worked: left == Left::Zero && is_zero(boxes) && is_zero(bytes),
        };
        let sizes = [
            4 * lists.yards.len(),
            4 * lists.lats.len(),
            4 * lists.lons.len(),
            4 * lists.pieces.len(),
            4 * lists.lengths.len(),
            lists.texts.len(),
            4 * rooms.boxes,
            rooms.bytes,
            room,
        ];
        for (fence, size) in self.0.iter_mut().zip(sizes) {
            fence.assert_kept(size, edge);
        }
        outcome
    }
}

fn plain(number: Number) -> Refusal {
    Refusal {
        number,
        cause: None,
        detail: 0,
    }
}

fn refused(why: Refusal, room: usize) -> Outcome {
    Outcome {
        reply: Err(why),
        out: vec![0; room],
        worked: true,
    }
}

fn answered(file: &[u8], room: usize) -> Outcome {
    let mut out = file.to_vec();
    out.resize(room, 0);
    Outcome {
        reply: Ok([file.len() as u64, 0, 0, 0, 0]),
        out,
        worked: true,
    }
}

/// The file of `Lists::new`, by the typed form.
fn three_yards() -> Builder {
    let builder = Builder::new(Table::Countries, 16, &["Name", "Of"]).notice("ours");
    let builder = builder.yard(&OUTER, &["Yard", "Both"]).yard(&HOLE, &["Yard", "Both"]);
    builder.yard_with(&SOUTH, &[BORROWED], &["Other", "Both"])
}

#[test]
fn every_room() {
    let (file, lists, mut desk) = (three_yards().build().unwrap(), Lists::new(), Desk::new());
    for edge in EDGES {
        for room in 0..=file.len() + 64 {
            let got = desk.build(&lists, enough(room), room, edge);
            let want = if room < file.len() { refused(plain(Number::FileRoom), room) } else { answered(&file, room) };
            assert_eq!(got, want, "room {room}");
        }
    }
}

#[test]
fn every_working_list() {
    let (file, lists, mut desk) = (three_yards().build().unwrap(), Lists::new(), Desk::new());
    let room = file.len();
    let mut try_with = |change: &dyn Fn(&mut Rooms), fits: bool| {
        let mut rooms = enough(room);
        change(&mut rooms);
        let want = if fits { answered(&file, room) } else { refused(plain(Number::FileRoom), room) };
        for edge in EDGES {
            assert_eq!(desk.build(&lists, rooms, room, edge), want, "{rooms:?}");
        }
    };
    for length in EACH_LENGTH {
        try_with(&|rooms| *length(&mut rooms.work) -= 1, false);
        try_with(&|rooms| *length(&mut rooms.work) = 0, false);
        try_with(&|rooms| *length(&mut rooms.work) += 9, true);
    }
    try_with(&|rooms| rooms.boxes -= 1, false);
    try_with(&|rooms| rooms.boxes = 0, false);
    try_with(&|rooms| rooms.bytes = 0, false);
    try_with(&|rooms| rooms.boxes += 9, true);
    try_with(&|rooms| rooms.bytes += 9, true);
}

/// The data section alone may take as much as the working list of bytes has.
#[test]
fn every_list_of_bytes() {
    let (file, lists, mut desk) = (three_yards().build().unwrap(), Lists::new(), Desk::new());
    let fits: Vec<bool> = (0..=file.len())
        .map(|bytes| {
            let got = desk.build(&lists, enough(bytes), file.len(), Edge::Back);
            let built = got.reply.is_ok();
            let want = if built { answered(&file, file.len()) } else { refused(plain(Number::FileRoom), file.len()) };
            assert_eq!(got, want);
            built
        })
        .collect();
    let least = fits.iter().position(|built| *built).unwrap();
    assert!(0 < least && least < file.len() && fits[least..].iter().all(|built| *built));
}

/// A list that ends before what its yards count.
#[test]
fn lists_that_end_too_early() {
    let (lists, mut desk, room) = (Lists::new(), Desk::new(), 300);
    let mut expect = |cut: fn(&mut Lists), number, detail| {
        let mut lists = lists.clone();
        cut(&mut lists);
        for edge in EDGES {
            assert_eq!(desk.build(&lists, enough(room), room, edge), refused(Refusal { detail, ..plain(number) }, room));
        }
    };
    expect(|lists| lists.lats.truncate(lists.lats.len() - 1), Number::BorderPoints, 0);
    expect(|lists| lists.lons.truncate(lists.lons.len() - 1), Number::BorderPoints, 0);
    expect(|lists| lists.pieces.truncate(lists.pieces.len() - 1), Number::Piece, 0);
    expect(|lists| lists.yards[10] = 2, Number::Piece, 1);
    expect(|lists| lists.lengths.truncate(lists.lengths.len() - 1), Number::Yards, 0);
    expect(|lists| lists.texts.truncate(lists.texts.len() - 1), Number::Text, 0);
    expect(|lists| lists.yards.clear(), Number::Yards, 0);
    expect(|lists| lists.texts[3] = 0xFF, Number::Text, 0);
    // words left over are no yard
    let mut more = lists.clone();
    more.yards.extend([1, 2, 3]);
    assert_eq!(desk.build(&more, enough(room), room, Edge::Back), answered(&three_yards().build().unwrap(), room));
}

#[test]
fn a_built_file_opens_and_finds() {
    for version in [0, 1] {
        let builder = Builder::new(Table::Countries, 16, &["Name", "Of"]).version(version).notice("ours");
        let builder = builder.yard(&OUTER, &["Yard", "Both"]).yard(&HOLE, &["Yard", "Both"]).yard(&SOUTH, &["Other", "Both"]);
        let map = Map::open_strict(builder.build().unwrap()).unwrap();
        let header = map.header();
        assert_eq!((header.table, header.version, header.precision), (Table::Countries, version, 16));
        assert_eq!((header.names.as_slice(), header.notice.as_str()), (["Name", "Of"].map(String::from).as_slice(), "ours"));
        let zones = |lat: f32, lon: f32| {
            let zones = map.lookup(lat * LAT_STEP, lon * LON_STEP).unwrap();
            assert_eq!(zones.end, End::Whole);
            let told = zones.matches.iter().map(|found| (found.fields[0].value.clone(), found.fields[1].value.clone(), found.kind));
            told.collect::<Vec<_>>()
        };
        let yard = ("Yard".to_string(), "Both".to_string(), Kind::InZone);
        assert_eq!(zones(3.1, 3.1), [yard]);
        assert_eq!(zones(5.1, 5.1), []);
        assert_eq!(zones(-15.1, 25.1), [("Other".to_string(), "Both".to_string(), Kind::InZone)]);
        assert_eq!(zones(50.0, 5.1), []);
        // the table is in order: the southern yard, which came last, is its first entry
        assert_eq!(map.lookup(-15.1 * LAT_STEP, 25.1 * LON_STEP).unwrap().matches[0].polygon, 0);
    }
}

#[test]
fn what_is_borrowed_is_the_same() {
    let plain = Builder::new(Table::Countries, 16, &["Name", "Of"]).notice("ours");
    let plain = plain.yard(&OUTER, &["Yard", "Both"]).yard(&HOLE, &["Yard", "Both"]).yard(&SOUTH, &["Other", "Both"]);
    let [plain, borrowed] = [plain, three_yards()].map(|builder| Map::open(builder.build().unwrap()).unwrap());
    assert_ne!(plain.bytes(), borrowed.bytes());
    for lat in -60..60 {
        for lon in 0..60 {
            let (lat, lon) = (lat as f32 * LAT_STEP / 2.0, lon as f32 * LON_STEP / 2.0);
            let [a, b] = [&plain, &borrowed].map(|map| map.lookup(lat, lon).unwrap());
            let told = |zones: &uskelzar::Zones| zones.matches.iter().map(|found| (found.polygon, found.metadata, found.kind, found.fields.clone())).collect::<Vec<_>>();
            assert_eq!((told(&a), a.safezone.to_bits()), (told(&b), b.safezone.to_bits()));
        }
    }
}

fn not_built(builder: Builder) -> NotBuilt {
    builder.build().expect_err("a refusal")
}

#[test]
fn a_refusal_names_its_yard() {
    let named = || Builder::new(Table::Countries, 16, &["Name"]).yard(&OUTER, &["A"]).yard(&HOLE, &["B"]);
    let at = |place, number| NotBuilt { place, why: plain(number) };
    let far = [(1 << 30, 1), (2, 2), (3, 3)];
    let long = "x".repeat(256);
    assert_eq!(not_built(named().yard(&[], &["C"])), at(Place::Yard(2), Number::BorderPoints));
    assert_eq!(not_built(named().yard(&far, &["C"]).yard(&[], &["C"])), at(Place::Yard(2), Number::Coordinate));
    assert_eq!(not_built(named().yard(&[(1, 1), (1, 1)], &["C"])), at(Place::Yard(2), Number::RepeatedPoint));
    assert_eq!(not_built(named().yard(&[(0, 0), (1, 1)], &["C"])), at(Place::Yard(2), Number::FirstPointZero));
    assert_eq!(not_built(named().yard(&OUTER, &[])), at(Place::Yard(2), Number::Yards));
    assert_eq!(not_built(named().yard(&OUTER, &["C", "D"])), at(Place::Yard(2), Number::Yards));
    assert_eq!(not_built(named().yard(&OUTER, &[&long])), at(Place::Value { yard: 2, field: 0 }, Number::Text));
    assert_eq!(not_built(named().notice(&long)), at(Place::Notice, Number::Text));
    assert_eq!(not_built(Builder::new(Table::Countries, 16, &["", &long]).yard(&OUTER, &["", ""])), at(Place::Name(1), Number::Text));
    assert_eq!(not_built(named().version(2)), at(Place::File, Number::Form));
    assert_eq!(not_built(named().room(40)), at(Place::File, Number::FileRoom));
    assert_eq!(not_built(named().room(12)), at(Place::Yard(1), Number::FileRoom));
    assert_eq!(not_built(Builder::new(Table::TimeZones, 16, &[])), at(Place::File, Number::Yards));
    let bad = Piece { first: 0, ..BORROWED };
    let piece = NotBuilt { place: Place::Yard(2), why: Refusal { detail: 1, ..plain(Number::Piece) } };
    assert_eq!(not_built(named().yard_with(&SOUTH, &[BORROWED, bad], &["C"])), piece);
    assert_eq!(piece.to_string(), "yard 2: refusal 23: piece list (index 1)");
    assert_eq!(not_built(named().version(0).yard_with(&SOUTH, &[BORROWED], &["C"])).place, Place::Yard(2));
    for precision in [0, 32, 255] {
        assert_eq!(not_built(Builder::new(Table::TimeZones, precision, &[]).yard(&OUTER, &[])), at(Place::File, Number::Form));
    }
    let value = at(Place::Value { yard: 2, field: 0 }, Number::Text);
    assert_eq!(value.to_string(), "yard 2, value 0: refusal 26: a text over 255 bytes or not UTF-8");
}

#[test]
fn the_most_yards_and_names() {
    let names = vec!["n"; 256];
    let values: Vec<String> = (0..255).map(|i| format!("{}", i % 7)).collect();
    let values: Vec<&str> = values.iter().map(String::as_str).collect();
    let mut all = Builder::new(Table::TimeZones, 20, &names[..255]);
    for i in 0..4096 {
        let (lat, lon) = (i % 64, i / 64);
        all = all.yard(&[(lat + 1, lon), (lat + 2, lon), (lat + 1, lon + 1)], &values);
    }
    let map = Map::open(all.build().unwrap()).unwrap();
    assert_eq!(map.entries().unwrap().filter_map(Result::ok).count(), 4096);
    assert_eq!(map.header().names.len(), 255);
    assert_eq!(not_built(all.yard(&OUTER, &values)), NotBuilt { place: Place::File, why: plain(Number::Yards) });
    let over = Builder::new(Table::TimeZones, 20, &names).yard(&OUTER, &names);
    assert_eq!(not_built(over), NotBuilt { place: Place::File, why: plain(Number::Yards) });
}

#[test]
fn texts_of_every_length() {
    for length in [0, 1, 127, 128, 254, 255] {
        let text = "y".repeat(length);
        let map = Map::open(Builder::new(Table::Countries, 16, &[&text]).notice(&text).yard(&OUTER, &[&text]).yard(&SOUTH, &["z"]).build().unwrap()).unwrap();
        assert_eq!((map.header().names[0].as_str(), map.header().notice.as_str()), (text.as_str(), text.as_str()));
        let found = map.lookup(5.1 * LAT_STEP, 5.1 * LON_STEP).unwrap();
        assert_eq!(found.matches[0].fields[0].value, text);
    }
}

#[test]
fn yards_in_degrees() {
    let names = ["Name"];
    let builder = |precision| Builder::new(Table::Countries, precision, &names);
    let degrees = |points: &[(i32, i32)]| points.iter().map(|&(lat, lon)| (f64::from(lat) * 90.0 / 32_768.0, f64::from(lon) * 180.0 / 32_768.0)).collect::<Vec<_>>();
    let plain = builder(16).yard(&OUTER, &["A"]).yard(&SOUTH, &["B"]).build().unwrap();
    // near its points, closed, and with a point twice
    let mut outer: Vec<(f64, f64)> = degrees(&OUTER).iter().map(|(lat, lon)| (lat + 0.001, lon - 0.002)).collect();
    outer.insert(1, outer[0]);
    outer.push(outer[0]);
    assert_eq!(builder(16).yard_degrees(&outer, &["A"]).yard_degrees(&degrees(&SOUTH), &["B"]).build().unwrap(), plain);
    for bad in [(90.1, 0.0), (0.0, -180.1), (f64::NAN, 0.0), (0.0, f64::INFINITY)] {
        let not_built = NotBuilt { place: Place::Yard(1), why: Refusal { number: Number::NoPlace, cause: None, detail: 0 } };
        let builder = builder(16).yard(&OUTER, &["A"]).yard_degrees(&[(1.0, 1.0), bad, (2.0, 2.0)], &["B"]).yard_degrees(&[bad], &["C"]);
        assert_eq!(builder.build(), Err(not_built));
        assert_eq!(builder.begin().err(), Some(not_built));
    }
    // a ring of which the grid leaves one point, and the poles and the date line
    assert_eq!(builder(2).yard_degrees(&[(50.0, 1.0), (50.1, 1.0), (50.0, 1.1)], &["A"]).build(), builder(2).yard(&[(1, 0)], &["A"]).build());
    assert!(builder(20).yard_degrees(&[(-90.0, -180.0), (-90.0, 180.0), (90.0, 180.0), (90.0, -180.0)], &["A"]).build().is_ok());
}
