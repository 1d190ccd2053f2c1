//! Builders that hold yards: totals against those of a file built afresh, every refusal, room that is freed; and every list at pages that may not be touched, in every room.
#![cfg(feature = "office")]

mod common;

use common::desk::{is_zero, FencedDesk, Left, EACH_LENGTH};
use common::fence::{Edge, Fence, EDGES};
use common::Dice;
use uskelzar::raw::{self, Holding, Lengths, NoteLengths, Notes, Offer, Reply, Start, State, Work, STATE_WORDS};
use uskelzar::{Builder, Draft, Map, NotBuilt, Number, Piece, Place, Refusal, Table, Totals};

type Point = (i32, i32);

const OUTER: [Point; 4] = [(2, 2), (10, 2), (10, 10), (2, 10)];
const HOLE: [Point; 4] = [(4, 4), (4, 8), (8, 8), (8, 4)];
/// South of the equator; its second and third moves are those of OUTER.
const SOUTH: [Point; 4] = [(-20, 20), (-12, 20), (-12, 28), (-20, 28)];
/// The second and third moves of OUTER, where it is the first border.
const BORROWED: Piece = Piece {
    start: 2,
    bytes: 4,
    backward: false,
    first: 1,
    count: 2,
};

fn plain(number: Number) -> Refusal {
    Refusal {
        number,
        cause: None,
        detail: 0,
    }
}

/// A draft, with the yards that it should hold.
struct Tried {
    form: Builder,
    draft: Draft,
    yards: Vec<(Vec<Point>, Vec<String>)>,
}

impl Tried {
    fn new(form: Builder) -> Tried {
        let draft = form.begin().unwrap();
        let tried = Tried { form, draft, yards: vec![] };
        tried.assert_fresh();
        tried
    }

    fn fresh(&self) -> Builder {
        let yard = |builder: Builder, (points, values): &(Vec<Point>, Vec<String>)| {
            let values: Vec<&str> = values.iter().map(String::as_str).collect();
            builder.yard(points, &values)
        };
        self.yards.iter().fold(self.form.clone().room(1 << 30), yard)
    }

    /// The totals are those of a file that is built afresh, and the end gives that file.
    fn assert_fresh(&self) {
        let totals = self.draft.totals();
        let Ok(file) = self.fresh().build() else {
            assert_eq!(totals, Totals { data: 1, ..Totals::default() });
            return;
        };
        let sizes = Map::open(file.as_slice()).unwrap().sizes().unwrap();
        let lowest = |(points, _): &(Vec<Point>, Vec<String>)| points.iter().map(|point| point.0).min().unwrap();
        assert_eq!((totals.table, totals.metadata, totals.data), (sizes.table, sizes.metadata, sizes.data));
        assert_eq!((totals.yards, Some(totals.greatest)), (self.yards.len(), self.yards.iter().map(lowest).max()));
        if let Ok(ended) = self.draft.clone().finish() {
            assert_eq!(ended, file);
        }
    }

    fn add(&mut self, points: &[Point], values: &[&str]) -> Result<Totals, Refusal> {
        let told = self.draft.add(points, values);
        if told.is_ok() {
            self.yards.push((points.to_vec(), values.iter().map(|value| value.to_string()).collect()));
        }
        self.assert_fresh();
        told
    }

    fn drop_last(&mut self) -> Result<Totals, Refusal> {
        let told = self.draft.drop_last();
        if told.is_ok() {
            self.yards.pop();
        }
        self.assert_fresh();
        told
    }

    fn replace(&mut self, yard: usize, field: usize, value: &str) -> Result<Totals, Refusal> {
        let told = self.draft.replace(yard, field, value);
        if told.is_ok() {
            self.yards[yard].1[field] = value.to_string();
        }
        self.assert_fresh();
        told
    }

    fn clear(&mut self) {
        self.draft.clear();
        self.yards.clear();
        self.assert_fresh();
    }
}

fn two_names() -> Builder {
    Builder::new(Table::Countries, 16, &["Name", "Of"]).notice("ours")
}

#[test]
fn totals_are_those_of_a_fresh_file() {
    for version in [0, 1] {
        let mut tried = Tried::new(two_names().version(version));
        tried.add(&OUTER, &["Yard", "Both"]).unwrap();
        tried.add(&HOLE, &["Yard", "Both"]).unwrap();
        // a record of its own; "Both" turns remote
        tried.add(&SOUTH, &["Other", "Both"]).unwrap();
        // parted from its record, joined again, the same again, empty
        for value in ["Hole", "Yard", "Yard", ""] {
            tried.replace(1, 0, value).unwrap();
        }
        // "Both" turns inline again
        tried.drop_last().unwrap();
        tried.drop_last().unwrap();
        tried.add(&SOUTH, &["Yard", "Yard"]).unwrap();
        tried.clear();
        tried.add(&HOLE, &["", ""]).unwrap();
        tried.drop_last().unwrap();
        assert_eq!(tried.drop_last(), Err(plain(Number::NoYard)));
    }
}

#[test]
fn the_greatest_of_southern_yards_is_below_zero() {
    let mut tried = Tried::new(two_names());
    let further: Vec<Point> = SOUTH.iter().map(|point| (point.0 - 30, point.1)).collect();
    assert_eq!(tried.draft.totals().greatest, 0);
    assert_eq!(tried.add(&further, &["A", "B"]).unwrap().greatest, -50);
    assert_eq!(tried.add(&SOUTH, &["A", "B"]).unwrap().greatest, -20);
    assert_eq!(tried.add(&further, &["A", "B"]).unwrap().greatest, -20);
    assert_eq!(tried.drop_last().unwrap().greatest, -20);
    assert_eq!(tried.drop_last().unwrap().greatest, -50);
}

#[test]
fn every_refusal() {
    let mut tried = Tried::new(two_names());
    let (far, long) = ([(1 << 30, 1), (2, 2), (3, 3)], "x".repeat(256));
    assert_eq!(tried.drop_last(), Err(plain(Number::NoYard)));
    assert_eq!(tried.replace(0, 0, &long), Err(plain(Number::NoValue)));
    assert_eq!(tried.draft.finish(), Err(plain(Number::Yards)));
    tried.add(&OUTER, &["Yard", "Both"]).unwrap();
    assert_eq!(tried.add(&[], &["C"]), Err(plain(Number::BorderPoints)));
    assert_eq!(tried.add(&far, &["C"]), Err(plain(Number::Coordinate)));
    assert_eq!(tried.add(&[(1, 1), (1, 1)], &["C"]), Err(plain(Number::RepeatedPoint)));
    assert_eq!(tried.add(&[(0, 0), (1, 1)], &["C"]), Err(plain(Number::FirstPointZero)));
    assert_eq!(tried.add(&HOLE, &[&long]), Err(plain(Number::Yards)));
    assert_eq!(tried.add(&HOLE, &["C", "D", "E"]), Err(plain(Number::Yards)));
    assert_eq!(tried.add(&HOLE, &["C", &long]), Err(plain(Number::Text)));
    let bad = Piece { first: 0, ..BORROWED };
    let piece = |detail| Err(Refusal { detail, ..plain(Number::Piece) });
    assert_eq!(tried.draft.add_with(&SOUTH, &[bad], &["C", &long]), Err(plain(Number::Text)));
    assert_eq!(tried.draft.add_with(&SOUTH, &[BORROWED, bad], &["C", "D"]), piece(1));
    tried.assert_fresh();
    for (yard, field) in [(1, 0), (0, 2), (usize::MAX, 0), (0, usize::MAX)] {
        assert_eq!(tried.replace(yard, field, &long), Err(plain(Number::NoValue)));
    }
    assert_eq!(tried.replace(0, 1, &long), Err(plain(Number::Text)));
    tried.draft.add_with(&SOUTH, &[BORROWED], &["C", "D"]).unwrap();
    assert!(tried.draft.totals().data < tried.draft.clone().add(&SOUTH, &["C", "D"]).unwrap().data);
}

fn not_begun(builder: Builder) -> NotBuilt {
    builder.begin().expect_err("a refusal")
}

#[test]
fn a_refused_begin_names_its_place() {
    let at = |place, number| NotBuilt { place, why: plain(number) };
    let (many, long) = (vec!["n"; 256], "x".repeat(256));
    assert_eq!(not_begun(Builder::new(Table::TimeZones, 16, &many)), at(Place::File, Number::Yards));
    assert_eq!(not_begun(Builder::new(Table::TimeZones, 0, &["", &long])), at(Place::Name(1), Number::Text));
    assert_eq!(not_begun(two_names().notice(&long)), at(Place::Notice, Number::Text));
    assert_eq!(not_begun(two_names().version(2)), at(Place::File, Number::Form));
    assert_eq!(not_begun(Builder::new(Table::TimeZones, 32, &[])), at(Place::File, Number::Form));
    // yards that were given before come with it
    let both = two_names().yard(&OUTER, &["A", "B"]).yard(&HOLE, &["C", "D"]);
    assert_eq!(both.begin().unwrap().finish().unwrap(), both.build().unwrap());
    assert_eq!(not_begun(both.clone().yard(&HOLE, &["C"])), at(Place::Yard(2), Number::Yards));
    assert_eq!(not_begun(both.clone().yard(&HOLE, &["C", &long])), at(Place::Value { yard: 2, field: 1 }, Number::Text));
    assert_eq!(not_begun(both.clone().yard(&[], &["C", "D"])), at(Place::Yard(2), Number::BorderPoints));
    let size = both.build().unwrap().len();
    assert_eq!(not_begun(both.room(size - 1)), at(Place::Yard(1), Number::FileRoom));
}

/// What was freed is there for the next yard, to the byte.
#[test]
fn freed_room_is_used_again() {
    let full = two_names().yard(&OUTER, &["Yard", "Both"]).yard(&HOLE, &["Hole", "Of it"]).build().unwrap();
    let no_room = Err(plain(Number::FileRoom));
    let mut tried = Tried::new(two_names().room(full.len()));
    tried.add(&OUTER, &["Yard", "Both"]).unwrap();
    assert_eq!(tried.add(&HOLE, &["Hole", "Of it."]), no_room);
    for _ in 0..3 {
        tried.add(&HOLE, &["Hole", "Of it"]).unwrap();
        assert_eq!(tried.add(&HOLE, &["", ""]), no_room);
        assert_eq!(tried.replace(0, 0, "Yards"), no_room);
        assert_eq!(tried.draft.finish().unwrap(), full);
        tried.drop_last().unwrap();
    }
    tried.replace(0, 0, "").unwrap();
    tried.add(&HOLE, &["Hole", "Of it all"]).unwrap();
    tried.clear();
    tried.add(&OUTER, &["Yard", "Both"]).unwrap();
    tried.add(&HOLE, &["Hole", "Of it"]).unwrap();
    assert_eq!(tried.draft.finish().unwrap(), full);
}

/// A text that two records have stands once behind the records. Without the second it stands in the first, and moves the other texts so far that each word for one
/// takes a byte more.
#[test]
fn a_drop_can_make_the_file_longer() {
    let names = ["0", "1", "2", "3", "4", "5", "6", "7", "8", "9"];
    let values = |own: &str, last: &str| ["a", "a", "a", "a", "a", "a", "a", "a", own, last].map(String::from);
    let long = |length: usize, yard: usize, field: char| format!("{yard:02}{field}{}", "-".repeat(length - 3));
    let shared = "V".repeat(255);
    let mut yards: Vec<[String; 10]> = (0..35).map(|k| values(&long(215, k, ':'), &long(215, k, ';'))).collect();
    yards.extend([values("x", &shared), values("y", &shared)]);
    let add = |draft: &mut Draft, values: &[String; 10]| draft.add(&OUTER, &values.each_ref().map(String::as_str));
    // once both yards with the shared text are held, there is room for longer values
    let filled = |room| {
        let mut draft = Builder::new(Table::Countries, 16, &names).room(room).begin().unwrap();
        for values in &yards {
            add(&mut draft, values).unwrap();
        }
        for yard in 0..3 {
            draft.replace(yard, 8, &long(255, yard, ':')).unwrap();
            draft.replace(yard, 9, &long(255, yard, ';')).unwrap();
        }
        draft
    };
    let file = filled(1 << 20).finish().unwrap();
    let mut full = filled(file.len());
    let before = full.totals();
    let after = full.drop_last().unwrap();
    assert!(before.metadata + 200 < after.metadata, "{before:?} {after:?}");
    assert_eq!(full.finish(), Err(plain(Number::FileRoom)));
    assert_eq!(full.replace(0, 0, "a"), Err(plain(Number::FileRoom)));
    assert_eq!(full.totals(), after);
    // an add can make it shorter by the same way back
    assert_eq!(add(&mut full, &yards[36]), Ok(before));
    assert_eq!(full.finish().unwrap(), file);
}

#[test]
fn the_last_yard() {
    let mut draft = Builder::new(Table::TimeZones, 20, &[]).begin().unwrap();
    for i in 0..4096 {
        let (lat, lon) = (i % 64, i / 64);
        draft.add(&[(lat + 1, lon), (lat + 2, lon), (lat + 1, lon + 1)], &[]).unwrap();
    }
    let totals = draft.totals();
    assert_eq!((totals.yards, totals.greatest), (4096, 64));
    assert_eq!(draft.add(&OUTER, &["one too many"]), Err(plain(Number::Yards)));
    assert_eq!(draft.add(&OUTER, &[]), Err(plain(Number::Yards)));
    assert_eq!(draft.totals(), totals);
    let map = Map::open(draft.finish().unwrap()).unwrap();
    assert_eq!(map.entries().unwrap().filter_map(Result::ok).count(), 4096);
    draft.drop_last().unwrap();
    draft.add(&OUTER, &[]).unwrap();
}

/// Values for a yard: those of one that is held, or some of its own, of few, of none, of many bytes, twice the same.
fn some_values(dice: &mut Dice, names: usize, held: &[(Vec<Point>, Vec<String>)]) -> Vec<String> {
    if !held.is_empty() && dice.below(3) == 0 {
        return held[dice.below(held.len())].1.clone();
    }
    let (own, twice) = (dice.below(1000), dice.below(8) == 0);
    let value = |field: usize| match (twice, dice.below(8)) {
        (true, _) => "twice".to_string(),
        (_, 0) => String::new(),
        (_, 1 | 2) => ["a", "b", "c", "d"][dice.below(4)].to_string(),
        (_, 3) => format!("{own}.{field}").repeat(1 + dice.below(30)),
        _ => format!("Yard {own}.{field}"),
    };
    (0..names).map(value).collect()
}

/// Calls of every kind, one of some values each; after each the totals are those of a builder that gets the held yards one by one, and of the file.
fn try_calls(form: Builder, names: usize, calls: usize, mut dice: Dice) {
    let mut tried = Tried::new(form);
    for _ in 0..calls {
        let values = some_values(&mut dice, names, &tried.yards);
        let (yard, field) = (dice.below(tried.yards.len().max(1)), dice.below(names.max(1)));
        let told = match dice.below(40) {
            0 => {
                tried.clear();
                Ok(())
            }
            1..=7 => tried.drop_last().map(drop),
            8..=12 if names > 0 => tried.replace(yard, field, &values[field]).map(drop),
            _ => {
                let (lat, lon) = (dice.below(400) as i32 - 200, dice.below(400) as i32);
                let values: Vec<&str> = values.iter().map(String::as_str).collect();
                tried.add(&[(lat, lon + 1), (lat + 5, lon + 1), (lat + 5, lon + 9)], &values).map(drop)
            }
        };
        let empty = tried.yards.is_empty();
        assert!(told.is_ok() || (empty && matches!(told, Err(why) if why == plain(Number::NoYard) || why == plain(Number::NoValue))), "{told:?}");
        let mut fresh = tried.form.begin().unwrap();
        for (points, values) in &tried.yards {
            fresh.add(points, &values.iter().map(String::as_str).collect::<Vec<&str>>()).unwrap();
        }
        assert_eq!(fresh.totals(), tried.draft.totals());
    }
}

#[test]
fn some_calls_of_every_kind() {
    try_calls(two_names().room(1 << 20), 2, 300, Dice(5));
    try_calls(Builder::new(Table::TimeZones, 20, &[]).version(0).room(1 << 20), 0, 60, Dice(6));
    // so many bytes of values that words for them take a byte more
    let names = ["0", "1", "2", "3", "4", "5", "6", "7", "8", "9", "10", "11"];
    try_calls(Builder::new(Table::Countries, 16, &names).room(1 << 20), 12, 150, Dice(7));
}

/// Many yards, of which every tenth has the file of a builder that was given them at once.
#[test]
fn many_adds() {
    let values = |i: usize| [format!("Yard {i}"), format!("use {}", i % 7), "Asia/Pontianak".to_string()];
    let form = Builder::new(Table::TimeZones, 20, &["Name", "Use", "Zone"]);
    let (mut draft, mut all) = (form.begin().unwrap(), form);
    for i in 0..400 {
        let (lat, lon) = (i as i32 * 7919 % 400, i as i32);
        let (points, values) = ([(lat + 1, lon), (lat + 2, lon), (lat + 1, lon + 1)], values(i));
        let values = values.each_ref().map(String::as_str);
        draft.add(&points, &values).unwrap();
        all = all.yard(&points, &values);
        if i % 10 == 9 {
            assert!(draft.finish().unwrap() == all.build().unwrap(), "{i}");
        }
    }
}

// ---- over lent lists

/// A builder's numbers and lists.
#[derive(Clone, Debug, PartialEq)]
struct Kept {
    state: State,
    boxes: Vec<i32>,
    borders: Vec<u32>,
    lengths: Vec<u32>,
    texts: Vec<u8>,
    bytes: Vec<u8>,
    notes: [Vec<u32>; 4],
}

/// How long they are.
#[derive(Clone, Copy, Debug)]
struct Rooms {
    boxes: usize,
    borders: usize,
    lengths: usize,
    texts: usize,
    bytes: usize,
    notes: NoteLengths,
}

type Room = fn(&mut Rooms) -> &mut usize;

const EACH_ROOM: [Room; 5] =
    [|rooms| &mut rooms.boxes, |rooms| &mut rooms.borders, |rooms| &mut rooms.lengths, |rooms| &mut rooms.texts, |rooms| &mut rooms.bytes];

const EACH_NOTE: [Room; 4] =
    [|rooms| &mut rooms.notes.marks, |rooms| &mut rooms.notes.chains, |rooms| &mut rooms.notes.groups, |rooms| &mut rooms.notes.begins];

/// What so many of the yards of `offers` need, under the names "Name" and "Of" and the notice "ours".
fn rooms_for(yards: usize) -> Rooms {
    Rooms {
        boxes: 4 * yards,
        borders: yards,
        lengths: 3 + 2 * yards,
        texts: [10, 18, 27][yards],
        bytes: [1, 10, 19][yards],
        notes: NoteLengths::of(yards, 2),
    }
}

/// And to work in.
fn work_for(yards: usize) -> Lengths {
    Lengths::of(yards, 2, [0, 8, 17][yards])
}

impl Kept {
    fn of(rooms: Rooms) -> Kept {
        Kept {
            state: [0xAAAA_AAAA_AAAA_AAAA; STATE_WORDS],
            boxes: vec![-0x5555_5556; rooms.boxes],
            borders: vec![0xAAAA_AAAA; rooms.borders],
            lengths: vec![0xAAAA_AAAA; rooms.lengths],
            texts: vec![0xAA; rooms.texts],
            bytes: vec![0xAA; rooms.bytes],
            notes: [rooms.notes.marks, rooms.notes.chains, rooms.notes.groups, rooms.notes.begins].map(|room| vec![0xAAAA_AAAA; room]),
        }
    }

    /// The notes apart.
    fn is_zero(&self) -> bool {
        let lists = [is_zero(&self.boxes), is_zero(&self.borders), is_zero(&self.lengths), is_zero(&self.texts), is_zero(&self.bytes)];
        is_zero(&self.state) && lists == [true; 5]
    }
}

/// The state, its five lists, its four notes and the output, each between guards; and the working lists.
struct Lent {
    fences: [Fence; 11],
    desk: FencedDesk,
}

/// What a call leaves.
#[derive(Debug, PartialEq)]
struct Outcome {
    reply: Result<Reply, Refusal>,
    kept: Kept,
    out: Vec<u8>,
    left: Left,
}

type Call<'a> = &'a dyn Fn(&mut State, Holding, Notes, Work, &mut [u8]) -> Result<Reply, Refusal>;

impl Lent {
    fn new() -> Lent {
        Lent {
            fences: [(); 11].map(|()| Fence::new(1024)),
            desk: FencedDesk::new(),
        }
    }

    fn call(&mut self, before: &Kept, lengths: Lengths, room: usize, edge: Edge, call: Call) -> Outcome {
        let [a, b, c, d, e, f, g, notes @ ..] = &mut self.fences;
        let state: &mut State = a.hold(&before.state, edge).try_into().unwrap();
        let boxes = b.hold(&before.boxes, edge);
        let borders = c.hold(&before.borders, edge);
        let list = d.hold(&before.lengths, edge);
        let texts = e.hold(&before.texts, edge);
        let bytes = f.hold(&before.bytes, edge);
        let out: &mut [u8] = g.lend(room, edge);
        let [h, i, j, k] = notes;
        let [marks, chains, groups, begins] = [(h, 0), (i, 1), (j, 2), (k, 3)].map(|(fence, at): (&mut Fence, usize)| fence.hold(&before.notes[at], edge));
        let (reply, left) = self.desk.work(lengths, edge, |work| {
            let notes = Notes { marks, chains, groups, begins };
            call(state, Holding { boxes, borders, lengths: list, texts, bytes }, notes, work, out)
        });
        let kept = Kept {
            state: *state,
            boxes: boxes.to_vec(),
            borders: borders.to_vec(),
            lengths: list.to_vec(),
            texts: texts.to_vec(),
            bytes: bytes.to_vec(),
            notes: [marks, chains, groups, begins].map(|list| list.to_vec()),
        };
        let outcome = Outcome { reply, kept, out: out.to_vec(), left };
        let own = [8 * STATE_WORDS, 4 * before.boxes.len(), 4 * before.borders.len(), 4 * before.lengths.len(), before.texts.len(), before.bytes.len(), room];
        let sizes = own.into_iter().chain(before.notes.iter().map(|list| 4 * list.len()));
        for (fence, size) in self.fences.iter_mut().zip(sizes) {
            fence.assert_kept(size, edge);
        }
        outcome
    }
}

const START: Start = Start {
    kind: b'C',
    version: 1,
    precision: 16,
    names: 2,
    room: 1000,
    lengths: &[4, 2, 4],
    texts: b"NameOfours",
};

fn offers() -> [Offer<'static>; 2] {
    let offer = |lats, lons, lengths, texts| Offer { lats, lons, pieces: &[], lengths, texts };
    [offer(&[2, 10, 10, 2], &[2, 2, 10, 10], &[4, 4], b"YardBoth"), offer(&[4, 4, 8, 8], &[4, 8, 8, 4], &[4, 5], b"HoleOther")]
}

/// The builder with so many of the yards, in lists of these lengths.
fn holding(yards: usize, rooms: Rooms) -> Kept {
    let mut lent = Lent::new();
    let begun = lent.call(&Kept::of(rooms), work_for(0), 0, Edge::Back, &|state, holding, _, _, _| raw::begin(&START, state, holding));
    assert!(begun.reply.is_ok());
    let add = |kept: Kept, offer: &Offer| {
        let added = lent.call(&kept, work_for(2), 64, Edge::Back, &|state, holding, notes, work, out| raw::add(offer, state, holding, notes, work, out));
        assert!(added.reply.is_ok(), "{added:?}");
        added.kept
    };
    offers()[..yards].iter().fold(begun.kept, add)
}

/// How a call may leave the lists to work in: zero, and an add as they were too.
const ZERO: &[Left] = &[Left::Zero];
const ZERO_OR_NOT: &[Left] = &[Left::Zero, Left::Untouched];

/// A refusal that leaves the builder as it was, and zeros elsewhere.
fn assert_refused(got: &Outcome, number: Number, before: &Kept, lefts: &[Left]) {
    assert_eq!(got.reply, Err(plain(number)));
    assert!(got.kept == *before && lefts.contains(&got.left) && is_zero(&got.out), "{got:?}");
}

const AMPLE: usize = 128;

/// A call in every room of the output, of which it needs so much, and with each working list from nothing to what it needs.
fn try_call(before: &Kept, work: Lengths, least: usize, lefts: &[Left], call: Call) {
    let mut lent = Lent::new();
    let ample = lent.call(before, work, AMPLE, Edge::Back, call);
    assert!(ample.reply.is_ok() && lefts.contains(&ample.left), "{ample:?}");
    for edge in EDGES {
        for room in 0..=AMPLE {
            let got = lent.call(before, work, room, edge, call);
            if room < least {
                assert_refused(&got, Number::FileRoom, before, lefts);
            } else {
                assert_eq!((got.reply, &got.kept, &got.out[..], got.left), (ample.reply, &ample.kept, &ample.out[..room], ample.left));
            }
        }
        for length in EACH_LENGTH {
            let mut lengths = work;
            for short in 0..*length(&mut lengths) {
                *length(&mut lengths) = short;
                assert_refused(&lent.call(before, lengths, AMPLE, edge, call), Number::FileRoom, before, lefts);
            }
        }
    }
}

/// A call on the builder with so many yards, with each of its lists from what these need to what `need` says.
fn try_own(yards: usize, need: Rooms, lefts: &[Left], call: Call) {
    let mut lent = Lent::new();
    for room in EACH_ROOM.into_iter().chain(EACH_NOTE) {
        for short in *room(&mut rooms_for(yards))..*room(&mut need.clone()) {
            let mut rooms = need;
            *room(&mut rooms) = short;
            let before = holding(yards, rooms);
            for edge in EDGES {
                assert_refused(&lent.call(&before, work_for(2), AMPLE, edge, call), Number::FileRoom, &before, lefts);
            }
        }
    }
}

/// A yard of so many points, up one side and down the other.
fn ring(points: i32) -> (Vec<i32>, Vec<i32>) {
    (1..=points).map(|k| if 2 * k <= points { (k, 1) } else { (points - k, 5) }).unzip()
}

/// The notes of a builder with one yard, each in every room from 0 to 64 words, and as many behind 4,096: 28 where one is too short for a second yard.
#[test]
fn notes_in_every_room() {
    let mut lent = Lent::new();
    let (good, need) = (holding(1, rooms_for(2)), rooms_for(2));
    let call: Call = &|state, holding, notes, work, out| raw::add(&offers()[1], state, holding, notes, work, out);
    let ample = lent.call(&good, work_for(2), AMPLE, Edge::Back, call);
    for (at, note) in EACH_NOTE.into_iter().enumerate() {
        for room in (0..=64).chain(4096..=4160) {
            let mut before = good.clone();
            before.notes[at].resize(room, 0);
            for edge in EDGES {
                let got = lent.call(&before, work_for(2), AMPLE, edge, call);
                if room < *note(&mut need.clone()) {
                    assert_refused(&got, Number::FileRoom, &before, ZERO_OR_NOT);
                } else {
                    assert_eq!((got.reply, &got.kept.texts, got.kept.state), (ample.reply, &ample.kept.texts, ample.kept.state));
                }
            }
        }
    }
}

/// Of the output only what a border of so many points can take is used, and zero afterwards.
#[test]
fn the_output_behind_a_border() {
    let mut lent = Lent::new();
    for points in [3, 4, 20] {
        let (lats, lons) = ring(points);
        let used = 170 * points as usize + 400;
        let good = Offer { lats: &lats, lons: &lons, ..offers()[1] };
        for (offer, fits) in [(good, true), (Offer { lengths: &[4], ..good }, false), (Offer { pieces: &[0; 5], ..good }, false)] {
            let rooms = Rooms { bytes: 400, ..rooms_for(2) };
            for room in [used - 1, used, used + 1, used + 700] {
                let got = lent.call(&holding(1, rooms), work_for(2), room, Edge::Front, &|state, holding, notes, work, out| {
                    raw::add(&offer, state, holding, notes, work, out)
                });
                assert_eq!(got.reply.is_ok(), fits, "{got:?}");
                let (front, rest) = got.out.split_at(used.min(room));
                assert!(is_zero(front) && rest.iter().all(|byte| *byte == 0xAA), "{points} points, {room} bytes");
            }
        }
    }
}

/// Whatever refuses an add, state, lists and notes are as they were, to the byte.
#[test]
fn a_refused_add_changes_nothing() {
    let mut lent = Lent::new();
    let [first, second] = offers();
    let (far, long) = ([1 << 30, 4, 8, 8], [b'x'; 260]);
    let bad: [(u8, Offer); 8] = [
        (19, Offer { lons: &[4], ..second }),
        (20, Offer { lats: &far, ..second }),
        (21, Offer { lats: &[4, 4, 8, 8], lons: &[4, 4, 8, 4], ..second }),
        (22, Offer { lats: &[0, 4, 8, 8], lons: &[0, 8, 8, 4], ..second }),
        (25, Offer { lengths: &[4], ..second }),
        (26, Offer { lengths: &[4, 256], texts: &long, ..second }),
        (26, Offer { texts: b"H\xFFle", ..second }),
        (23, Offer { pieces: &[9, 9, 9, 9, 9], ..second }),
    ];
    // not noted yet, noted by a fresh sum, noted by a step; a yard that shares a record and one of its own, of which the file has no room
    for yards in 0..=2 {
        let mut before = holding(yards, Rooms { texts: 400, bytes: 100, ..rooms_for(2) });
        for (at, more) in [6, 3, 3, 2].into_iter().enumerate() {
            let length = before.notes[at].len() + more;
            before.notes[at].resize(length, 0);
        }
        before.boxes.resize(16, 0);
        before.borders.resize(4, 0);
        before.lengths.resize(20, 0);
        let mut assert_same = |offer: &Offer, before: &Kept, number: u8| {
            let got = lent.call(before, Lengths::of(4, 2, 400), AMPLE, Edge::Back, &|state, holding, notes, work, out| raw::add(offer, state, holding, notes, work, out));
            assert_eq!(got.reply.map_err(|why| why.number as u8), Err(number));
            assert!(got.kept == *before, "{number}");
        };
        for (number, offer) in &bad {
            assert_same(offer, &before, *number);
        }
        // the room of the file is the fifth word of the state: as it is now, it is full
        let totals = before.state;
        before.state[4] = totals[5] + totals[8] + totals[9] + totals[10] + 3;
        assert_same(&first, &before, 28);
        assert_same(&second, &before, 28);
        assert_same(&Offer { lengths: &[1, 1], texts: b"uv", ..second }, &before, 28);
    }
}

/// Notes that no add has left, with every number for them: each call ends, and touches nothing else; a refusal leaves state and lists. The guards see to the rest.
#[test]
fn forged_notes() {
    let (mut lent, mut dice) = (Lent::new(), Dice(9));
    let good = holding(2, Rooms { boxes: 12, borders: 3, lengths: 9, texts: 60, bytes: 40, notes: NoteLengths::of(3, 2) });
    let more = [
        Offer { lengths: &[4, 4], texts: b"YardBoth", ..offers()[1] },
        Offer { lengths: &[3, 5], texts: b"OwnOther", ..offers()[0] },
        Offer { lengths: &[1, 0], texts: b"u", ..offers()[0] },
    ];
    for turn in 0..3000 {
        let mut before = good.clone();
        let most = [4, 8, 5000, u64::from(u32::MAX) + 1][turn % 4];
        for word in before.notes.iter_mut().flatten() {
            *word = (dice.any() % most) as u32;
        }
        // the number for them, and now and then one of the totals
        before.state[13] = [before.state[13], 1, 1 + dice.any() % 64, 1 << 30, dice.any(), u64::MAX][dice.below(6)];
        if turn % 5 == 0 {
            before.state[[8, 9, 12][dice.below(3)]] = [dice.any() % 64, 1 << 30, (1 << 30) + 1, dice.any(), u64::MAX][dice.below(5)];
        }
        let (offer, edge) = (&more[turn % 3], EDGES[turn % 2]);
        let got = lent.call(&before, Lengths::of(3, 2, 60), AMPLE, edge, &|state, holding, notes, work, out| raw::add(offer, state, holding, notes, work, out));
        assert!(ZERO_OR_NOT.contains(&got.left) && is_zero(&got.out));
        match got.reply {
            Ok(reply) => assert_eq!((reply[3], got.kept.state[11]), (3, 3)),
            Err(why) => {
                assert_eq!(why, plain(Number::FileRoom));
                assert!(Kept { notes: before.notes.clone(), ..got.kept } == before);
            }
        }
    }
}

#[test]
fn begin_in_every_room() {
    let (mut lent, need) = (Lent::new(), rooms_for(0));
    let call: Call = &|state, holding, _, _, _| raw::begin(&START, state, holding);
    for edge in EDGES {
        let got = lent.call(&Kept::of(need), work_for(0), 0, edge, call);
        assert_eq!(got.reply, Ok([0, 0, 1, 0, 0]));
        assert_eq!((got.kept.lengths.as_slice(), got.kept.texts.as_slice(), got.kept.bytes.as_slice()), (START.lengths, START.texts, &[0][..]));
        for room in EACH_ROOM {
            for other in 0..=64 {
                let mut rooms = need;
                *room(&mut rooms) = other;
                let got = lent.call(&Kept::of(rooms), work_for(0), 0, edge, call);
                let short = other < *room(&mut need.clone());
                assert_eq!(got.reply.is_err(), short, "{rooms:?}");
                assert_eq!(got.kept.is_zero(), short, "{rooms:?}");
            }
        }
    }
}

#[test]
fn adds_in_every_room() {
    let call: Call = &|state, holding, notes, work, out| raw::add(&offers()[1], state, holding, notes, work, out);
    try_call(&holding(1, rooms_for(2)), work_for(2), rooms_for(2).bytes, ZERO_OR_NOT, call);
    try_own(1, rooms_for(2), ZERO_OR_NOT, call);
}

#[test]
fn drops_in_every_room() {
    try_call(&holding(2, rooms_for(2)), work_for(1), 0, ZERO, &|state, holding, _, work, out| {
        out.fill(0);
        raw::drop_last(state, holding, work)
    });
}

#[test]
fn replacements_in_every_room() {
    let longer: Call = &|state, holding, _, work, out| raw::replace((0, 1), b"Neither", state, holding, work, out);
    let shorter: Call = &|state, holding, _, work, out| raw::replace((1, 0), b"", state, holding, work, out);
    let rooms = Rooms { texts: rooms_for(2).texts + 3, ..rooms_for(2) };
    try_call(&holding(2, rooms), Lengths::of(2, 2, 20), rooms_for(2).texts, ZERO, longer);
    try_call(&holding(2, rooms), Lengths::of(2, 2, 13), rooms_for(2).texts, ZERO, shorter);
    try_own(2, rooms, ZERO, longer);
}

#[test]
fn ends_in_every_room() {
    let file = two_names().yard(&OUTER, &["Yard", "Both"]).yard(&HOLE, &["Hole", "Other"]).build().unwrap();
    let call: Call = &|state, holding, _, work, out| raw::finish(state, &holding, work, out);
    let before = holding(2, rooms_for(2));
    try_call(&before, work_for(2), file.len(), ZERO, call);
    let got = Lent::new().call(&before, work_for(2), AMPLE, Edge::Back, call);
    assert_eq!((got.reply, &got.out[..file.len()]), (Ok([file.len() as u64, 0, 0, 0, 0]), file.as_slice()));
    assert!(got.kept == before && is_zero(&got.out[file.len()..]));
}

/// Numbers that no call has made with these lists: 28, or 29 for a drop, and nothing changes.
#[test]
fn a_state_that_no_call_has_made() {
    let mut lent = Lent::new();
    let calls: [(Number, Call); 5] = [
        (Number::FileRoom, &|state, holding, notes, work, out| raw::add(&offers()[1], state, holding, notes, work, out)),
        (Number::NoYard, &|state, holding, _, work, out| {
            out.fill(0);
            raw::drop_last(state, holding, work)
        }),
        (Number::FileRoom, &|state, holding, _, work, out| raw::replace((0, 0), b"A", state, holding, work, out)),
        (Number::FileRoom, &|state, holding, _, _, out| {
            out.fill(0);
            raw::clear(state, holding)
        }),
        (Number::FileRoom, &|state, holding, _, work, out| raw::finish(state, &holding, work, out)),
    ];
    let good = holding(1, rooms_for(2));
    let changes: [fn(&mut Kept); 10] = [
        |kept| kept.state[3] = 256,
        |kept| kept.state[11] = 4097,
        |kept| kept.state[11] = u64::MAX,
        |kept| kept.state[7] = 1 << 40,
        |kept| kept.state[10] = 1 << 31,
        |kept| kept.state[10] = 0,
        // as a refused begin leaves it
        |kept| kept.state.fill(0),
        |kept| kept.boxes.truncate(3),
        |kept| kept.borders.clear(),
        |kept| kept.lengths.truncate(4),
    ];
    for change in changes {
        let mut bad = good.clone();
        change(&mut bad);
        for (number, call) in calls {
            for edge in EDGES {
                let got = lent.call(&bad, work_for(2), AMPLE, edge, call);
                assert_eq!((got.reply, &got.kept), (Err(plain(number)), &bad));
            }
        }
    }
}
