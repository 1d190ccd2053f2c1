//! The slip and its two readers, with every list at a page that may not be touched: every room from 0 to 64, requests and bundles with every byte changed, bundles cut at every length. Each time
//! the reply is held against common/model.rs, which is document 03 once more.
#![cfg(feature = "office")]

mod common;

use common::fence::{Edge, Fence, EDGES};
use common::files::{file, overlap, Zone, LAT_STEP, LON_STEP};
use common::model::{self, Why};
use common::tzif::{ended, fixed, leaping, small};
use common::{AtlasOf, Dice};
use uskelzar::raw::{self, Paper, Reply, HIT_WORDS};
use uskelzar::{Bundle, Cause, NotStamped, Refusal};

const MOST: usize = 64;
const AMPLE: [usize; 3] = [64, 256, 256];
const FIX: (f32, f32) = (5.1 * LAT_STEP, 5.1 * LON_STEP);
const ALONE: (f32, f32) = (15.1 * LAT_STEP, 15.1 * LON_STEP);
const INSTANT: i64 = 1_782_907_199;
const SENTENCE: &[u8] = b"$GNRMC,115959.00,A,5231.200000,N,01324.000000,E,0.0,0.0,010726,,,A*41";

fn number_of(why: &Refusal) -> Why {
    let cause = match why.cause {
        Some(Cause::Encoding) => 1,
        Some(Cause::Utf8) => 2,
        None => 0,
    };
    (why.number as u8, cause, why.detail)
}

/// The words of the program `stamp` are number, cause and detail.
fn numbers_of(why: &NotStamped) -> Why {
    let said = why.to_string();
    let mut numbers = said.split(' ').map(|word| word.parse::<u64>().unwrap_or(0));
    let mut next = || numbers.next().unwrap();
    (next() as u8, next(), next())
}

/// A slip's reply, with all that was lent.
#[derive(Clone, Debug, PartialEq)]
struct Outcome {
    reply: Result<Reply, Why>,
    hits: Vec<u32>,
    text: Vec<u8>,
    out: Vec<u8>,
}

/// What a slip is asked by.
#[derive(Clone, Copy)]
enum Ask<'a> {
    At(f32, f32, i64),
    Line(&'a [u8]),
}

/// What is lent, and what is read, between guards.
struct Desk {
    lent: [Fence; 3],
    read: [Fence; 3],
    words: Fence,
    atlas: AtlasOf,
    edge: Edge,
}

impl Desk {
    fn new(edge: Edge) -> Desk {
        let (lent, read) = ([(); 3].map(|()| Fence::new(1024)), [1024, 1 << 16, 1 << 16].map(Fence::new));
        Desk { lent, read, words: Fence::new(1 << 16), atlas: AtlasOf::default(), edge }
    }

    /// Through no atlas, through the map's own, where it has one, and plainly, which is the same.
    fn slip(&mut self, ask: Ask, map: &[u8], zones: &[u8], rooms: [usize; 3]) -> Outcome {
        let plain = self.slip_by(ask, map, None, zones, rooms);
        for words in [vec![], self.atlas.of(map)] {
            assert_eq!(self.slip_by(ask, map, Some(&words), zones, rooms), plain);
        }
        plain
    }

    fn slip_by(&mut self, ask: Ask, map: &[u8], atlas: Option<&[u32]>, zones: &[u8], [words, bytes, room]: [usize; 3]) -> Outcome {
        let edge = self.edge;
        let atlas = atlas.map(|words| &*self.words.hold(words, edge));
        let [request_fence, map_fence, zones_fence] = &mut self.read;
        let (held_map, held_zones) = (map_fence.hold(map, edge), zones_fence.hold(zones, edge));
        let [hits_fence, text_fence, out_fence] = &mut self.lent;
        let (hits, text, out) = (hits_fence.lend::<u32>(words, edge), text_fence.lend::<u8>(bytes, edge), out_fence.lend::<u8>(room, edge));
        let paper = Paper { hits: &mut *hits, text: &mut *text, out: &mut *out };
        let reply = match (ask, atlas) {
            (Ask::At(lat, lon, instant), None) => raw::slip_at((lat, lon, instant), held_map, held_zones, paper),
            (Ask::At(lat, lon, instant), Some(words)) => raw::slip_at_atlas((lat, lon, instant), held_map, words, held_zones, paper),
            (Ask::Line(line), None) => raw::slip(request_fence.hold(line, edge), held_map, held_zones, paper),
            (Ask::Line(line), Some(words)) => raw::slip_atlas(request_fence.hold(line, edge), held_map, words, held_zones, paper),
        };
        let outcome = Outcome { reply: reply.map_err(|why| numbers_of(&why)), hits: hits.to_vec(), text: text.to_vec(), out: out.to_vec() };
        assert!(held_map == map && held_zones == zones, "an input was written to");
        let sizes = [4 * words, bytes, room];
        self.lent.iter_mut().zip(sizes).for_each(|(fence, size)| fence.assert_kept(size, edge));
        outcome
    }

    fn request(&mut self, line: &[u8]) -> Result<Reply, Why> {
        raw::request(self.read[0].hold(line, self.edge)).map_err(|why| number_of(&why))
    }

    fn find(&mut self, bundle: &[u8], name: &[u8]) -> Result<Reply, Why> {
        let [named, _, zones] = &mut self.read;
        raw::bundle_find(zones.hold(bundle, self.edge), named.hold(name, self.edge)).map_err(|why| number_of(&why))
    }
}

fn is_zero(outcome: &Outcome) -> bool {
    outcome.hits.iter().all(|word| *word == 0) && outcome.text.iter().chain(&outcome.out).all(|byte| *byte == 0)
}

/// The bytes of a bundle of these files, whatever they are.
fn bundle(files: &[(&str, Vec<u8>)]) -> Vec<u8> {
    let number = |value: usize| (value as u32).to_be_bytes();
    let data = 24 + 52 * files.len();
    let size: usize = files.iter().map(|(_, file)| file.len()).sum();
    let mut bytes = b"tzdata2026a\0".to_vec();
    bytes.extend([24, data, data + size].into_iter().flat_map(number));
    let mut begin = 0;
    for (name, file) in files {
        bytes.extend(name.bytes().chain(std::iter::repeat(0)).take(40));
        bytes.extend([begin, file.len(), 7].into_iter().flat_map(number));
        begin += file.len();
    }
    files.iter().for_each(|(_, file)| bytes.extend(file));
    bytes
}

/// What a whole search of `overlap` finds at a fix: the names of its matches, as a lookup with ample room writes them.
fn names(map: &[u8], (lat, lon): (f32, f32)) -> Vec<Vec<u8>> {
    let (mut hits, mut text) = (vec![0; AMPLE[0]], vec![0; AMPLE[1]]);
    let [matches, mark, _, used, _] = raw::lookup(map, lat, lon, false, &mut hits, &mut text).unwrap();
    assert_eq!(mark, 1);
    let mut fields = vec![];
    let mut rest = &text[..used as usize];
    while let [_, high, low, more @ ..] = rest {
        let (field, behind) = more.split_at(usize::from(*high) * 256 + usize::from(*low));
        fields.push(field.to_vec());
        rest = behind;
    }
    assert_eq!(fields.len() as u64, 2 * matches);
    fields.chunks(2).map(<[Vec<u8>]>::concat).collect()
}

/// A slip in ample room is the model's: a line and all words of the reply, or number, cause, detail and zeros.
fn assert_model(got: &Outcome, names: &[Vec<u8>], zones: &[u8], instant: i64) {
    match model::line(names, zones, instant) {
        Ok((line, offset)) => {
            assert_eq!(got.reply, Ok([line.len() as u64, names.len() as u64, u64::from(offset as u32), 0, 0]), "{line}");
            assert_eq!(&got.out[..line.len()], line.as_bytes());
            assert!(got.out[line.len()..].iter().all(|byte| *byte == 0));
        }
        Err(why) => {
            assert_eq!(got.reply, Err(why));
            assert!(is_zero(got));
        }
    }
}

/// Three hits, two matches, 24 bytes of fields and a line of 50 bytes: 17, 18 and 18 with the length exactly where they do not fit.
#[test]
fn every_room() {
    let (map, zones) = (overlap(1), bundle(&[("Up/One", fixed(0, "A")), ("Up/Two", fixed(0, "B"))]));
    let line = b"Thu 1970-01-01 00:00:00 +00:00 A Up/One, B Up/Two";
    let request = format!("{} {} +0", 5.1 * LAT_STEP, 5.1 * LON_STEP).into_bytes();
    for edge in EDGES {
        let mut desk = Desk::new(edge);
        let ample = desk.slip(Ask::At(FIX.0, FIX.1, 0), &map, &zones, AMPLE);
        assert_eq!(ample.reply, Ok([line.len() as u64, 2, 0, 0, 0]));
        let mut looked = (vec![0; AMPLE[0]], vec![0; AMPLE[1]]);
        raw::lookup(&map, FIX.0, FIX.1, false, &mut looked.0, &mut looked.1).unwrap();
        assert_eq!((&ample.hits, &ample.text), (&looked.0, &looked.1));
        for ask in [Ask::At(FIX.0, FIX.1, 0), Ask::Line(&request)] {
            for words in 0..=MOST {
                for bytes in 0..=MOST {
                    for room in 0..=MOST {
                        let got = desk.slip(ask, &map, &zones, [words, bytes, room]);
                        let refused = match () {
                            _ if words / HIT_WORDS < 3 => Some((17, 0, 0)),
                            _ if bytes < 24 => Some((18, 0, 0)),
                            _ if room < line.len() => Some((18, 0, line.len() as u64)),
                            _ => None,
                        };
                        assert_eq!(got.reply, refused.map_or(ample.reply, Err), "{words} words, {bytes} bytes, {room} of line");
                        if refused.is_some() {
                            assert!(is_zero(&got), "{words} words, {bytes} bytes, {room} of line");
                            continue;
                        }
                        let front = HIT_WORDS * 2;
                        assert!(got.hits[..front] == ample.hits[..front] && got.hits[front..].iter().all(|word| *word == 0));
                        assert!(got.text[..24] == ample.text[..24] && got.text[24..].iter().all(|byte| *byte == 0));
                        assert!(got.out[..line.len()] == line[..] && got.out[line.len()..].iter().all(|byte| *byte == 0));
                    }
                }
            }
        }
    }
}

/// No list is looked at where the request or the map is refused, and none need be there.
#[test]
fn nothing_lent_and_nothing_given() {
    for edge in EDGES {
        let mut desk = Desk::new(edge);
        assert_eq!(desk.slip(Ask::Line(b""), b"", b"", [0; 3]).reply, Err((80, 0, 0)));
        assert_eq!(desk.slip(Ask::Line(b"1 2 3"), b"", b"", [0; 3]).reply, Err((2, 0, 0)));
        assert_eq!(desk.slip(Ask::At(0.0, 0.0, 0), &overlap(1), b"", [0; 3]).reply, Err((86, 0, 0)));
        assert_eq!(desk.slip(Ask::At(ALONE.0, ALONE.1, 0), &overlap(1), b"", AMPLE).reply, Err((89, 1, 0)));
        assert_eq!(desk.request(b""), Err((80, 0, 0)));
        assert_eq!(desk.find(b"", b""), Err((89, 0, 0)));
    }
}

/// A request is what the model says, and its slip is the slip at that.
fn assert_request(desk: &mut Desk, line: &[u8], map: &[u8], zones: &[u8]) {
    let shown = String::from_utf8_lossy(line).to_string();
    let want = model::request(line);
    let got = desk.request(line);
    let bits = |value: f32| u64::from(value.to_bits());
    assert_eq!(got, want.map(|(lat, lon, instant)| [bits(lat), bits(lon), instant as u64, 0, 0]), "{shown:?}");
    let slip = desk.slip(Ask::Line(line), map, zones, AMPLE);
    match want {
        Ok((lat, lon, instant)) => assert_eq!(slip, desk.slip(Ask::At(lat, lon, instant), map, zones, AMPLE), "{shown:?}"),
        Err(why) => assert!(slip.reply == Err(why) && is_zero(&slip), "{shown:?}: {slip:?}"),
    }
}

const REQUESTS: [&[u8]; 10] = [
    SENTENCE,
    b"$GPRMC,235959,A,8959.999999999,S,17959.999999999,W,,,311279,,*43\r\n",
    b"$2BRMC,000000.0,A,0000.0,S,00000.0,W,0,0,290200,,,D,V*00\n",
    b"$GPGGA,115959.00,5231.2,N,01324.0,E,1,08,0.9,545.4,M,46.9,M,,*47",
    b"$*00",
    b"52.52 13.40 2026-07-01T11:59:59Z",
    b"+90.000000000\t-180 \t -9223372036854775808\r\n",
    b"-0.0 000 0001-01-01T00:00:00Z\r",
    b"-89.999999999 179.999999999 9223372036854775807\n",
    b"0.014 0.028 0",
];

/// A sentence with the checksum that its bytes have.
fn summed(line: &[u8]) -> Vec<u8> {
    let Some(star) = line.iter().rposition(|byte| *byte == b'*').filter(|_| line[0] == b'$') else { return line.to_vec() };
    let sum = line[1..star].iter().fold(0, |sum, byte| sum ^ byte);
    let rest = &line[(star + 3).min(line.len())..];
    [&line[..star], format!("*{sum:02X}").as_bytes(), rest].concat()
}

#[test]
fn requests_with_every_byte_changed() {
    let map = overlap(1);
    let zones = bundle(&[("Up/One", fixed(3600, "A")), ("Up/Two", fixed(3600, "B"))]);
    for (edge, line) in EDGES.into_iter().flat_map(|edge| REQUESTS.map(|line| (edge, summed(line)))) {
        let mut desk = Desk::new(edge);
        assert_request(&mut desk, &line, &map, &zones);
        for at in 0..line.len() {
            for byte in 0..=255 {
                let mut changed = line.clone();
                changed[at] = byte;
                assert_request(&mut desk, &changed, &map, &zones);
                // as a sentence it is read on only where the checksum is that of the changed bytes
                if changed[0] == b'$' {
                    assert_request(&mut desk, &summed(&changed), &map, &zones);
                }
            }
        }
    }
}

/// Cut at every length, with a byte more at every place, and up to the longest line and past it.
#[test]
fn requests_of_every_length() {
    let map = overlap(1);
    let zones = bundle(&[("Up/One", fixed(3600, "A")), ("Up/Two", fixed(3600, "B"))]);
    for edge in EDGES {
        let mut desk = Desk::new(edge);
        for line in REQUESTS.map(summed) {
            for at in 0..=line.len() {
                assert_request(&mut desk, &line[..at], &map, &zones);
                assert_request(&mut desk, &summed(&line[..at]), &map, &zones);
                for byte in b" \t\r\n,*$.0A-".iter().copied() {
                    let more = [&line[..at], &[byte], &line[at..]].concat();
                    assert_request(&mut desk, &more, &map, &zones);
                    assert_request(&mut desk, &summed(&more), &map, &zones);
                }
            }
        }
        for length in 240..=260 {
            for end in ["", "\n", "\r\n", "\r", "\n\r", "\r\r\n"] {
                let fraction = "0".repeat(length - 62);
                let line = summed(format!("$GNRMC,115959.{fraction},A,5231.2,N,01324.0,E,0.0,0.0,010726,,*00{end}").as_bytes());
                assert_request(&mut desk, &line, &map, &zones);
                let blanks = " ".repeat(length - 8);
                assert_request(&mut desk, format!("5{blanks}5 1234{end}").as_bytes(), &map, &zones);
            }
        }
    }
}

/// Zones of every kind, a name twice, and one whose name begins another's.
fn kinds() -> Vec<(&'static str, Vec<u8>)> {
    vec![
        ("Up/One", fixed(-16_201, "A\u{e9}")),
        ("Up/Two", small()),
        ("Up", fixed(0, "UTC")),
        ("Up/One", fixed(7200, "B")),
        ("Up/Leaps", leaping(0, "L", &[78_796_800])),
        ("Up/Ended", ended()),
        ("Up/Cut", fixed(0, "UTC")[..40].to_vec()),
    ]
}

/// Two fixes, of one zone and of two, at instants before, in and behind a table.
fn assert_bundle(desk: &mut Desk, map: &[u8], zones: &[u8]) {
    for fix in [ALONE, FIX] {
        let names = names(map, fix);
        for instant in [INSTANT, -1, 1 << 33] {
            let got = desk.slip(Ask::At(fix.0, fix.1, instant), map, zones, AMPLE);
            assert_model(&got, &names, zones, instant);
        }
    }
    for name in [&b"Up/One"[..], b"Up/Two", b"Up", b"Up/Ended", b"none", b""] {
        let want = model::find(zones, name).map(|(begin, length)| [begin as u64, length as u64, 0, 0, 0]);
        assert_eq!(desk.find(zones, name), want, "{}", String::from_utf8_lossy(name));
    }
}

#[test]
fn bundles_cut_at_every_length() {
    let (map, whole) = (overlap(1), bundle(&kinds()));
    for edge in EDGES {
        let mut desk = Desk::new(edge);
        for length in 0..=whole.len() {
            assert_bundle(&mut desk, &map, &whole[..length]);
        }
        // the head says another end, so that the cut is no fault of it
        for length in 24 + 52 * 7..=whole.len() {
            let mut cut = whole[..length].to_vec();
            cut[20..24].copy_from_slice(&(length as u32).to_be_bytes());
            assert_bundle(&mut desk, &map, &cut);
        }
    }
}

#[test]
fn bundles_with_every_byte_changed() {
    let (map, mut zones) = (overlap(1), bundle(&kinds()));
    let index = 24 + 52 * 7;
    for edge in EDGES {
        let mut desk = Desk::new(edge);
        for at in 0..zones.len() {
            let was = zones[at];
            // all values in head and index, nine elsewhere
            for byte in (0..=255u8).filter(|byte| at < index || (byte ^ was).count_ones() == 1 || *byte == 0) {
                zones[at] = byte;
                assert_bundle(&mut desk, &map, &zones);
            }
            zones[at] = was;
        }
    }
}

/// Numbers at their edges: 2^31, sums that wrap in 32 bits, an index that is no whole number of entries.
#[test]
fn bundles_with_hostile_numbers() {
    let (map, whole) = (overlap(1), bundle(&kinds()));
    let mut desk = Desk::new(Edge::Back);
    for at in (12..24).step_by(4).chain([24 + 40, 24 + 44, 76 + 40, 76 + 44]) {
        for number in [0, 1, 23, 24, 25, 76, 388, 389, 0x7fff_ffff, 0x8000_0000, 0xffff_ffff, 0xffff_ff80, whole.len() as u32, whole.len() as u32 + 1] {
            let mut changed = whole.clone();
            changed[at..at + 4].copy_from_slice(&number.to_be_bytes());
            assert_bundle(&mut desk, &map, &changed);
        }
    }
}

/// Every zone of the system's folder is found where its bytes stand, and no other name is.
#[test]
fn the_systems_zones_are_found() {
    let bundled = Bundle::of_folder("/usr/share/zoneinfo").unwrap();
    for name in &bundled.zones {
        assert_eq!(bundled.bundle.find(name).unwrap(), std::fs::read(format!("/usr/share/zoneinfo/{name}")).unwrap(), "{name}");
        assert_eq!(bundled.bundle.find(format!("{name}\0")), bundled.bundle.find(name));
        assert_eq!(bundled.bundle.find(&name[1..]).is_ok(), bundled.zones.iter().any(|known| known == &name[1..]));
    }
    assert_eq!(bundled.bundle.find("x".repeat(41)).unwrap_err().number as u8, 88);
}

/// Fixes and instants at random, on a map of zones with one name, with several and with none in the bundle.
#[test]
fn slips_at_random() {
    let square = |low: i32, high: i32| [(low, low), (high, low), (high, high), (low, high)];
    let (a, b, c, d) = (square(1, 40), square(10, 60), square(20, 80), square(30, 90));
    let zone = |fields, borders| Zone { fields, borders };
    let borders = [[&a[..]], [&b[..]], [&c[..]], [&d[..]]];
    let zones = [zone(&["Up/", "One"], &borders[0]), zone(&["", "Up/Two"], &borders[1]), zone(&["Up/O", "ne"], &borders[2]), zone(&["Up/", "None"], &borders[3])];
    let map = file(b'T', 1, &["TimezoneIdPrefix", "TimezoneId"], "", &zones);
    let mut dice = Dice(7);
    let mut desk = Desk::new(Edge::Back);
    let mut stamped = 0;
    for turn in 0..20_000 {
        let offset = [0, 3600, -12_345, 50_400][dice.below(4)];
        let other = [offset, offset, 3600][dice.below(3)];
        let zones = bundle(&[("Up/Two", fixed(other, "T W")), ("Up/One", fixed(offset, ["", "CET", "+0530"][dice.below(3)]))]);
        let fix = (dice.below(100) as f32 * LAT_STEP, dice.below(100) as f32 * LON_STEP);
        let instant = if turn % 2 == 0 { dice.any() as i64 >> dice.below(40) } else { dice.below(400_000_000_000) as i64 - 70_000_000_000 };
        let names = names(&map, fix);
        let got = desk.slip(Ask::At(fix.0, fix.1, instant), &map, &zones, AMPLE);
        if names.is_empty() {
            assert_eq!(got.reply, Err((86, 0, 0)));
        } else {
            assert_model(&got, &names, &zones, instant);
            stamped += usize::from(got.reply.is_ok());
        }
    }
    assert!(stamped > 1000, "{stamped}");
}
