//! sets SEED COUNT: random yard sets, built by the library, on standard output for compare/built.
//! Each: type, version, precision and number of names (a byte each); names, notice; a word with the number of yards; of each the number of points, the points, the values; a word with the
//! file's length, the file. Numbers are little-endian, a text is a byte with its length and its bytes.

use depot::grid::Point;
use depot::pieces::Lender;
use std::io::Write;
use uskelzar::{Builder, Piece, Table};

struct Random(u64);

impl Random {
    fn next(&mut self) -> u64 {
        self.0 = self.0.wrapping_add(0x9E37_79B9_7F4A_7C15);
        let mut x = self.0;
        x = (x ^ (x >> 30)).wrapping_mul(0xBF58_476D_1CE4_E5B9);
        x = (x ^ (x >> 27)).wrapping_mul(0x94D0_49BB_1331_11EB);
        x ^ (x >> 31)
    }

    fn below(&mut self, n: u64) -> u64 {
        self.next() % n
    }

    fn between(&mut self, low: i64, high: i64) -> i32 {
        (low + self.below((high - low + 1) as u64) as i64) as i32
    }

    fn one_in(&mut self, n: u64) -> bool {
        self.below(n) == 0
    }
}

const FAR: i64 = (1 << 30) - 1;

/// Points that a border may have: none equal to the one before, the first not (0, 0).
fn allowed(points: Vec<Point>) -> Vec<Point> {
    let mut points: Vec<Point> = points.into_iter().map(|(lat, lon)| (lat.clamp(-FAR as i32, FAR as i32), lon.clamp(-FAR as i32, FAR as i32))).collect();
    points.dedup();
    if points[0] == (0, 0) {
        points[0] = (if points.get(1) == Some(&(1, 0)) { 2 } else { 1 }, 0);
    }
    points
}

/// Any points, a square, or what an earlier border has, as it is or the other way round, elsewhere and with more behind it.
fn border(random: &mut Random, size: i64, earlier: &[Vec<Point>]) -> Vec<Point> {
    let near = |random: &mut Random| (random.between(-size, size), random.between(-size, size));
    let (lat, lon) = near(random);
    let points = match random.below(4) {
        0 => (0..1 + random.below(12)).map(|_| near(random)).collect(),
        1 if !earlier.is_empty() => {
            let mut points = earlier[random.below(earlier.len() as u64) as usize].clone();
            if random.one_in(2) {
                points.reverse();
            }
            let by = if random.one_in(2) { (0, 0) } else { (lat / 8, lon / 8) };
            points.iter_mut().for_each(|point| *point = (point.0.saturating_add(by.0), point.1.saturating_add(by.1)));
            points.extend((0..random.below(4)).map(|_| near(random)));
            points
        }
        _ => {
            let (high, wide) = (random.between(1, size), random.between(1, size));
            let mut square = vec![(lat, lon), (lat.saturating_add(high), lon), (lat.saturating_add(high), lon.saturating_add(wide)), (lat, lon.saturating_add(wide))];
            if random.one_in(3) {
                square.reverse();
            }
            square
        }
    };
    allowed(points)
}

fn text(random: &mut Random) -> String {
    match random.below(12) {
        0 => String::new(),
        1 => "ä".repeat(random.below(128) as usize),
        2 => "x".repeat(random.below(256) as usize),
        _ => format!("value {}", random.below(5)),
    }
}

fn put_text(out: &mut Vec<u8>, text: &str) {
    out.push(text.len() as u8);
    out.extend(text.bytes());
}

/// One set, and its file.
fn set(random: &mut Random) -> Vec<u8> {
    let (version, precision) = (random.below(2) as u8, random.between(1, 31) as u8);
    let (table, kind) = if random.one_in(2) { (Table::TimeZones, b'T') } else { (Table::Countries, b'C') };
    let names: Vec<String> = (0..random.below(4)).map(|i| if random.one_in(8) { text(random) } else { format!("Name {i}") }).collect();
    let notice = text(random);
    let mut out = vec![kind, version, precision, names.len() as u8];
    names.iter().chain([&notice]).for_each(|text| put_text(&mut out, text));
    let count = if random.one_in(20) { 1 + random.below(60) } else { 1 + random.below(9) };
    let size = [3, 20, 400, 1 << (precision - 1), FAR][random.below(5) as usize].min(FAR);
    let borrow = random.one_in(2);
    let known: Vec<&str> = names.iter().map(String::as_str).collect();
    let mut builder = Builder::new(table, precision, &known).version(version).notice(&notice);
    let (mut borders, mut lender): (Vec<Vec<Point>>, Lender) = (vec![], Lender::new(version));
    out.extend((count as u32).to_le_bytes());
    for _ in 0..count {
        let points = border(random, size, &borders);
        let values: Vec<String> = names.iter().map(|_| text(random)).collect();
        let pieces: Vec<Piece> = if borrow { lender.add(&points).expect("a border") } else { vec![] };
        out.extend((points.len() as u32).to_le_bytes());
        out.extend(points.iter().flat_map(|point| [point.0.to_le_bytes(), point.1.to_le_bytes()].concat()));
        values.iter().for_each(|text| put_text(&mut out, text));
        let values: Vec<&str> = values.iter().map(String::as_str).collect();
        builder = builder.yard_with(&points, &pieces, &values);
        borders.push(points);
    }
    let file = builder.build().unwrap_or_else(|why| panic!("{why}"));
    out.extend((file.len() as u32).to_le_bytes());
    out.extend(file);
    out
}

fn main() {
    let mut words = std::env::args().skip(1).map(|word| word.parse::<u64>().expect("usage: sets SEED COUNT"));
    let (seed, count) = (words.next().expect("a seed"), words.next().expect("a count"));
    let mut out = std::io::stdout().lock();
    for index in 0..count {
        out.write_all(&set(&mut Random(seed.wrapping_mul(1 << 32).wrapping_add(index)))).expect("nobody reads on");
    }
}
