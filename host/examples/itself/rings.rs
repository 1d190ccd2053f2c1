//! Files with borders long enough for an atlas's marks, of both versions, whole and damaged; and fixes on, beside and far from their points.

use crate::common::encode::{number_of, signed, string, varint};
use crate::common::Fix;
use crate::random::Random;

type Point = (i64, i64);

/// A file of type C without fields.
pub struct Rings {
    pub bytes: Vec<u8>,
    precision: u8,
    borders: Vec<Vec<Point>>,
}

/// A border has marks from 257 edges on, one for each 128; groups of them may be of eight or sixteen.
const COUNTS: [usize; 25] = [1, 2, 3, 4, 64, 127, 128, 129, 255, 256, 257, 258, 259, 384, 385, 512, 513, 640, 1023, 1024, 1025, 1152, 2047, 2048, 2049];
const LONG: [usize; 6] = [4095, 4096, 4097, 8192, 8193, 9216];

fn count(random: &mut Random) -> usize {
    match random.below(32) {
        0 => random.pick(&LONG),
        1..=7 => random.pick(&[255, 256, 257, 258]),
        8..=11 => 1 + random.below(1500),
        _ => random.pick(&COUNTS),
    }
}

/// So many points: about a middle, either way round; a walk; from one extreme to the other; along a line; one point again and again.
fn points(random: &mut Random, precision: u8) -> Vec<Point> {
    let (count, middle) = (count(random), (random.coordinate(precision), random.coordinate(precision)));
    let half = 1i64 << (precision - 1).min(20);
    let radius = 1.0 + random.below(half as usize) as f64;
    let turn = std::f64::consts::TAU / count as f64 * random.pick(&[1.0, -1.0]);
    let reach = random.pick(&[1, 2, 8, 100]);
    let step = |random: &mut Random| random.below(2 * reach + 1) as i64 - reach as i64;
    let mut here = middle;
    let one = random.below(16);
    let next = |i: usize| match one {
        0 => (random.coordinate(precision), random.coordinate(precision)),
        1 => (middle.0, middle.1 + i as i64),
        2 => middle,
        3..=6 => {
            here = (here.0 + step(random), here.1 + step(random));
            here
        }
        7 | 8 => (middle.0 + (i % 2 * 40) as i64, middle.1 + i as i64),
        _ => ((radius * (turn * i as f64).cos()) as i64 + middle.0 % half, (radius * (turn * i as f64).sin()) as i64 + middle.1 % half),
    };
    (0..count).map(next).collect()
}

/// Moves of a border that stand one behind the other in the data, with nothing between them; and their places, with that behind the last.
#[derive(Default)]
struct Written {
    places: Vec<usize>,
    moves: Vec<Point>,
}

fn spread(number: u64) -> u64 {
    (0..32).fold(0, |all, bit| all | (number >> bit & 1) << (2 * bit))
}

/// The number of a move; where it has no room in 64 bits some of it is lost.
fn packed((lat, lon): Point) -> u64 {
    spread(number_of(lat)) | spread(number_of(lon)) << 1
}

/// Version 0: mostly closed as the writer does, else with two zeros, which drop the closing point, or with nothing; now and then with another count than it has.
fn plain(random: &mut Random, points: &[Point], data: &mut Vec<u8>) {
    let off = if random.once_in(16) { random.pick(&[-1, 1]) } else { 0 };
    data.extend(varint((points.len() as i64 + off) as u64));
    let mut last = (0, 0);
    for point in points {
        data.extend(signed(point.0 - last.0));
        data.extend(signed(point.1 - last.1));
        last = *point;
    }
    data.extend(random.pick(&[&[2, 2][..], &[2, 2], &[2, 2], &[2, 2], &[0, 0], &[]]));
}

/// Version 1: moves, and now and then the same point again, or a run of an earlier border's moves, forward or backward, which then leads elsewhere. Gives the points.
fn borrowing(random: &mut Random, points: &[Point], earlier: &[Written], data: &mut Vec<u8>) -> (Vec<Point>, Written) {
    let (mut last, mut met, mut written) = ((0, 0), vec![], Written::default());
    let often = random.pick(&[40, 400, 4000]);
    let mut i = 0;
    while i < points.len() {
        if !earlier.is_empty() && random.once_in(often) {
            let of = &earlier[random.below(earlier.len())];
            let run = run(random, of, data);
            for by in &run {
                last = (last.0 + by.0, last.1 + by.1);
                met.push(last);
            }
            // the rest goes on from there
            i += run.len();
            written = Written::default();
            continue;
        }
        if random.once_in(often) {
            data.extend([0, 2 + random.below(3) as u8]);
            met.push(last);
            written = Written::default();
        }
        // behind a run a step from point to point; at first from (0, 0)
        let from = if i == 0 { (0, 0) } else { points[i - 1] };
        let by = (points[i].0 - from.0, points[i].1 - from.1);
        written.places.push(data.len());
        written.moves.push(by);
        // 3 is a move of nothing; 0 would be a mark
        data.extend(varint(if by == (0, 0) { 3 } else { packed(by) }));
        last = (last.0 + by.0, last.1 + by.1);
        met.push(last);
        i += 1;
    }
    written.places.push(data.len());
    if !random.once_in(24) {
        data.extend([0, 0]);
    }
    (met, written)
}

/// Some of an earlier border's moves, as a run of the data.
fn run(random: &mut Random, of: &Written, data: &mut Vec<u8>) -> Vec<Point> {
    if of.moves.is_empty() {
        return vec![];
    }
    let from = random.below(of.moves.len());
    let to = from + 1 + random.below((of.moves.len() - from).min(700));
    let (start, end) = (of.places[from] as i64, of.places[to] as i64);
    let moves = of.moves[from..to].iter().copied();
    let (first, length, moves): (i64, i64, Vec<Point>) = match random.once_in(2) {
        true => (start, end - start, moves.collect()),
        false => (end, start - end, moves.rev().map(|(lat, lon)| (-lat, -lon)).collect()),
    };
    data.extend([0, 1]);
    data.extend(varint(first as u64));
    data.extend(signed(length));
    moves
}

/// The box of points; or the whole grid, an inverted one, any.
fn bounds(random: &mut Random, points: &[Point], precision: u8) -> [i64; 4] {
    let least = |of: fn(&Point) -> i64| points.iter().map(of).min().unwrap_or(0);
    let most = |of: fn(&Point) -> i64| points.iter().map(of).max().unwrap_or(0);
    let tight = [least(|at| at.0), least(|at| at.1), most(|at| at.0), most(|at| at.1)];
    match random.below(16) {
        0 => [tight[2], tight[3], tight[0], tight[1]],
        1 => [0; 4].map(|_| random.coordinate(precision)),
        2..=4 => [i64::from(i32::MIN), i64::from(i32::MIN), i64::from(i32::MAX), i64::from(i32::MAX)],
        _ => tight,
    }
}

impl Rings {
    pub fn new(random: &mut Random) -> Rings {
        let precision = if random.once_in(12) { random.pick(&[1, 2, 31, 32]) } else { 8 + random.below(14) as u8 };
        let version = random.below(2) as u8;
        let (mut data, mut entries, mut borders, mut earlier) = (vec![0], vec![], vec![], vec![]);
        for _ in 0..1 + random.below(5) {
            let (points, place) = (points(random, precision), data.len());
            let points = if version == 0 {
                plain(random, &points, &mut data);
                points
            } else {
                let (points, written) = borrowing(random, &points, &earlier, &mut data);
                earlier.push(written);
                points
            };
            entries.push((bounds(random, &points, precision), random.below(3) as i64, place));
            borders.push(points);
        }
        if !random.once_in(24) {
            entries.sort_by_key(|entry| entry.0[0]);
        }
        let mut made = Rings { bytes: whole(version, precision, &entries, &data), precision, borders };
        if random.once_in(3) {
            damage(random, &mut made.bytes);
        }
        made
    }

    pub fn fix(&self, random: &mut Random) -> Fix {
        let steps = 2f64.powi(i32::from(self.precision) - 1);
        let degrees = |(lat, lon): Point| ((lat as f64 * 90.0 / steps) as f32, (lon as f64 * 180.0 / steps) as f32);
        let border = &self.borders[random.below(self.borders.len())];
        let beside = |random: &mut Random| {
            let far = random.below(129) as i64 - 64;
            random.pick(&[0, 0, 0, 1, -1, far])
        };
        let (lat, lon) = match random.below(8) {
            0 => (random.pick(&[f32::NAN, f32::INFINITY, -90.0, 90.0, 0.0, -0.0]), random.pick(&[f32::NAN, f32::NEG_INFINITY, -180.0, 180.0, 0.0])),
            1 => degrees((random.coordinate(self.precision), random.coordinate(self.precision))),
            2 => {
                // between two points: the middle of a ring, of an edge, of a line
                let (one, other) = (random.pick(border), random.pick(border));
                degrees(((one.0 + other.0) / 2, (one.1 + other.1) / 2))
            }
            3 => {
                let at = random.below(border.len());
                let (one, other) = (border[at], border[(at + 1) % border.len()]);
                degrees(((one.0 + other.0) / 2, (one.1 + other.1) / 2))
            }
            _ => {
                let (lat, lon) = random.pick(border);
                degrees((lat + beside(random), lon + beside(random)))
            }
        };
        Fix { lat, lon, asked: random.once_in(3) }
    }
}

/// The sections behind a header; of each entry its box, its metadata id and its border's place.
fn whole(version: u8, precision: u8, entries: &[([i64; 4], i64, usize)], data: &[u8]) -> Vec<u8> {
    let (mut table, mut last, mut place) = (vec![], 0, 0);
    for (bounds, metadata, border) in entries {
        table.extend(bounds.iter().flat_map(|bound| signed(*bound)));
        table.extend(signed(metadata - last));
        table.extend(varint(u64::from((*border as u32).wrapping_sub(place))));
        (last, place) = (*metadata, *border as u32);
    }
    let mut bytes = b"PLBC".to_vec();
    bytes.extend([version, precision, 0]);
    bytes.extend(string(""));
    bytes.extend([table.len(), 0, data.len()].iter().flat_map(|size| varint(*size as u64)));
    bytes.extend([&table[..], data].concat());
    bytes
}

/// One to three bytes changed, mostly behind the header; or the two bytes of a mark put somewhere.
fn damage(random: &mut Random, bytes: &mut [u8]) {
    for _ in 0..1 + random.below(3) {
        let at = if random.once_in(16) { random.below(bytes.len()) } else { 12 + random.below(bytes.len() - 12) };
        bytes[at] = match random.below(4) {
            0 => bytes[at] ^ 1 << random.below(8),
            1 => random.next() as u8,
            2 => 0,
            _ => bytes[at] | 128,
        };
        if random.once_in(8) && at + 1 < bytes.len() {
            bytes[at..at + 2].copy_from_slice(&[0, random.below(3) as u8]);
        }
    }
}
