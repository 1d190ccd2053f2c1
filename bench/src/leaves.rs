//! What is given to the leaves and to the verdict, the same to both programs.

use crate::{read_cities, tell_time, time_spent, watched, Checksum};
use std::hint::black_box;
use std::{env, fs};

const NUMBERS: usize = 20_000;
const VARINT_BYTES: usize = 100_000;

/// One library's leaves; a loop gives the exclusive or of their answers, that of `unshuffle` the last of a chain.
pub trait Leaves {
    /// Takes the bytes that `forward`, `backward` and `verdict` read: varints, or a map.
    fn of(file: Vec<u8>, map: &Map) -> Self;
    fn forward(&self, place: usize, count: usize) -> u64;
    fn backward(&self, place: usize, count: usize) -> u64;
    fn unshuffle(&self, words: &[u64]) -> u32;
    fn of_i32(&self, integers: &[i32]) -> u32;
    fn of_u64(&self, integers: &[u64]) -> u32;
    fn to_i32(&self, floats: &[f32]) -> i32;
    fn to_i64(&self, floats: &[f32]) -> i64;
    fn sqrt(&self, floats: &[f32]) -> u32;
    /// The verdict's number and the least squared distance.
    fn verdict(&self, place: usize, lat: i32, lon: i32, asked: bool) -> (u8, u64);
}

/// Words: `LEAF ROUNDS`, or `all|held with|without MAP CITIES ROUNDS` for the verdict. In 0 rounds what is read is watched: `LEAF` is then the
/// number of bytes of a number that is read backward, and each border is judged once.
pub fn run<L: Leaves>() {
    let words: Vec<String> = env::args().skip(1).collect();
    let words: Vec<&str> = words.iter().map(|word| &word[..]).collect();
    let (rounds, words) = words.split_last().expect("rounds");
    let rounds = rounds.parse().expect("rounds");
    let sum = match words {
        [bytes] if rounds == 0 => watch_backward::<L>(bytes.parse().expect("bytes")),
        [leaf] => run_leaf::<L>(leaf, rounds),
        [which, how, map, cities] => {
            run_verdict::<L>(*which == "held", *how == "with", map, cities, rounds)
        }
        _ => panic!("words: LEAF ROUNDS, or all|held with|without MAP CITIES ROUNDS"),
    };
    println!("{sum:016x}");
}

fn repeat(rounds: u32, mut round: impl FnMut() -> u64) -> u64 {
    let first = black_box(round());
    let from = time_spent();
    let last = (1..rounds).fold(first, |_, _| black_box(round()));
    tell_time(from, rounds - 1);
    last
}

/// A number of so many bytes behind a byte 0, read backward.
fn watch_backward<L: Leaves>(bytes: usize) -> u64 {
    let mut file = vec![0xff; bytes + 1];
    (file[0], file[bytes]) = (0, 1);
    let place = file.as_ptr();
    let leaves = L::of(file, &Map::default());
    // SAFETY: the bytes were handed on to `leaves`, which keeps them where they are.
    let file = unsafe { std::slice::from_raw_parts(place, bytes + 1) };
    watched(file, &[], || leaves.backward(bytes, 1))
}

fn run_leaf<L: Leaves>(leaf: &str, rounds: u32) -> u64 {
    let mut random = Random(2026);
    let (file, count) = varints(&mut random);
    let last = file.len() - 1;
    let leaves = &L::of(file, &Map::default());
    let integers = random.some(|n| n as i32 % (1 << 20), |n| n as i32);
    let sizes = random.some(|n| n % (1 << 20), |n| n);
    let floats = random.some(near_zero, |n| f32::from_bits(n as u32));
    let positive: Vec<f32> = floats.iter().map(|x| x.abs()).collect();
    match leaf {
        "read_forward" => repeat(rounds, || leaves.forward(1, count)),
        "read_backward" => repeat(rounds, || leaves.backward(last, count)),
        "unshuffle" => repeat(rounds, || u64::from(leaves.unshuffle(black_box(&sizes)))),
        "of_i32" => repeat(rounds, || u64::from(leaves.of_i32(black_box(&integers)))),
        "of_u64" => repeat(rounds, || u64::from(leaves.of_u64(black_box(&sizes)))),
        "to_i32" => repeat(rounds, || leaves.to_i32(black_box(&floats)) as u64),
        "to_i64" => repeat(rounds, || leaves.to_i64(black_box(&floats)) as u64),
        "sqrt" => repeat(rounds, || u64::from(leaves.sqrt(black_box(&positive)))),
        other => panic!("no such leaf: {other}"),
    }
}

/// Within 2^20 of zero, with a fraction.
fn near_zero(n: u64) -> f32 {
    let size = (n % (1 << 28)) as f32 / 256.0;
    if n >> 63 == 0 {
        size
    } else {
        -size
    }
}

/// Varints behind a byte 0: of ten, four have two bytes, four three, one has one, and one four to nine.
fn varints(random: &mut Random) -> (Vec<u8>, usize) {
    let (mut file, mut count) = (vec![0], 0);
    while file.len() < VARINT_BYTES {
        let bytes = match random.next() % 10 {
            0 => 1,
            1 => 4 + random.next() % 6,
            pick => 2 + pick % 2,
        };
        for _ in 1..bytes {
            file.push(random.next() as u8 | 128);
        }
        file.push(random.next() as u8 & 127);
        count += 1;
    }
    (file, count)
}

fn run_verdict<L: Leaves>(held: bool, asked: bool, map: &str, cities: &str, rounds: u32) -> u64 {
    let file = fs::read(map).expect("map");
    let map = Map::read(&file);
    let fixed =
        |degrees: f32, scale: f32| (degrees / scale * (1u32 << (map.precision - 1)) as f32) as i32;
    let cities = read_cities(cities).into_iter();
    let cities: Vec<(i32, i32)> = cities
        .map(|(lat, lon)| (fixed(lat, 90.0), fixed(lon, 180.0)))
        .collect();
    let asked_of: Vec<(usize, i32, i32)> = if held {
        cities
            .iter()
            .flat_map(|&(lat, lon)| map.holding(lat, lon).map(move |place| (place, lat, lon)))
            .collect()
    } else {
        let turns = map.borders.iter().zip(cities.iter().cycle());
        turns
            .map(|(border, &(lat, lon))| (border.place, lat, lon))
            .collect()
    };
    let (place, length) = (file.as_ptr(), file.len());
    let leaves = L::of(file, &map);
    if rounds == 0 {
        // SAFETY: the bytes were handed on to `leaves`, which keeps them where they are.
        let file = unsafe { std::slice::from_raw_parts(place, length) };
        for &(place, lat, lon) in &asked_of {
            watched(file, &[], || leaves.verdict(place, lat, lon, asked));
        }
        return 0;
    }
    repeat(rounds, || {
        let mut sum = Checksum::new();
        for &(place, lat, lon) in &asked_of {
            let (verdict, least) = leaves.verdict(place, lat, lon, asked);
            sum.word(u64::from(verdict) ^ least);
        }
        sum.0
    })
}

/// Where a map's borders are.
#[derive(Default)]
pub struct Map {
    pub version: u8,
    pub precision: u8,
    pub data_offset: usize,
    borders: Vec<Border>,
}

struct Border {
    place: usize,
    /// Least latitude and longitude, greatest latitude and longitude.
    edges: [i32; 4],
}

impl Map {
    fn read(file: &[u8]) -> Map {
        let mut at = 7;
        for _ in 0..=file[6] {
            at += varint(file, &mut at) as usize;
        }
        let [table, metadata, _] = [(); 3].map(|()| varint(file, &mut at) as usize);
        let (end, data_offset) = (at + table, at + table + metadata);
        let (mut borders, mut place) = (Vec::new(), data_offset);
        while at < end {
            let edges = [(); 4].map(|()| signed(file, &mut at));
            signed(file, &mut at);
            place += varint(file, &mut at) as usize;
            borders.push(Border { place, edges });
        }
        Map {
            version: file[4],
            precision: file[5],
            data_offset,
            borders,
        }
    }

    fn holding(&self, lat: i32, lon: i32) -> impl Iterator<Item = usize> + '_ {
        let holds = move |[south, west, north, east]: [i32; 4]| {
            (south..=north).contains(&lat) && (west..=east).contains(&lon)
        };
        self.borders
            .iter()
            .filter(move |border| holds(border.edges))
            .map(|border| border.place)
    }
}

fn varint(file: &[u8], at: &mut usize) -> u64 {
    let (mut value, mut shift) = (0, 0);
    loop {
        let byte = file[*at];
        *at += 1;
        value |= u64::from(byte & 127) << shift;
        shift += 7;
        if byte < 128 {
            return value;
        }
    }
}

fn signed(file: &[u8], at: &mut usize) -> i32 {
    let value = varint(file, at);
    let half = (value / 2) as i32;
    if value & 1 == 0 {
        half
    } else {
        -half
    }
}

/// Numbers that look like chance, the same in every run (splitmix64).
struct Random(u64);

impl Random {
    fn next(&mut self) -> u64 {
        self.0 = self.0.wrapping_add(0x9e37_79b9_7f4a_7c15);
        let mixed = (self.0 ^ (self.0 >> 30)).wrapping_mul(0xbf58_476d_1ce4_e5b9);
        let mixed = (mixed ^ (mixed >> 27)).wrapping_mul(0x94d0_49bb_1331_11eb);
        mixed ^ (mixed >> 31)
    }

    /// One number in 64 is made the second way.
    fn some<T>(&mut self, near: impl Fn(u64) -> T, wild: impl Fn(u64) -> T) -> Vec<T> {
        let one = |_| match self.next() % 64 {
            0 => wild(self.next()),
            _ => near(self.next()),
        };
        (0..NUMBERS).map(one).collect()
    }
}
