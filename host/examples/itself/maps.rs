//! Fixes on maps: plain lookups against those through an atlas. File, words and lent lists stand at pages that may not be touched.

use crate::common::fence::{Fence, EDGES};
use crate::common::{Buffers, Fix};
use crate::random::Random;
use crate::tally::Tally;
use uskelzar::raw::{self, HIT_WORDS};
use uskelzar::{Atlas, Map};

const WORDS: usize = 64 * HIT_WORDS;
const BYTES: usize = 4096;
/// How far beside a border, in steps of the grid.
const BESIDE: i32 = 64;

/// So many fixes on the map of a file, half of them anywhere, the others within some steps of a border's point; every fourth with the safezone.
pub fn compare(path: &str, random: &mut Random, count: u64, tally: &mut Tally) {
    let map = Map::read(path).expect("a map");
    let borders: Vec<Vec<(i32, i32)>> = map.entries().expect("a table").map(|entry| map.border(&entry.expect("an entry")).expect("a border")).collect();
    let atlas = Atlas::build(&map).expect("an atlas");
    let (mut file, mut words, mut lent) = (Fence::new(map.bytes().len()), Fence::new(4 * atlas.words().len()), Buffers::new());
    let edge = random.pick(&EDGES);
    let (file, words) = (&*file.hold(map.bytes(), edge), &*words.hold(atlas.words(), edge));
    assert!(raw::is_atlas(file, words).is_ok(), "what was built is no atlas");
    for number in 0..count {
        let (lat, lon) = if number % 2 == 0 { anywhere(random) } else { beside(&map, &borders, random) };
        let fix = Fix { lat, lon, asked: random.once_in(4) };
        let plain = lent.lookup(file, fix, WORDS, BYTES, edge);
        let through = lent.lookup_by(raw::lookup_atlas, (file, words), fix, WORDS, BYTES, edge);
        tally.met(if number % 2 == 0 { "anywhere" } else { "beside a border" }, plain.number());
        tally.same(plain == through, || format!("{path}: {lat} {lon} {}: {plain:?}, {through:?}", fix.asked));
    }
    println!("{path}: {count} fixes, {} words of atlas", atlas.words().len());
}

fn anywhere(random: &mut Random) -> (f32, f32) {
    let mut part = || (random.next() >> 11) as f64 / (1u64 << 53) as f64;
    ((180.0 * part() - 90.0) as f32, (360.0 * part() - 180.0) as f32)
}

fn beside(map: &Map<Vec<u8>>, borders: &[Vec<(i32, i32)>], random: &mut Random) -> (f32, f32) {
    let border = &borders[random.below(borders.len())];
    let mut near = |at: i32| at + random.below(2 * BESIDE as usize + 1) as i32 - BESIDE;
    let at = (near(0), near(0));
    let (lat, lon) = random.pick(border);
    let (lat, lon) = map.degrees((lat + at.0, lon + at.1));
    (lat as f32, lon as f32)
}
