//! Lookups through an index against plain ones; and through words that are no index, with file, words and lent lists at pages that may not be touched.

use crate::common::fence::{Edge, Fence, EDGES};
use crate::common::{Buffers, Fix, Outcome};
use crate::made::Made;
use crate::random::Random;
use crate::tally::Tally;
use uskelzar::raw::{self, HIT_WORDS};
use uskelzar::Number;

/// The head of an index: length, metadata start, count, where the lists of the tiles begin and the last one ends. Behind it, and its last word, stand records, kept bytes and lists.
const HEAD: usize = 2052;

pub struct Index {
    file: Fence,
    words: Fence,
    lent: Buffers,
    room: Vec<u32>,
}

pub fn slots(random: &mut Random) -> usize {
    random.pick(&[0, HIT_WORDS, 12 * HIT_WORDS])
}

/// One to three words changed, half of them from a place on: a bit, any value, one beside it, another word's, a small one; or some cut off, or some put behind.
pub fn damage(random: &mut Random, words: &mut Vec<u32>, from: usize) {
    match random.below(8) {
        0 => words.truncate(random.below(words.len() + 1)),
        1 => words.resize(words.len() + 1 + random.below(4), random.pick(&[0, 0, 1, u32::MAX])),
        _ => (0..1 + random.below(3)).for_each(|_| change(random, words, from)),
    }
}

fn change(random: &mut Random, words: &mut [u32], from: usize) {
    let at = match random.below(6) {
        0 => random.below(4),
        1 | 2 => random.below(from),
        _ => random.below(words.len() - from) + from,
    };
    words[at] = match random.below(6) {
        0 => words[at] ^ 1 << random.below(32),
        1 => random.next() as u32,
        2 => words[at].wrapping_add(random.pick(&[1, u32::MAX])),
        3 => words[random.below(words.len())],
        4 => random.below(16) as u32,
        _ => random.pick(&[0, u32::MAX, i32::MAX as u32, i32::MIN as u32, words.len() as u32]),
    };
}

impl Index {
    pub fn new() -> Index {
        Index { file: Fence::new(4096), words: Fence::new(4 << 16), lent: Buffers::new(), room: vec![0; 1 << 16] }
    }

    pub fn compare(&mut self, random: &mut Random, tally: &mut Tally) {
        let made = Made::new(random);
        let Ok([used, ..]) = raw::build_index(&made.bytes, &mut self.room) else { return };
        let index = self.room[..used as usize].to_vec();
        let edge = random.pick(&EDGES);
        for _ in 0..6 {
            self.plain(random, tally, &made, &index, edge);
        }
        for _ in 0..4 {
            let mut words = index.clone();
            damage(random, &mut words, HEAD - 1);
            self.damaged(random, tally, &made, &words, edge);
        }
    }

    /// Reply and both lent lists are those of the plain lookup.
    fn plain(&mut self, random: &mut Random, tally: &mut Tally, made: &Made, index: &[u32], edge: Edge) {
        let (fix, slots) = (made.fix(random), slots(random));
        let Index { file, words, lent, .. } = self;
        let (file, words) = (&*file.hold(&made.bytes, edge), &*words.hold(index, edge));
        let plain = lent.lookup(file, fix, slots, 64, edge);
        let indexed = lent.lookup_by(raw::lookup_indexed, (file, words), fix, slots, 64, edge);
        let through = lent.lookup_by(raw::lookup_through, (file, words), fix, slots, 64, edge);
        let Fix { lat, lon, asked } = fix;
        tally.met("plain and through an index", plain.number());
        tally.same(plain == indexed && plain == through, || format!("index: {lat} {lon} {asked} {slots} {file:02X?}: {plain:?}, {indexed:?}, {through:?}"));
    }

    /// What is said of words that may be no index: `is_index` exactly where building leaves them in so many; then lookups through them are plain. Of others a lookup is refused with 1 to 18 or 36, or
    /// answered, with zeros behind what it wrote; at the other edge it is the same; and compared with the file first it is 36 where they are not tied, and else the same.
    fn damaged(&mut self, random: &mut Random, tally: &mut Tally, made: &Made, damaged: &[u32], edge: Edge) {
        let (fix, slots) = (made.fix(random), slots(random));
        let Index { file, words, lent, room } = self;
        let built = raw::build_index(&made.bytes, &mut room[..damaged.len()]).is_ok() && room[..damaged.len()] == *damaged;
        let file = &*file.hold(&made.bytes, edge);
        let other = match edge {
            Edge::Front => Edge::Back,
            Edge::Back => Edge::Front,
        };
        let beside = lent.lookup_by(raw::lookup_through, (file, words.hold(damaged, other)), fix, slots, 64, edge);
        let words = &*words.hold(damaged, edge);
        let said = raw::is_index(file, words);
        tally.same(said.is_ok() == built, || format!("is_index: {said:?}, built {built}: {file:02X?} {damaged:?}"));
        let through = lent.lookup_by(raw::lookup_through, (file, words), fix, slots, 64, edge);
        let indexed = lent.lookup_by(raw::lookup_indexed, (file, words), fix, slots, 64, edge);
        let Fix { lat, lon, asked } = fix;
        tally.met(if built { "damaged words that are the index" } else { "damaged words" }, through.number());
        let right = through == beside && is_tidy(&through) && (!built || through == lent.lookup(file, fix, slots, 64, edge));
        tally.same(right, || format!("damaged index: {lat} {lon} {asked} {slots} {file:02X?} {damaged:?}: {through:?}, at the other edge {beside:?}"));
        let tied = raw::index_tied(file, words);
        tally.met("damaged words, held against the file", indexed.number());
        let right = match tied {
            Ok(_) => indexed == through,
            Err(refusal) => indexed.reply == Err(refusal) && is_tidy(&indexed),
        };
        tally.same(right, || format!("damaged index: {lat} {lon} {asked} {slots} {file:02X?} {damaged:?}: {indexed:?}, tied {tied:?}"));
    }
}

/// Zeros behind what was written; refused with a number that is promised.
pub fn is_tidy(outcome: &Outcome) -> bool {
    let (words, bytes) = outcome.reply.map_or((0, 0), |reply| (HIT_WORDS * reply[0] as usize, reply[3] as usize));
    let numbered = outcome.reply.map_or_else(|refusal| (refusal.number as u8) <= 18 || refusal.number == Number::OtherIndex, |_| true);
    numbered && outcome.hits[words..].iter().all(|word| *word == 0) && outcome.text[bytes..].iter().all(|byte| *byte == 0)
}
