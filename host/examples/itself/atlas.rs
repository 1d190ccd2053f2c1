//! Lookups through an atlas against plain ones, on files with long borders; and through words that are no atlas. File, words and lent lists stand at pages that may not be touched.

use crate::common::fence::{Edge, Fence, EDGES};
use crate::common::{Buffers, Fix};
use crate::index::{damage, is_tidy, slots};
use crate::random::Random;
use crate::rings::Rings;
use crate::tally::Tally;
use uskelzar::raw;
use uskelzar::Number;

/// More bytes than a made file has, and more words than its atlas.
const MOST: usize = 1 << 18;

pub struct Atlas {
    file: Fence,
    words: Fence,
    lent: Buffers,
    room: Vec<u32>,
}

impl Atlas {
    pub fn new() -> Atlas {
        Atlas { file: Fence::new(2 * MOST), words: Fence::new(4 * MOST), lent: Buffers::new(), room: vec![0; MOST] }
    }

    pub fn compare(&mut self, random: &mut Random, tally: &mut Tally) {
        let rings = Rings::new(random);
        let (index, built) = (raw::build_index(&rings.bytes, &mut self.room), raw::build_atlas(&rings.bytes, &mut self.room));
        tally.met("atlas, building", built.map_or_else(|refusal| refusal.number as u8, |_| 0));
        tally.same(index.err() == built.err(), || format!("atlas: {built:?}, index {index:?}: {:02X?}", rings.bytes));
        let (Ok([indexed, ..]), Ok([used, ..])) = (index, built) else { return };
        let atlas = self.room[..used as usize].to_vec();
        if used > indexed + 1 + u64::from(atlas[2]) {
            tally.met("atlas with marks", 0);
        }
        let edge = random.pick(&EDGES);
        self.plain(random, tally, &rings, &atlas, edge);
        for _ in 0..4 {
            let mut words = atlas.clone();
            damage(random, &mut words, indexed as usize);
            self.damaged(random, tally, &rings, &words, edge);
        }
    }

    /// It is an atlas, and reply and both lent lists are those of the plain lookup.
    fn plain(&mut self, random: &mut Random, tally: &mut Tally, rings: &Rings, atlas: &[u32], edge: Edge) {
        let Atlas { file, words, lent, .. } = self;
        let (file, words) = (&*file.hold(&rings.bytes, edge), &*words.hold(atlas, edge));
        let said = raw::is_atlas(file, words);
        tally.same(said.is_ok(), || format!("is_atlas: {said:?} of what was built: {file:02X?}"));
        for _ in 0..6 {
            let (fix, slots) = (rings.fix(random), slots(random));
            let plain = lent.lookup(file, fix, slots, 64, edge);
            let through = lent.lookup_by(raw::lookup_atlas, (file, words), fix, slots, 64, edge);
            let Fix { lat, lon, asked } = fix;
            tally.met("plain and through an atlas", plain.number());
            tally.same(plain == through, || format!("atlas: {lat} {lon} {asked} {slots} {file:02X?}: {plain:?}, {through:?}"));
        }
    }

    /// What is said of words that may be none: `is_atlas` exactly where building leaves them in so many, and else 36; then lookups through them are plain. Of others a lookup is refused with
    /// 1 to 18 or 36, or answered, with zeros behind what it wrote; at the other edge it is the same.
    fn damaged(&mut self, random: &mut Random, tally: &mut Tally, rings: &Rings, damaged: &[u32], edge: Edge) {
        let (fix, slots) = (rings.fix(random), slots(random));
        let Atlas { file, words, lent, room } = self;
        let room = &mut room[..damaged.len()];
        let built = raw::build_atlas(&rings.bytes, room).is_ok() && *room == *damaged;
        let file = &*file.hold(&rings.bytes, edge);
        let other = match edge {
            Edge::Front => Edge::Back,
            Edge::Back => Edge::Front,
        };
        let beside = lent.lookup_by(raw::lookup_atlas, (file, words.hold(damaged, other)), fix, slots, 64, edge);
        let words = &*words.hold(damaged, edge);
        let said = raw::is_atlas(file, words).map_err(|refusal| refusal.number);
        let right = if built { said.is_ok() } else { said == Err(Number::OtherIndex) };
        tally.same(right, || format!("is_atlas: {said:?}, built {built}: {file:02X?} {damaged:?}"));
        let through = lent.lookup_by(raw::lookup_atlas, (file, words), fix, slots, 64, edge);
        let Fix { lat, lon, asked } = fix;
        tally.met(if built { "damaged words that are the atlas" } else { "damaged words of an atlas" }, through.number());
        let right = through == beside && is_tidy(&through) && (!built || through == lent.lookup(file, fix, slots, 64, edge));
        tally.same(right, || format!("damaged atlas: {lat} {lon} {asked} {slots} {file:02X?} {damaged:?}: {through:?}, at the other edge {beside:?}"));
    }
}
