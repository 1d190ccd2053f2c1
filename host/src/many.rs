//! Many fixes in one call.

use crate::answer::{Unknown, Zones};
use crate::entries::Entries;
use crate::map::Map;
use crate::raw::{self, ANSWER_WORDS, HIT_WORDS};
use crate::refusal::{Number, Stop};

/// The zones of each of many fixes, in their order. Behind a number that is not known it ends.
pub struct Answers<'a, B> {
    map: &'a Map<B>,
    hits: Vec<u32>,
    text: Vec<u8>,
    answers: Vec<u32>,
    /// How much of each list is taken.
    hit: usize,
    byte: usize,
    answer: usize,
}

/// Room for one lookup is enough for so many fixes of nearly every map.
const FIXES_IN_A_ROOM: usize = 128;

impl<B: AsRef<[u8]>> Map<B> {
    /// The zones that hold each of at most 4,096 fixes, in degrees: what [`Map::lookup`] gives for each. The file is opened once. Where each of them
    /// is answered alone so are all together: the room that is lent grows up to the map's own for every fix.
    pub fn lookup_many(&self, fixes: &[(f32, f32)]) -> Result<Answers<'_, B>, Stop> {
        let (lats, lons): (Vec<f32>, Vec<f32>) = fixes.iter().copied().unzip();
        let mut rooms = 1 + fixes.len() / FIXES_IN_A_ROOM;
        loop {
            let asked = self.ask_many(&lats, &lons, rooms);
            match asked {
                Err(stop) if is_for_room(stop.why.number) && rooms < fixes.len() => rooms = fixes.len().min(2 * rooms),
                _ => return asked,
            }
        }
    }

    /// In the map's room so many times.
    fn ask_many(&self, lats: &[f32], lons: &[f32], rooms: usize) -> Result<Answers<'_, B>, Stop> {
        let (mut hits, mut text) = self.buffers(rooms);
        let mut answers = vec![0; ANSWER_WORDS * lats.len()];
        match self.atlas() {
            Some(atlas) => raw::many_atlas((self.bytes(), atlas.words()), lats, lons, true, &mut hits, &mut text, &mut answers)?,
            None => raw::lookup_many(self.bytes(), lats, lons, true, &mut hits, &mut text, &mut answers)?,
        };
        Ok(Answers {
            map: self,
            hits,
            text,
            answers,
            hit: 0,
            byte: 0,
            answer: 0,
        })
    }
}

fn is_for_room(number: Number) -> bool {
    matches!(number, Number::TooManyHits | Number::TextRoom)
}

impl<B: AsRef<[u8]>> Iterator for Answers<'_, B> {
    type Item = Result<Zones, Unknown>;

    fn next(&mut self) -> Option<Result<Zones, Unknown>> {
        let said = self.answers.get(self.answer..self.answer + ANSWER_WORDS)?;
        let said = [said[0], said[1], said[2]].map(u64::from);
        let mut fields = Entries(&self.text[self.byte..]);
        let zones = self.map.zones_of(said, &self.hits[self.hit..], &mut fields);
        self.byte = self.text.len() - fields.0.len();
        self.hit += HIT_WORDS * said[0] as usize;
        self.answer = if zones.is_ok() { self.answer + ANSWER_WORDS } else { self.answers.len() };
        Some(zones)
    }
}
