//! What the library says at many places.

use crate::output;
use indicatif::ProgressBar;
use std::collections::HashMap;
use uskelzar::raw::MOST_FIXES;
use uskelzar::{Kind, Map, Zones};

/// A place as the library is asked: latitude, longitude.
pub type Fix = (f32, f32);

/// What was said at a fix.
#[derive(Clone, Debug, Eq, Hash, PartialEq)]
pub enum Answer {
    /// The search's end mark; each zone that holds the fix, by its number in the file, with its kind.
    Told { end: u8, zones: Vec<(u32, u8)> },
    /// Why nothing was.
    Refused(String),
}

impl Answer {
    fn of(told: Zones) -> Answer {
        let zones = told.matches.iter().map(|zone| (zone.metadata, zone.kind as u8)).collect();
        Answer::Told { end: told.end as u8, zones }
    }

    pub fn is_whole(&self) -> bool {
        matches!(self, Answer::Told { end: 1, .. })
    }

    pub fn has(&self, zone: u32) -> bool {
        matches!(self, Answer::Told { zones, .. } if zones.iter().any(|(found, _)| *found == zone))
    }

    /// The zones that the fix is inside of, not on the border.
    pub fn inside(&self) -> Vec<u32> {
        let Answer::Told { zones, .. } = self else { return vec![] };
        zones.iter().filter(|(_, kind)| *kind == Kind::InZone as u8).map(|(zone, _)| *zone).collect()
    }
}

/// Different answers, each once; a place has the number of its answer.
#[derive(Default)]
pub struct Answers {
    pub all: Vec<Answer>,
    numbers: HashMap<Answer, u32>,
}

impl Answers {
    fn number(&mut self, answer: Answer) -> u32 {
        let next = self.all.len() as u32;
        *self.numbers.entry(answer).or_insert_with_key(|answer| {
            self.all.push(answer.clone());
            next
        })
    }

    pub fn get(&self, number: u32) -> &Answer {
        &self.all[number as usize]
    }

    /// Asks at each fix, in their order; several threads share them.
    pub fn ask(&mut self, map: &Map<Vec<u8>>, fixes: &[Fix], what: &'static str) -> Vec<u32> {
        let bar = output::progress(fixes.len(), what);
        let threads = std::thread::available_parallelism().map_or(1, usize::from);
        let share = fixes.len().div_ceil(threads).max(1);
        let told: Vec<Vec<Answer>> = std::thread::scope(|scope| {
            let parts: Vec<_> = fixes.chunks(share).map(|part| scope.spawn(|| ask_part(map, part, &bar))).collect();
            parts.into_iter().map(|part| part.join().expect("asking does not panic")).collect()
        });
        bar.finish_and_clear();
        told.into_iter().flatten().map(|answer| self.number(answer)).collect()
    }
}

fn ask_part(map: &Map<Vec<u8>>, fixes: &[Fix], bar: &ProgressBar) -> Vec<Answer> {
    let mut told = Vec::with_capacity(fixes.len());
    while told.len() < fixes.len() {
        let (before, rest) = (told.len(), &fixes[told.len()..]);
        ask_some(map, &rest[..rest.len().min(MOST_FIXES)], &mut told);
        bar.inc((told.len() - before) as u64);
    }
    told
}

/// At least the first of them. A refusal stops them all, so those before it are asked again.
fn ask_some(map: &Map<Vec<u8>>, fixes: &[Fix], told: &mut Vec<Answer>) {
    match map.lookup_many(fixes) {
        Ok(answers) => told.extend(answers.map(|zones| zones.map_or_else(|unknown| Answer::Refused(unknown.to_string()), Answer::of))),
        Err(stop) => {
            if stop.index > 0 {
                ask_some(map, &fixes[..stop.index], told);
            }
            told.push(Answer::Refused(stop.why.to_string()));
        }
    }
}
