//! How much room a case is lent, about what it needs.
use crate::random::Random;
use crate::record::ZONE_WORDS;
use crate::rust::{Facts, Looked};

/// Around what is needed: often just enough or one too few.
pub fn room(r: &mut Random, need: usize) -> usize {
    match r.below(40) {
        0 | 1 => need.saturating_sub(1),
        2 => r.below(need + 4),
        3 => 0,
        4..=14 => need,
        _ => need + r.below(5),
    }
}

pub fn text_need(looked: &Option<Looked>) -> usize {
    looked.as_ref().map_or(0, |l| l.fields.iter().map(|f| 3 + f.2.len()).sum())
}

pub fn slots_need(looked: &Option<Looked>) -> usize {
    looked.as_ref().map_or(0, |l| ZONE_WORDS * l.hits.len())
}

pub fn names_need(facts: &Facts) -> usize {
    facts.opened.as_ref().map_or(0, |o| o.names.iter().chain([&o.notice]).map(|n| 2 + n.len()).sum())
}
