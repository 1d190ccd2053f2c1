//! Many fixes in one call: what is expected are the Rust's answers to them one by one, each in the room that the earlier ones left.
use crate::files;
use crate::leaves::hex;
use crate::ours::replay;
use crate::phases::Run;
use crate::random::Random;
use crate::record::{reply_from, sized, Call, LOOKUP, MANY, ZONE_WORDS};
use crate::rooms::{room, slots_need, text_need};
use crate::rust::{caught, facts, open, refused, Facts, Refusal};
use crate::shrink::{parts, smallest};

/// The third list has so many words of each fix, and there are at most so many fixes.
const ANSWER_WORDS: usize = 3;
const MOST_FIXES: usize = 4096;

/// Disagreements that are made smaller and printed.
const SHOWN: usize = 10;

#[derive(Clone)]
pub struct Fixes {
    pub ask: bool,
    pub slots: usize,
    pub room: usize,
    pub third: usize,
    pub lats: Vec<u32>,
    pub lons: Vec<u32>,
    pub file: Vec<u8>,
}

/// What a call came to: fixes, matches and bytes used, or a refusal with its index; and the three lists.
#[derive(Default)]
pub struct Told {
    pub refusal: Option<(Refusal, usize)>,
    totals: [usize; 3],
    slots: Vec<u32>,
    third: Vec<u32>,
    text: Vec<u8>,
    /// The marks that were met.
    marks: Vec<u32>,
}

impl Told {
    pub fn bytes(&self) -> Vec<u8> {
        let (why, index) = self.refusal.clone().unwrap_or_default();
        let mut out = vec![self.refusal.is_some() as u8];
        out.extend(why.number.to_le_bytes());
        out.push(why.cause);
        out.extend(why.detail.to_le_bytes());
        let words = [index].into_iter().chain(self.totals).map(|n| n as u32);
        for word in words.chain(self.slots.iter().chain(&self.third).copied()) {
            out.extend(word.to_le_bytes());
        }
        out.extend(&self.text);
        out
    }
}

fn one(call: &Fixes, index: usize, slots: usize, room: usize, facts: &Facts) -> Result<crate::record::Reply, (Refusal, usize)> {
    let (lat, lon) = (call.lats[index], call.lons[index]);
    let said = reply_from(&Call { op: LOOKUP, lat, lon, ask: call.ask, slots, room, file: Vec::new() }, facts);
    if said.outcome == 1 { Err((said.refusal, index)) } else { Ok(said) }
}

fn answered(call: &Fixes, facts: &[Facts]) -> Result<Told, (Refusal, usize)> {
    let fixes = call.lats.len();
    if fixes != call.lons.len() || MOST_FIXES < fixes || call.third < ANSWER_WORDS * fixes {
        return Err((refused(33, 0, 0), 0));
    }
    open(&call.file).map_err(|why| (why, 0))?;
    let mut told = Told { totals: [fixes, 0, 0], ..Told::default() };
    for (index, facts) in facts.iter().enumerate() {
        let said = one(call, index, call.slots - told.slots.len(), call.room - told.text.len(), facts)?;
        let [matches, mark, safezone, used, _] = said.words;
        told.slots.extend(&said.slots[..ZONE_WORDS * matches as usize]);
        told.text.extend(&said.text[..used as usize]);
        told.third.extend([matches, mark, safezone]);
        told.marks.push(mark);
    }
    told.totals = [fixes, told.slots.len() / ZONE_WORDS, told.text.len()];
    Ok(told)
}

/// What the Rust says of each fix.
pub fn facts_of(call: &Fixes) -> Vec<Facts> {
    call.lats.iter().zip(&call.lons).map(|(&lat, &lon)| facts(&call.file, lat, lon)).collect()
}

pub fn told(call: &Fixes, facts: &[Facts]) -> Told {
    let mut told = answered(call, facts).unwrap_or_else(|refusal| Told { refusal: Some(refusal), ..Told::default() });
    told.slots.resize(call.slots, 0);
    told.third.resize(call.third, 0);
    told.text.resize(call.room, 0);
    told
}

fn record(call: &Fixes, id: u32, told: &Told) -> Vec<u8> {
    let mut body = vec![MANY];
    body.extend(id.to_le_bytes());
    body.push(call.ask as u8);
    let sizes = [call.lats.len(), call.lons.len(), call.slots, call.room, call.third, call.file.len()].map(|n| n as u32);
    for word in sizes.iter().chain(&call.lats).chain(&call.lons) {
        body.extend(word.to_le_bytes());
    }
    body.extend(&call.file);
    body.extend(told.bytes());
    sized(body)
}

/// Near the file's own location by a few steps of its grid, or anywhere.
fn fix(r: &mut Random, case: &files::Case) -> (u32, u32) {
    let steps = case.file.get(5).map_or(1.0, |p| 2f32.powi(i32::from(*p).min(32) - 1));
    let mut moved = |bits: u32, limit: f32| (f32::from_bits(bits) + r.between(-3, 3) as f32 * limit / steps).to_bits();
    let near = (moved(case.lat, 90.0), moved(case.lon, 180.0));
    match r.below(6) {
        0..=2 => (case.lat, case.lon),
        3 | 4 => near,
        _ => (files::coordinate(r, 90.0).to_bits(), files::coordinate(r, 180.0).to_bits()),
    }
}

/// A file with 0 to 6 fixes, seldom more; and its rooms, around what all of them need.
fn case(seed: u64, index: u64) -> Fixes {
    let (case, r) = (files::case(seed, index), &mut Random::new(seed, 8, index));
    let count = if r.one_in(50) { r.below(40) } else { r.below(7) };
    let (lats, lons) = (0..count).map(|_| fix(r, &case)).unzip();
    Fixes { ask: r.one_in(2), slots: 0, room: 0, third: ANSWER_WORDS * count + r.below(4), lats, lons, file: case.file }
}

fn lend(r: &mut Random, call: &mut Fixes, facts: &[Facts]) {
    let (mut slots, mut most, mut text) = (0, 0, 0);
    for facts in facts {
        let looked = if call.ask { &facts.full } else { &facts.plain };
        most = most.max(slots + slots_need(looked));
        slots += ZONE_WORDS * looked.as_ref().map_or(0, |looked| looked.matches.len());
        text += text_need(looked);
    }
    (call.slots, call.room) = (room(r, most).min(4096), room(r, text).min(16384));
    match r.below(30) {
        0 => call.third = r.below(call.third + 1),
        1 => call.lats.push(0),
        2 => call.lons.push(0),
        _ => {}
    }
}

fn smaller(call: &Fixes) -> Vec<Fixes> {
    let mut out: Vec<Fixes> = (0..call.lats.len().min(call.lons.len())).map(|i| {
        let mut less = call.clone();
        less.lats.remove(i);
        less.lons.remove(i);
        less
    }).collect();
    out.extend(parts(call.file.len()).into_iter().map(|(from, to)| {
        let mut less = call.clone();
        less.file.drain(from..to);
        less
    }));
    out
}

fn line(call: &Fixes) -> String {
    let bits = |list: &[u32]| list.iter().map(|bits| format!("{bits:08X}")).collect::<Vec<_>>().join(",");
    let (lats, lons) = (bits(&call.lats), bits(&call.lons));
    format!("ask {} slots {} room {} third {} lats {lats} lons {lons} file {}", call.ask as u8, call.slots, call.room, call.third, hex(&call.file))
}

/// The facts of a call whose lists go together; none are needed otherwise.
fn facts_if_taken(call: &Fixes) -> Vec<Facts> {
    if call.lats.len() == call.lons.len() { facts_of(call) } else { Vec::new() }
}

impl Run {
    fn first_wrong_fixes(&self, calls: &[Fixes]) -> Option<usize> {
        let told: Vec<(usize, Vec<u8>)> = calls.iter().enumerate()
            .filter_map(|(i, call)| Some((i, caught(|| record(call, 0, &told(call, &facts_if_taken(call)))).ok()?))).collect();
        told.iter().find(|(_, record)| replay(&self.replay, std::slice::from_ref(record)).is_ok_and(|said| !said.wrong.is_empty())).map(|found| found.0)
    }

    fn flush_many(&mut self, batch: &mut Vec<(Fixes, Told)>) -> Result<(), String> {
        let records: Vec<Vec<u8>> = batch.iter().enumerate().map(|(i, (call, told))| record(call, i as u32, told)).collect();
        let replayed = replay(&self.replay, &records)?;
        if replayed.skipped != 0 {
            return Err(format!("replay skipped {} calls of many fixes", replayed.skipped));
        }
        self.compared += records.len() as u64;
        self.wrong += replayed.wrong.len() as u64;
        for (id, said) in replayed.wrong.into_iter().take(SHOWN) {
            let least = smallest(batch[id].0.clone(), smaller, |calls| self.first_wrong_fixes(calls));
            println!("DISAGREES many fixes: {said}\n  smallest: {}", line(&least));
        }
        batch.clear();
        Ok(())
    }

    fn count_many(&mut self, told: &Told) {
        let outcome = match &told.refusal {
            Some((why, index)) => format!("refused {:>2}, index {}", why.number, if *index == 0 { "0" } else { "1 or more" }),
            None => format!("answered, {} fixes", match told.totals[0] { 0 => "0", 1 => "1", 2..=6 => "2 to 6", _ => "7 or more" }),
        };
        self.tally.add("many fixes", outcome);
        for mark in &told.marks {
            self.tally.add("many fixes", format!("end mark {mark}"));
        }
    }

    pub fn many(&mut self, many: u64) -> Result<(), String> {
        let mut batch = Vec::new();
        for index in 0..many {
            let mut call = case(self.seed, index);
            if call.file.len() > 65536 {
                self.tally.add("many fixes", "too large for replay, not run");
                continue;
            }
            let facts = match caught(|| facts_of(&call)) {
                Ok(facts) => facts,
                Err(why) => {
                    self.wrong += 1;
                    println!("HARNESS many {index}: {} {}", why.place, line(&call));
                    continue;
                }
            };
            lend(&mut Random::new(self.seed, 9, index), &mut call, &facts);
            let told = told(&call, &facts);
            self.count_many(&told);
            batch.push((call, told));
            if batch.len() == 2_000 {
                self.flush_many(&mut batch)?;
            }
        }
        self.flush_many(&mut batch)
    }
}
