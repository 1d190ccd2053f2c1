//! Borders on their own, as lines for vectors: the points that the reader delivers, and the verdict.
use crate::borders::{border, Data};
use crate::encode::Style;
use crate::leaves::hex;
use crate::random::Random;
use crate::rust::{caught, Refusal};
use zone_detect_hooked::hooks;

/// What vectors has room for.
const BYTES: usize = 128;
const POINTS: usize = 118;

#[derive(Clone)]
pub struct Border {
    pub version: u8,
    pub data: u32,
    pub place: u32,
    pub fix: (i32, i32),
    pub ask: bool,
    pub least: u64,
    pub file: Vec<u8>,
}

pub struct Told {
    pub line: String,
    pub points: usize,
    pub end: String,
    pub verdict: String,
    pub panics: Vec<String>,
}

fn refusal(why: &Refusal) -> String {
    format!("refused {} 0", why.number)
}

/// The points before a panic, one by one with a growing limit.
fn points_before(raw: &zone_detect_hooked::Database, place: u32) -> usize {
    (1..=POINTS + 1).find(|&n| caught(|| hooks::points(raw, place, n)).is_err()).unwrap_or(POINTS + 2) - 1
}

/// None where vectors has no room for the border.
pub fn told(b: &Border) -> Option<Told> {
    if b.file.len() > BYTES {
        return None;
    }
    let raw = hooks::raw(b.file.clone(), b.version, 0, b.data);
    let mut panics = Vec::new();
    let (end, list, count) = match caught(|| hooks::points(&raw, b.place, POINTS + 1)) {
        Ok((list, whole)) => {
            let words: String = list.iter().map(|p| format!(" {},{}", p.0, p.1)).collect();
            (if whole { "points ok" } else { "points failed" }.to_string(), words, list.len())
        }
        Err(why) => {
            panics.push(why.place.clone());
            (refusal(&why), String::new(), points_before(&raw, b.place))
        }
    };
    if count > POINTS {
        return None;
    }
    let verdict = match caught(|| hooks::verdict(&raw, b.place, b.fix.0, b.fix.1, b.ask, b.least)) {
        Ok((verdict, least)) => format!("verdict {verdict} {least}"),
        Err(why) => {
            panics.push(why.place.clone());
            refusal(&why)
        }
    };
    let line = format!("border {} {} {} {} {} {} {} {} > {end}{list} > {verdict}",
        b.version, b.data, b.place, b.fix.0, b.fix.1, b.ask as u8, b.least, hex(&b.file));
    Some(Told { line, points: count, end, verdict, panics })
}

fn fixed(r: &mut Random) -> i32 {
    match r.below(10) {
        0 => r.next() as i32,
        1 => r.pick(&[i32::MIN, i32::MAX, i32::MIN + 1, i32::MAX - 1]),
        2 => r.wild() as i32,
        3..=5 => r.between(-1_000_000, 1_000_000) as i32,
        _ => r.between(-20, 20) as i32,
    }
}

fn damage(r: &mut Random, b: &mut Border) {
    match r.below(6) {
        0 => b.file.truncate(r.below(b.file.len() + 1)),
        1 => {
            let at = r.below(b.file.len() + 1);
            b.file.insert(at, r.pick(&[0, 1, 0x80, 0xFF]));
        }
        2 => b.place = if r.one_in(4) { r.next() as u32 } else { r.below(b.file.len() + 2) as u32 },
        3 => b.data = if r.one_in(2) { r.next() as u32 } else { r.below(b.file.len() + 2) as u32 },
        _ => {
            for _ in 0..1 + r.below(3) {
                if !b.file.is_empty() {
                    let at = r.below(b.file.len());
                    b.file[at] ^= 1 << r.below(8);
                }
            }
        }
    }
}

fn any(r: &mut Random) -> Border {
    let version = r.below(3).min(1) as u8;
    let fix = (fixed(r), fixed(r));
    let before = r.below(4);
    let mut data = Data { version, bytes: Vec::new(), runs: Vec::new() };
    let style = Style::any(r);
    let mut place = 0;
    for _ in 0..1 + r.below(3) {
        (place, _) = border(r, style, &mut data, fix);
    }
    let mut file = r.bytes(before);
    file.extend(data.bytes);
    let least = r.pick(&[u64::MAX, u64::MAX, u64::MAX, 0, 1, 1 << 20, 1 << 40, 1 << 62]);
    Border { version, data: before as u32, place: (before + place) as u32, fix, ask: !r.one_in(4), least, file }
}

pub fn case(seed: u64, index: u64) -> Border {
    let mut r = Random::new(seed, 3, index);
    loop {
        let mut b = any(&mut r);
        if r.one_in(4) {
            damage(&mut r, &mut b);
        }
        if told(&b).is_some() {
            return b;
        }
    }
}

/// Borders with a part left out.
pub fn smaller(b: &Border) -> Vec<Border> {
    let mut out = Vec::new();
    for (from, to) in crate::shrink::parts(b.file.len()) {
        let mut file = b.file.clone();
        file.drain(from..to);
        let moved = |place: u32| if place as usize >= to { place - (to - from) as u32 } else { place };
        out.push(Border { file: file.clone(), place: moved(b.place), data: moved(b.data), ..b.clone() });
        out.push(Border { file, ..b.clone() });
    }
    if b.ask {
        out.push(Border { ask: false, ..b.clone() });
    }
    out
}
