//! salvage make SEED FILES INPUT: writes so many damaged files, one after the other. salvage check SEED FILES ANSWERS: holds what the library salvaged of
//! them against the unmodified Rust. `compare/salvage` builds it and runs both.
//!
//! Of each new file: the Rust opens it and finds names and notice as before; the metadata section is the old one; each entry has the old box,
//! metadata id, strings, and the old verdict and distance, or refusal, at several fixes; where nothing was dropped the Rust's lookups answer as before,
//! and salvaged entries are exactly those that the list does not name.
#![allow(dead_code)] // of the harness this uses some

#[path = "../borders.rs"]
mod borders;
#[path = "../encode.rs"]
mod encode;
#[path = "../files.rs"]
mod files;
#[path = "../random.rs"]
mod random;
#[path = "../rust.rs"]
mod rust;
#[path = "../tally.rs"]
mod tally;

use files::Case;
use random::Random;
use rust::{caught, Opening, Refusal};
use std::fs;
use tally::Tally;
use zone_detect_strict::hooks;
use zone_detect_strict::Database;

/// Every second one is a damaged file of the harness, of which most do not open; the others are whole files with a few bytes changed behind the header.
fn damaged(seed: u64, index: u64) -> Case {
    let which = index / 2;
    if index % 2 == 0 {
        return files::case(seed, which / 6 * 16 + 8 + which % 6);
    }
    let (mut case, r) = (files::case(seed, which / 8 * 16 + which % 8), &mut Random::new(seed, 21, index));
    let start = rust::open(&case.file).map_or(7, |opened| opened.table as usize);
    for _ in 0..1 + r.below(8) {
        let place = start + r.below(case.file.len() - start);
        let byte = match r.below(3) {
            0 => r.next() as u8,
            1 => r.pick(&[0, 0x7F, 0x80, 0xFF]),
            _ => case.file.get(place).map_or(0, |byte| byte ^ (1 << r.below(8))),
        };
        if let Some(changed) = case.file.get_mut(place) {
            *changed = byte;
        }
    }
    case
}

fn make(seed: u64, count: u64, path: &str) {
    let mut all = Vec::new();
    for index in 0..count {
        let file = damaged(seed, index).file;
        all.extend((file.len() as u32).to_le_bytes());
        all.extend(file);
    }
    fs::write(path, all).expect("the files");
}

struct Salvaged {
    file: Vec<u8>,
    /// Number and reason of each line.
    lines: Vec<(u32, u32)>,
    kept: usize,
}

/// The next answer, or the number of a refusal.
fn answer(from: &mut &[u8]) -> Result<Salvaged, u8> {
    let (number, rest) = from.split_first().expect("an answer");
    *from = rest;
    if *number != 0 {
        return Err(*number);
    }
    let mut word = || {
        let (word, rest) = from.split_at(4);
        *from = rest;
        u32::from_le_bytes(word.try_into().expect("four bytes"))
    };
    let (length, lines, kept) = (word(), word(), word());
    let lines = (0..lines).map(|_| (word(), word())).collect();
    let (file, rest) = from.split_at(length as usize);
    let file = file.to_vec();
    *from = rest;
    Ok(Salvaged { file, lines, kept: kept as usize })
}

/// An entry: box, metadata id, where its border begins.
struct Row {
    bounds: Vec<i32>,
    metadata: u32,
    border: u32,
}

/// The table's rows by the Rust's own reading of numbers, up to one that can't be read.
fn rows(raw: &Database, opened: &Opening) -> Vec<Row> {
    let (mut all, mut at, mut metadata, mut border) = (Vec::new(), opened.table, 0u32, 0u32);
    while at < opened.metadata {
        let mut entry = [0u64; 6];
        for number in &mut entry {
            match caught(|| hooks::forward(raw, at)) {
                Ok(Some((value, next))) => (*number, at) = (value, next),
                _ => return all,
            }
        }
        let signed: Vec<i32> = entry[..5].iter().map(|&number| hooks::signed(number)).collect();
        metadata = metadata.wrapping_add(signed[4] as u32);
        border = border.wrapping_add(entry[5] as u32);
        all.push(Row { bounds: signed[..4].to_vec(), metadata, border: opened.data.wrapping_add(border) });
    }
    all
}

fn strings(raw: &Database, opened: &Opening, row: &Row) -> Result<Vec<Vec<u8>>, Refusal> {
    let (mut all, mut at) = (Vec::new(), opened.metadata.wrapping_add(row.metadata));
    for _ in &opened.names {
        let (bytes, next) = rust::field(raw, at)?;
        all.push(bytes);
        at = next;
    }
    Ok(all)
}

/// Fixes on the grid: the case's own, the box's corners and middle, and anywhere.
fn grid_fixes(r: &mut Random, row: &Row) -> Vec<(i32, i32)> {
    let b = &row.bounds;
    let middle = |a: i32, c: i32| ((i64::from(a) + i64::from(c)) / 2) as i32;
    vec![(b[0], b[1]), (b[2], b[3]), (middle(b[0], b[2]), middle(b[1], b[3])), (r.next() as i32 >> r.below(24), r.next() as i32 >> r.below(24))]
}

fn same(what: &str, is: bool) -> Result<(), String> {
    if is { Ok(()) } else { Err(what.into()) }
}

/// Entry by entry.
fn entries(r: &mut Random, old: (&Database, &Opening), new: (&Database, &Opening), salvaged: &Salvaged) -> Result<(), String> {
    let dropped = |number: usize| salvaged.lines.iter().any(|line| line.0 as usize == number);
    let kept: Vec<Row> = rows(old.0, old.1).into_iter().enumerate().filter(|(number, _)| !dropped(*number)).map(|(_, row)| row).collect();
    let now = rows(new.0, new.1);
    same("number of entries", kept.len() == salvaged.kept && now.len() == salvaged.kept)?;
    for (before, after) in kept.iter().zip(&now) {
        same("box and id", (&before.bounds, before.metadata) == (&after.bounds, after.metadata))?;
        same("strings", strings(old.0, old.1, before).ok() == strings(new.0, new.1, after).ok())?;
        for fix in grid_fixes(r, before) {
            let verdict = |raw, place| caught(|| hooks::verdict(raw, place, fix.0, fix.1, true, u64::MAX));
            same("verdict", verdict(old.0, before.border) == verdict(new.0, after.border))?;
        }
    }
    Ok(())
}

/// Lookups of the whole Rust, where nothing was dropped.
fn lookups(r: &mut Random, case: &Case, new: &[u8], precision: u8) -> Result<(), String> {
    if !(1..=32).contains(&precision) {
        return Ok(());
    }
    let own = (f32::from_bits(case.lat), f32::from_bits(case.lon));
    let other = |r: &mut Random| (files::coordinate(r, 90.0), files::coordinate(r, 180.0));
    for (lat, lon) in [own, other(r), other(r), (own.0, -own.1), (own.0 / 2.0, own.1)] {
        same("lookup", rust::real_full(&case.file, lat, lon) == rust::real_full(new, lat, lon))?;
    }
    Ok(())
}

fn compare(r: &mut Random, case: &Case, salvaged: &Salvaged) -> Result<(), String> {
    let old = rust::open(&case.file).map_err(|why| format!("the old file does not open: {why:?}"))?;
    let new = rust::open(&salvaged.file).map_err(|why| format!("the new file does not open: {why:?}"))?;
    same("header", (old.kind, old.version, old.precision, &old.names, &old.notice) == (new.kind, new.version, new.precision, &new.names, &new.notice))?;
    let section = |file: &[u8], opened: &Opening| file[opened.metadata as usize..opened.data as usize].to_vec();
    same("metadata", section(&case.file, &old) == section(&salvaged.file, &new))?;
    let raw = |file: &[u8], opened: &Opening| hooks::raw(file.to_vec(), opened.version, opened.metadata, opened.data);
    entries(r, (&raw(&case.file, &old), &old), (&raw(&salvaged.file, &new), &new), salvaged)?;
    if salvaged.lines.is_empty() {
        lookups(r, case, &salvaged.file, old.precision)?;
    }
    Ok(())
}

/// Whether a refusal is that of strict opening, where that refuses.
fn refusal(case: &Case, number: u8) -> Result<(), String> {
    match rust::open_strictly(&case.file) {
        Err(why) => same("refusal of opening", u32::from(number) == why.number),
        Ok(_) => same("refusal", [26, 28, 32].contains(&number)),
    }
}

fn check(seed: u64, count: u64, path: &str) -> bool {
    let answers = fs::read(path).expect("the answers");
    let (mut from, mut tally, mut wrong) = (&answers[..], Tally::default(), 0);
    for index in 0..count {
        let (case, r) = (damaged(seed, index), &mut Random::new(seed, 20, index));
        let result = match answer(&mut from) {
            Err(number) => {
                tally.add("salvage", format!("refused {number:>2}"));
                refusal(&case, number)
            }
            Ok(salvaged) => {
                tally.add("salvage", if salvaged.lines.is_empty() { "nothing dropped" } else { "something dropped" });
                salvaged.lines.iter().for_each(|line| tally.add("reasons", format!("{:>2}", line.1)));
                compare(r, &case, &salvaged)
            }
        };
        if let Err(what) = result {
            wrong += 1;
            if wrong <= 10 {
                println!("WRONG case {index}: {what}: {:02X?}", case.file);
            }
        }
    }
    assert!(from.is_empty(), "more answers than files");
    tally.print();
    println!("\nsalvage: seed {seed}, {count} damaged files, {wrong} wrong");
    wrong == 0
}

fn main() {
    rust::listen();
    let words: Vec<String> = std::env::args().skip(1).collect();
    let [verb, seed, count, path] = &words[..] else { panic!("usage: salvage make|check SEED FILES PATH") };
    let number = |word: &String| word.parse::<u64>().expect("a number");
    match verb.as_str() {
        "make" => make(number(seed), number(count), path),
        _ => std::process::exit(i32::from(!check(number(seed), number(count), path))),
    }
}
