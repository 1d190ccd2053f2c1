//! itself SEED COUNT [MAP..]: holds the library against itself, on made files and calls, for compare/itself; with maps, that many fixes on each of them, for compare/atlas. The last line is
//! "itself: seed N, M compared, W wrong", or that of "atlas".
//!
//! Lookups through an index against plain ones, and through damaged words (index.rs); the same of an atlas (atlas.rs, maps.rs); strict forms against plain ones (strict.rs); builders that hold
//! yards against files built afresh, and with lists that grow (draft.rs). Files have extreme and inverted boxes (made.rs), those of an atlas long borders (rings.rs). Lent lists stand at pages
//! that may not be touched: a call that reads or writes outside them ends the program.

#[path = "../../tests/common/mod.rs"]
mod common;
mod atlas;
mod draft;
mod index;
mod made;
mod maps;
mod random;
mod rings;
mod strict;
mod tally;

use random::Random;
use std::process::ExitCode;
use tally::Tally;

fn main() -> ExitCode {
    let words: Vec<String> = std::env::args().skip(1).collect();
    let numbers: Vec<u64> = words.iter().take(2).filter_map(|word| word.parse().ok()).collect();
    let [seed, count] = numbers[..] else {
        eprintln!("usage: itself SEED COUNT [MAP..]");
        return ExitCode::from(2);
    };
    let (paths, mut tally) = (&words[2..], Tally::default());
    if paths.is_empty() {
        on_made_files(seed, count, &mut tally);
    }
    for path in paths {
        maps::compare(path, &mut Random(seed.wrapping_mul(1 << 32)), count, &mut tally);
    }
    tally.print_met();
    let what = if paths.is_empty() { "itself" } else { "atlas" };
    println!("{what}: seed {seed}, {} compared, {} wrong", tally.compared, tally.wrong);
    ExitCode::from(u8::from(tally.wrong > 0))
}

fn on_made_files(seed: u64, count: u64, tally: &mut Tally) {
    let (mut index, mut atlas, mut strict, mut lists) = (index::Index::new(), atlas::Atlas::new(), strict::Strict::new(), draft::Lists::new());
    for number in 0..count {
        let random = &mut Random(seed.wrapping_mul(1 << 32).wrapping_add(number));
        index.compare(random, tally);
        atlas.compare(random, tally);
        strict.compare(random, tally);
        if number % 16 == 0 {
            draft::compare(&mut lists, random, tally);
        }
    }
}
