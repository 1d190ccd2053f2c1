//! yards FOLDER: asks the unmodified Rust what the library answered for files made from polygons. `compare/yards` builds it and fills the folder:
//! NAME.txt has a line for each fix (bits of latitude, longitude and safezone, then the matches), NAME.WAY.plb the same polygons, written three ways.

use std::path::{Path, PathBuf};
use zone_detect::{Database, Location, ZoneMatch};

fn words_of(names: &[String], found: &ZoneMatch) -> String {
    let values: Vec<&str> = names.iter().map(|name| found.zone.fields[name].as_str()).collect();
    format!("{} {} {:?} {:?}", found.zone.polygon_id, found.zone.meta_id, found.kind, values)
}

/// Whether the Rust answers a line's fix with the line's matches and safezone.
fn is_same(rust: &Database, line: &str) -> bool {
    let mut words = line.splitn(4, ' ');
    let mut bits = || words.next().and_then(|word| word.parse::<u32>().ok()).expect("a number of bits");
    let (lat, lon, safezone) = (bits(), bits(), bits());
    let looked = rust.lookup(Location::new(f32::from_bits(lat), f32::from_bits(lon)));
    let matches: Vec<String> = looked.matches.iter().map(|found| words_of(&rust.field_names, found)).collect();
    looked.safezone.to_bits() == safezone && words.next().unwrap_or("") == matches.join("|")
}

/// How many fixes were compared, and how many are wrong.
fn compare(answers: &Path, way: &str) -> (usize, usize) {
    let text = std::fs::read_to_string(answers).expect("answers");
    let file = answers.with_extension(format!("{way}.plb"));
    let rust = Database::open(&file).unwrap_or_else(|error| panic!("{}: {error}", file.display()));
    let wrong: Vec<&str> = text.lines().filter(|line| !is_same(&rust, line)).collect();
    wrong.iter().take(3).for_each(|line| println!("WRONG {line}"));
    let count = text.lines().count();
    println!("{}: {count} fixes, {} wrong", file.display(), wrong.len());
    (count, wrong.len())
}

fn main() {
    let folder = std::env::args().nth(1).expect("usage: yards FOLDER");
    let entries = std::fs::read_dir(folder).expect("the folder");
    let mut answers: Vec<PathBuf> = entries.map(|entry| entry.expect("an entry").path()).filter(|path| path.extension().is_some_and(|word| word == "txt")).collect();
    answers.sort();
    let (mut fixes, mut wrong) = (0, 0);
    for path in &answers {
        for way in ["version-0", "version-1", "pieces"] {
            let (count, differ) = compare(path, way);
            (fixes, wrong) = (fixes + count, wrong + differ);
        }
    }
    println!("{fixes} fixes, {wrong} wrong");
    std::process::exit(i32::from(wrong > 0 || fixes == 0));
}
