//! What is said in more than one place is the same there: the release, and the refusals of docs/FORMAT.md, of the header and of `Number`.

use std::fs;
use uskelzar::{raw, Number, Refusal};

fn text(path: &str) -> String {
    fs::read_to_string(format!("{}/../{path}", env!("CARGO_MANIFEST_DIR"))).unwrap()
}

/// The word behind a mark, up to a blank, without quotes.
fn behind<'a>(text: &'a str, mark: &str) -> &'a str {
    let rest = &text[text.find(mark).unwrap_or_else(|| panic!("no {mark}")) + mark.len()..];
    rest.split_whitespace().next().unwrap().trim_matches('"')
}

/// Name and number of each refusal that the header names, but for 0.
fn header_refusals() -> Vec<(String, u8)> {
    let header = text("include/uskelzar.h");
    let table = header.split("enum uskelzar_refusal {").nth(1).unwrap().split("};").next().unwrap();
    let lines = table.lines().filter_map(|line| line.trim().strip_prefix("USKELZAR_"));
    let named = lines.map(|line| line.split_once(" = ").unwrap());
    let numbered = named.map(|(name, rest)| (name.to_string(), rest.split([',', ' ']).next().unwrap().parse().unwrap()));
    numbered.filter(|(_, number)| *number != 0).collect()
}

/// `TzifMagic` as `TZIF_MAGIC`.
fn in_capitals(name: &str) -> String {
    let mut out = String::new();
    for letter in name.chars() {
        if letter.is_uppercase() && !out.is_empty() {
            out.push('_');
        }
        out.extend(letter.to_uppercase());
    }
    out
}

#[test]
fn one_release() {
    let header = text("include/uskelzar.h");
    let version = env!("CARGO_PKG_VERSION");
    assert_eq!(behind(&header, "#define USKELZAR_RELEASE "), version);
    for page in ["uskelzar", "uskelzar-office"] {
        assert_eq!(behind(&text(&format!("include/{page}.pc")), "Version:"), version);
    }
    let parts: Vec<u32> = version.split('.').map(|part| part.parse().unwrap()).collect();
    let number = parts[0] * 10_000 + parts[1] * 100 + parts[2];
    assert_eq!(behind(&header, "#define USKELZAR_RELEASE_NUMBER "), number.to_string());
}

#[test]
fn one_list_of_refusals() {
    let named = |(name, number): &(String, u8)| (name.clone(), *number);
    let header: Vec<_> = header_refusals().iter().map(named).collect();
    let rust: Vec<_> = uskelzar::Number::all().map(|known| (in_capitals(&format!("{known:?}")), known as u8)).collect();
    assert_eq!(header, rust);
}

/// The rows of docs/FORMAT.md's table of refusals: number, name, when, cause, detail, where in the order.
fn format_refusals() -> Vec<[String; 6]> {
    let page = text("docs/FORMAT.md");
    let table = page.split("## Refusals").nth(1).unwrap().lines().filter(|line| line.starts_with("| "));
    let cells = |line: &str| -> [String; 6] {
        let cells: Vec<String> = line.trim_matches('|').split('|').map(|cell| cell.trim().to_string()).collect();
        cells.try_into().unwrap_or_else(|cells| panic!("not six cells: {cells:?}"))
    };
    table.map(cells).filter(|cells| cells[0] != "No.").collect()
}

/// What the header says beside a refusal's name.
fn header_says(name: &str) -> String {
    let header = text("include/uskelzar.h");
    let line = header.lines().find(|line| line.trim().starts_with(&format!("USKELZAR_{name} = "))).unwrap();
    line.split_once("/*").unwrap().1.to_string()
}

#[test]
fn the_format_page_has_every_refusal() {
    let page: Vec<(String, u8)> = format_refusals().iter().map(|row| (row[1].clone(), row[0].parse().unwrap())).collect();
    let header: Vec<(String, u8)> = header_refusals().into_iter().filter(|(_, number)| !(40..=61).contains(number)).collect();
    assert_eq!(page, header);
}

#[test]
fn the_format_page_says_what_is_said() {
    for [number, name, when, cause, detail, met] in format_refusals() {
        let known = Number::all().find(|known| (*known as u8).to_string() == number).unwrap();
        assert_eq!(known.words(), when, "{name}");
        let said = Refusal { number: known, cause: None, detail: 7 }.to_string();
        let seven = if known == Number::Magic { "000007" } else { "7" };
        let shown = if detail.is_empty() { String::new() } else { format!(" ({detail} {seven})") };
        assert_eq!(said, format!("refusal {number}: {when}{shown}"));
        let header = header_says(&name);
        assert_eq!(header.contains("detail:"), !detail.is_empty(), "{name}: {header}");
        assert_eq!(header.contains("with a cause"), cause == "yes", "{name}: {header}");
        assert!(!met.is_empty(), "{name}");
    }
}

/// Number and words of each row of the table that the program `stamp` writes its reasons by.
fn stamp_words() -> Vec<(u8, String)> {
    let table = text("crates/shell/specs/Words.antt");
    let rows = table.lines().filter_map(|line| line.trim().strip_prefix('(')?.strip_suffix("\") ∷"));
    rows.map(|row| row.split_once(", \"").map(|(number, words)| (number.parse().unwrap(), words.to_string())).unwrap()).collect()
}

#[test]
fn every_reason_of_stamp_has_its_words() {
    let slips = |number: u8| number <= 18 || number >= 40;
    let rust: Vec<_> = Number::all().map(|known| (known as u8, known.words().to_string())).filter(|(number, _)| slips(*number)).collect();
    assert_eq!(stamp_words(), rust);
}

/// The program `zone` has less room than the library, so that its 1 is another one; all others are the library's.
#[test]
fn every_refusal_of_zone_has_its_words() {
    let script = text("zone");
    let words: Vec<&str> = script.split("refusal_words=\"").nth(1).unwrap().split('"').next().unwrap().split(',').collect();
    assert_eq!(words[0], "over 65536 bytes");
    let rust: Vec<&str> = Number::all().take_while(|known| *known as u8 <= Number::TextRoom as u8).skip(1).map(|known| known.words()).collect();
    assert_eq!(words[1..], rust);
}

/// The files that host/README.md has in its tables of depot, each as a path from host/.
fn named_in_readme() -> Vec<String> {
    let page = text("host/README.md");
    let rows = page.split("\n## depot").nth(1).unwrap().lines().filter_map(|line| line.strip_prefix("| `depot/")).map(str::to_string).collect::<Vec<_>>();
    let mut named = vec![];
    for row in rows {
        let cell = row.split('|').next().unwrap();
        let folder = cell.split('/').next().unwrap().trim_matches('`').to_string();
        let files = cell.split(',').map(|file| file.trim().trim_matches('`'));
        named.extend(files.map(|file| format!("depot/{folder}/{}", file.strip_prefix(&format!("{folder}/")).unwrap_or(file))));
    }
    named
}

#[test]
fn the_readme_has_depots_files_once() {
    let named = named_in_readme();
    for folder in ["depot/src", "depot/tests", "depot/examples"] {
        for file in fs::read_dir(format!("{}/{folder}", env!("CARGO_MANIFEST_DIR"))).unwrap() {
            let name = format!("{folder}/{}", file.unwrap().file_name().to_str().unwrap());
            if name.ends_with(".rs") && name != "depot/src/lib.rs" {
                assert_eq!(named.iter().filter(|known| **known == name).count(), 1, "{name} in {named:?}");
            }
        }
    }
}

#[test]
fn one_width_of_a_hit() {
    let header = text("include/uskelzar.h");
    let width = behind(&header, "USKELZAR_HIT_WORDS =");
    assert_eq!(width.trim_end_matches(','), raw::HIT_WORDS.to_string());
    let code = text("crates/table/src/hits.rt");
    assert_eq!(behind(&code, "pub const WIDTH: usize =").trim_end_matches(';'), raw::HIT_WORDS.to_string());
}

#[cfg(feature = "office")]
#[test]
fn one_width_of_a_state() {
    let header = text("include/uskelzar.h");
    assert_eq!(behind(&header, "enum { USKELZAR_STATE_WORDS ="), raw::STATE_WORDS.to_string());
    let code = text("crates/office/src/calls.rt");
    assert_eq!(behind(&code, "fn state_of(words: [u64;").trim_end_matches("])"), raw::STATE_WORDS.to_string());
}
