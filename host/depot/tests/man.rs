//! The page for `man` has what the program's own help has: every verb, and every option of each.

mod common;

use common::depot;
use std::collections::{BTreeMap, BTreeSet};
use std::fs;

/// What a help lists under a title, without the words about each, which stand further in.
fn listed<'a>(help: &'a str, title: &str) -> impl Iterator<Item = &'a str> {
    let lines = help.split(&format!("\n{title}:\n")).nth(1).unwrap().lines().take_while(|line| line.is_empty() || line.starts_with(' '));
    lines.filter(|line| !line.is_empty() && !line.starts_with("       ")).map(str::trim)
}

/// The options that a help lists, by each of their names: `-o` and `--output` are one.
fn options(help: &str) -> Vec<Vec<String>> {
    let lines = listed(help, "Options");
    lines.map(|line| line.split(", ").map(|name| name.split([' ', '<']).next().unwrap().to_string()).filter(|name| name.starts_with('-')).collect()).collect()
}

/// The verbs of the program.
fn verbs() -> BTreeSet<String> {
    let help = depot(&["--help"]).out;
    listed(&help, "Commands").map(str::to_string).filter(|verb| verb != "help").collect()
}

/// The page, and of each verb all that its entries say.
fn page() -> (String, BTreeMap<String, String>) {
    let page = fs::read_to_string(concat!(env!("CARGO_MANIFEST_DIR"), "/../../man/depot.1")).unwrap();
    let list = page.split(".Bl ").nth(1).unwrap().split("\n.El").next().unwrap();
    let mut told: BTreeMap<String, String> = BTreeMap::new();
    for entry in list.split(".It Nm ").skip(1) {
        told.entry(entry.split_whitespace().next().unwrap().to_string()).or_default().push_str(entry);
    }
    (page, told)
}

/// The options that a text of the page has: `Fl -strict`, `Fl o`.
fn flags(text: &str) -> BTreeSet<String> {
    let words: Vec<&str> = text.split_whitespace().collect();
    words.windows(2).filter(|pair| pair[0].trim_start_matches('.') == "Fl").map(|pair| format!("-{}", pair[1])).collect()
}

#[test]
fn every_verb_and_option() {
    let (page, told) = page();
    assert_eq!(told.keys().cloned().collect::<BTreeSet<_>>(), verbs());
    for (verb, text) in &told {
        let (known, said) = (options(&depot(&[verb, "--help"]).out), flags(text));
        assert!(known.len() > 1 || verb == "check", "{verb}: {known:?}");
        for names in known.iter().filter(|names| !names.contains(&"--help".into())) {
            assert!(names.iter().any(|name| said.contains(name)), "{verb}: no {names:?} in {said:?}");
        }
        for flag in &said {
            assert!(known.iter().any(|names| names.contains(flag)), "{verb} has no {flag}");
        }
    }
    // those of the program itself
    let before = page.split(".Bl ").next().unwrap();
    for names in options(&depot(&["--help"]).out) {
        assert!(names.iter().any(|name| flags(before).contains(name)), "{names:?}");
    }
}
