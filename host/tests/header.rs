//! include/uskelzar.h against what `raw` takes it to say, and its forms with structs against the functions that they hand on to.

use std::collections::HashMap;
use std::fs;
#[cfg(feature = "office")]
use uskelzar::raw::OFFICE_PROTOTYPES;
use uskelzar::raw::PRINTER_PROTOTYPES;

/// Functions of so many parameters have a form with structs.
const MANY: usize = 9;

fn text() -> String {
    fs::read_to_string(concat!(env!("CARGO_MANIFEST_DIR"), "/../include/uskelzar.h")).unwrap()
}

/// Where the header's second part begins, the office's.
const OFFICE: &str = "/* ======== The office's functions: libuskelzar-office.a";

/// The header without its comments, with one blank for each run of blanks and ends of lines.
fn header() -> String {
    bare(&text())
}

fn bare(text: &str) -> String {
    let mut parts = text.split("/*");
    let first = parts.next().unwrap().to_string();
    let bare = parts.fold(first, |bare, part| bare + part.split_once("*/").unwrap().1);
    bare.split_whitespace().collect::<Vec<_>>().join(" ")
}

/// A prototype with numbers in the place of the header's names for them.
fn in_numbers(header: &str, prototype: &str) -> String {
    ["REPLY", "STATE", "CIVIL"].iter().fold(prototype.to_string(), |text, name| {
        let (_, behind) = header.split_once(&format!("USKELZAR_{name}_WORDS = ")).unwrap();
        text.replace(&format!("[USKELZAR_{name}_WORDS]"), &format!("[{}]", behind.split(' ').next().unwrap()))
    })
}

/// What the header declares and the archive has, in the header's order.
fn prototypes(header: &str) -> Vec<String> {
    exported(header).map(|prototype| in_numbers(header, prototype)).collect()
}

fn exported(header: &str) -> impl Iterator<Item = &str> {
    header.split("; ").filter(|statement| statement.starts_with("uint8_t uskelzar_"))
}

/// A prototype's or a call's name, and the last name in each of what stands in its brackets: of `const uint8_t *file` and of `map->file` it is `file`.
fn names(text: &str) -> (&str, Vec<&str>) {
    let (front, within) = text.trim_end_matches(')').split_once('(').unwrap();
    let last = |each: &str| -> usize { each.rfind([' ', '*', '>', '.']).map_or(0, |at| at + 1) };
    let name = |each| -> &str { &str::split(each, '[').next().unwrap()[last(each)..] };
    (&front[last(front)..], within.split(", ").map(name).collect())
}

/// Each form's prototype, and the call that it is.
fn forms(header: &str) -> Vec<(&str, &str)> {
    let parts = header.split("static inline ").skip(1).map(|text| text.split_once(" { return ").unwrap());
    parts.map(|(form, rest)| (form, rest.split_once("; }").unwrap().0)).collect()
}

#[test]
fn raw_declares_what_the_header_does() {
    let text = text();
    let parts: Vec<&str> = text.split(OFFICE).collect();
    assert_same(PRINTER_PROTOTYPES, parts[0], 20);
    #[cfg(feature = "office")]
    assert_same(OFFICE_PROTOTYPES, parts[1], 13);
    assert_eq!((parts.len(), prototypes(&header()).len()), (2, 33));
}

/// The functions of an archive are those of the header's part for it, in its order.
fn assert_same(ours: &[&str], part: &str, count: usize) {
    let header = header();
    let part = bare(part);
    let theirs: Vec<String> = exported(&part).map(|prototype| in_numbers(&header, prototype)).collect();
    let ours: Vec<String> = ours.iter().map(|prototype| prototype.replace("r#", "")).collect();
    for (ours, theirs) in ours.iter().zip(&theirs) {
        assert_eq!(ours, theirs);
    }
    assert_eq!((ours.len(), theirs.len()), (count, count));
}

/// The C compiler sees to the types; this, that each list comes to its own place, and that nothing else is in a form.
#[test]
fn a_form_hands_on_each_thing_to_its_place() {
    let header = header();
    let all = prototypes(&header);
    let taken: HashMap<&str, Vec<&str>> = all.iter().map(|prototype| names(prototype)).collect();
    for (form, call) in forms(&header) {
        let (function, given) = names(call);
        assert_eq!(given, taken[function], "{form}");
        let structs = names(form).1;
        let parts = call.split_once('(').unwrap().1.trim_end_matches(')').split(", ").map(|each| each.split("->").next().unwrap());
        assert!(parts.clone().all(|part| structs.contains(&part)), "{form}: {call}");
        assert!(structs.iter().all(|each| parts.clone().any(|part| part == *each)), "{form}: {call}");
    }
}

#[test]
fn each_long_function_has_one_form() {
    let header = header();
    let all = prototypes(&header);
    let mut long: Vec<&str> = all.iter().map(|prototype| names(prototype)).filter(|(_, taken)| taken.len() >= MANY).map(|(name, _)| name).collect();
    let mut formed: Vec<&str> = forms(&header).iter().map(|(_, call)| names(call).0).collect();
    long.sort_unstable();
    formed.sort_unstable();
    assert_eq!(formed, long);
}

/// A list is a pointer with its length behind it; a builder has its state besides, and a yard a border.
#[test]
fn a_struct_holds_lists_alone() {
    let text = text();
    let structs = text.split("\nstruct uskelzar_").skip(1).map(|rest| rest.split("\n};").next().unwrap());
    for (name, within) in structs.map(|each| each.split_once(" {\n").unwrap()) {
        let own = within.lines().map(|line| line.trim_matches([' ', ';']));
        let members: Vec<&str> = own.filter(|member| !["uint64_t *state", "struct uskelzar_border border"].contains(member)).collect();
        for list in members.chunks(2) {
            let (_, pointer) = list[0].split_once(" *").unwrap_or_else(|| panic!("{name}: {}", list[0]));
            assert_eq!(list[1], format!("size_t {pointer}_length"), "{name}");
        }
    }
}
