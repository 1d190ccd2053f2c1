//! Bundles of zones' files, as a user makes them.

mod common;

use common::{depot, Folder, DAY, WORLD, YARDS, ZONEINFO};
use depot::bundle::names;
use std::collections::BTreeSet;
use std::fs;
use std::time::Instant;
use uskelzar::{Bundle, TimeZone};

#[test]
fn all_zones_of_a_folder() {
    let folder = Folder::new("bundle-all");
    let out = folder.path("zones.tzdata");
    let ran = depot(&["bundle", ZONEINFO, "-o", &out]);
    assert_eq!(ran.status, 0, "{ran:?}");
    assert!(ran.out.contains("zones.tzdata: ") && ran.out.contains(" zones in ") && ran.out.contains(", tzdata 20"), "{ran:?}");
    assert!(ran.out.contains("refusal 40: a header does not begin with TZif (place 0): ") && ran.out.contains("no zone of its own: localtime"), "{ran:?}");
    assert!(fs::read(&out).unwrap().starts_with(b"tzdata20"));
    let ran = depot(&["stamp", DAY, "-o", &folder.path("slips.csv"), WORLD, &out]);
    assert!(ran.status == 1 && ran.out.contains("7 lines, 4 stamped"), "{ran:?}");
}

#[test]
fn the_zones_of_a_map() {
    let folder = Folder::new("bundle-map");
    let out = folder.path("zones.tzdata");
    let ran = depot(&["bundle", ZONEINFO, "-o", &out, "--map", WORLD]);
    assert!(ran.status == 0 && !ran.out.contains("left out"), "{ran:?}");
    let bytes = fs::read(&out).unwrap();
    let named = |name: &str| bytes.windows(name.len()).any(|some| some == name.as_bytes());
    assert!(named("Europe/Berlin\0") && !named("Etc/UTC"));
    // of two maps the zones of both
    let (yards, both) = (folder.path("yards.plb"), folder.path("both.tzdata"));
    assert_eq!(depot(&["build", YARDS, "-o", &yards, "--precision", "25"]).status, 0);
    assert_eq!(depot(&["bundle", ZONEINFO, "-o", &both, "--map", &yards, "--map", WORLD]).status, 0);
    let both = fs::read(&both).unwrap();
    assert!(["Europe/Berlin\0", "Etc/UTC\0"].iter().all(|name| both.windows(name.len()).any(|some| some == name.as_bytes())));
    // a zone that the folder has not
    let zones = folder.path("zones");
    fs::create_dir_all(format!("{zones}/Europe")).unwrap();
    fs::copy(format!("{ZONEINFO}/Europe/Berlin"), format!("{zones}/Europe/Berlin")).unwrap();
    let ran = depot(&["bundle", &zones, "-o", &out, "--map", WORLD]);
    assert!(ran.status == 1 && ran.out.contains("1 zone in 1 file") && ran.out.contains("of no known release"), "{ran:?}");
    assert!(ran.out.contains("entity not found: Africa/Abidjan, "), "{ran:?}");
}

#[test]
fn what_is_not_bundled() {
    let folder = Folder::new("bundle-none");
    let (out, empty) = (folder.path("zones.tzdata"), folder.path("empty"));
    fs::create_dir(&empty).unwrap();
    let ran = depot(&["bundle", &empty, "-o", &out]);
    assert!(ran.status == 1 && ran.err.contains("no zone is left; nothing was written"), "{ran:?}");
    let ran = depot(&["bundle", &folder.path("none"), "-o", &out]);
    assert!(ran.status == 2 && ran.err.contains("such as /usr/share/zoneinfo"), "{ran:?}");
    let ran = depot(&["bundle", ZONEINFO, "-o", WORLD, "--map", WORLD]);
    assert!(ran.status == 2 && ran.err.contains("which is read"), "{ran:?}");
    let text = folder.with("map.plb", "no map");
    let ran = depot(&["bundle", ZONEINFO, "-o", &out, "--map", &text]);
    assert!(ran.status == 1 && ran.err.contains("map.plb: refusal"), "{ran:?}");
    assert_eq!(folder.names(), ["empty", "map.plb"]);
}

/// The names of a bundle are those that the library finds and whose files it reads: where a name stands twice the first entry has it, whatever is wrong with that one.
#[test]
fn names_that_the_library_finds() {
    let utc = fs::read(format!("{ZONEINFO}/UTC")).unwrap();
    let good = |name: &[u8]| entry(name, 0, utc.len());
    let entries = [good(b"B/Twice"), entry(b"B/Twice", 9_999, 9), entry(b"A/First damaged", 9_999, 9), good(b"A/First damaged"), entry(b"Cut", 0, utc.len() - 1), good(b"Z\0garbage"), good(b"Z"), good(b"no \xff text"), good(b"UTC"), good(b"")];
    let bundle = bundle_of(&entries, &utc);
    let by_find = |bundle: &Bundle, names: &[&str]| names.iter().filter(|name| bundle.find(name).is_ok_and(|file| TimeZone::new(file).is_ok())).map(|name| name.to_string()).collect::<BTreeSet<_>>();
    let asked = ["", "A/First damaged", "B/Twice", "Cut", "UTC", "Z", "Z\0garbage"];
    assert_eq!(names(&bundle), by_find(&bundle, &asked));
    assert_eq!(names(&bundle), ["", "B/Twice", "UTC", "Z", "Z\0garbage"].map(String::from).into());
    // a fault of the head is met by every name
    for (at, byte) in [(0, b'x'), (11, 1), (12, 0x80), (15, 23), (19, 25), (20, 0x80)] {
        let mut bytes = bundle.to_bytes().to_vec();
        bytes[at] = byte;
        assert!(names(&Bundle::of_bytes(bytes)).is_empty(), "{at}");
    }
    let real = Bundle::of_folder(ZONEINFO).unwrap();
    assert_eq!(names(&real.bundle), real.zones.into_iter().collect());
}

/// The work grows with the entries, and not with their square: sixteen times as many take nowhere near 256 times as long.
#[test]
fn many_names() {
    let utc = fs::read(format!("{ZONEINFO}/UTC")).unwrap();
    let spent = |count: usize| {
        let entries: Vec<Vec<u8>> = (0..count).map(|i| entry(format!("Yard/{i}").as_bytes(), 0, utc.len())).collect();
        let bundle = bundle_of(&entries, &utc);
        // the least of a few, as others may be at work too
        let once = || {
            let begun = Instant::now();
            assert_eq!(names(&bundle).len(), count);
            begun.elapsed()
        };
        (0..3).map(|_| once()).min().unwrap()
    };
    let (few, many) = (spent(4_000), spent(64_000));
    assert!(many < few * 100, "{few:?}, {many:?}");
}

/// A bundle's entry, whatever it says.
fn entry(name: &[u8], start: usize, length: usize) -> Vec<u8> {
    let field = name.iter().copied().chain([0; 40]).take(40);
    field.chain([start, length, 0].into_iter().flat_map(|number| (number as u32).to_be_bytes())).collect()
}

fn bundle_of(entries: &[Vec<u8>], data: &[u8]) -> Bundle {
    let start = 24 + 52 * entries.len();
    let head = [24, start, start + data.len()].into_iter().flat_map(|number| (number as u32).to_be_bytes());
    Bundle::of_bytes(b"tzdata2026a\0".iter().copied().chain(head).chain(entries.concat()).chain(data.iter().copied()).collect())
}

/// The example has the zones of both example maps, and is what is made of the release that its page names.
#[test]
fn the_examples_zones() {
    let example = |name: &str| format!("{}/../../examples/{name}", env!("CARGO_MANIFEST_DIR"));
    let folder = Folder::new("bundle-example");
    let out = folder.path("zones.tzdata");
    assert_eq!(depot(&["bundle", ZONEINFO, "-o", &out, "--map", WORLD, "--map", &example("world-15.plb")]).status, 0);
    let (made, kept) = (fs::read(&out).unwrap(), fs::read(example("zones.tzdata")).unwrap());
    let names = |bytes: &[u8]| -> Vec<Vec<u8>> { bytes[24..u32::from_be_bytes([bytes[16], bytes[17], bytes[18], bytes[19]]) as usize].chunks(52).map(|entry| entry[..40].to_vec()).collect() };
    assert_eq!((names(&made), names(&kept).len()), (names(&kept), 324));
    let release = String::from_utf8(kept[6..11].to_vec()).unwrap();
    assert!(fs::read_to_string(example("README.md")).unwrap().contains(&format!("of tzdata **{release}**")), "{release}");
    // the system's tzdata may be of another release
    assert!(made[6..11] != kept[6..11] || made == kept);
}
