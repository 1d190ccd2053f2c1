//! Bundles of TZif files: what is written, held against a reading of its own; and what is left out.

mod common;

use common::tzif::{fixed, header, leaping, small};
use std::collections::BTreeMap;
use std::fs;
use std::os::unix::ffi::OsStrExt;
use std::os::unix::fs::symlink;
use std::path::PathBuf;
use uskelzar::{Bundle, Bundled, LeftOut, NoEntry, Number};

const ZONEINFO: &str = "/usr/share/zoneinfo";

/// A number of a bundle: four bytes, the high one first.
fn number(bytes: &[u8], at: usize) -> usize {
    bytes[at..at + 4].iter().fold(0, |value, byte| value << 8 | usize::from(*byte))
}

/// Head, entries and data as document 03 has them: the names in their order, each with where its file begins and the file.
fn read(bytes: &[u8]) -> Vec<(String, usize, Vec<u8>)> {
    assert_eq!((&bytes[..6], bytes[11]), (&b"tzdata"[..], 0));
    let [index, data, end] = [12, 16, 20].map(|at| number(bytes, at));
    assert!(index == 24 && end == bytes.len() && (data - index) % 52 == 0);
    let entry = |entry: &[u8]| {
        let length = entry[..40].iter().position(|byte| *byte == 0).unwrap_or(40);
        assert!(entry[length..40].iter().chain(&entry[48..]).all(|byte| *byte == 0));
        let (begin, long) = (number(entry, 40), number(entry, 44));
        assert!(data + begin + long <= end);
        (String::from_utf8(entry[..length].to_vec()).unwrap(), begin, bytes[data + begin..][..long].to_vec())
    };
    bytes[index..data].chunks(52).map(entry).collect()
}

fn bundle(files: &[(&str, Vec<u8>)]) -> Bundled {
    Bundle::of_files(Some("2026a"), files.iter().map(|(name, file)| (name.to_string(), file.clone())))
}

fn reasons(bundled: &Bundled) -> Vec<(&str, &NoEntry)> {
    bundled.left_out.iter().map(|LeftOut { name, why }| (name.as_str(), why)).collect()
}

#[test]
fn sorted_and_shared() {
    let bundled = bundle(&[("Up/Two", fixed(3600, "B")), ("Up", small()), ("Up/One", fixed(0, "A")), ("UT", fixed(0, "A"))]);
    let bytes = bundled.bundle.to_bytes();
    let entries = read(bytes);
    assert_eq!(entries.iter().map(|entry| entry.0.as_str()).collect::<Vec<_>>(), ["UT", "Up", "Up/One", "Up/Two"]);
    assert_eq!(entries.iter().map(|entry| &entry.2).collect::<Vec<_>>(), [&fixed(0, "A"), &small(), &fixed(0, "A"), &fixed(3600, "B")]);
    assert_eq!(entries[0].1, entries[2].1);
    assert_eq!(bytes.len(), 24 + 4 * 52 + fixed(0, "A").len() + small().len() + fixed(3600, "B").len());
    assert_eq!((&bytes[6..11], bundled.release.as_deref()), (&b"2026a"[..], Some("2026a")));
    assert_eq!((bundled.files, bundled.zones.len(), bundled.left_out.len()), (3, 4, 0));
    // the order in which they come changes nothing
    let again = bundle(&[("UT", fixed(0, "A")), ("Up/One", fixed(0, "A")), ("Up/Two", fixed(3600, "B")), ("Up", small())]);
    assert_eq!(again.bundle, bundled.bundle);
}

#[test]
fn what_is_left_out() {
    let long = "x".repeat(41);
    let mut bad = fixed(0, "A");
    bad.truncate(40);
    let bundled = bundle(&[
        (&"y".repeat(40), fixed(0, "A")),
        (&long, fixed(0, "A")),
        ("", fixed(0, "A")),
        ("a\0", fixed(0, "A")),
        ("Leaps", leaping(0, "A", &[78_796_800])),
        ("Cut", bad),
        ("Text", b"# no TZif file".to_vec()),
        ("One", fixed(0, "A")),
        ("One", fixed(3600, "B")),
    ]);
    assert_eq!(bundled.zones, ["One".to_string(), "y".repeat(40)]);
    assert_eq!(read(bundled.bundle.to_bytes())[0].2, fixed(0, "A"));
    let why = reasons(&bundled);
    assert_eq!((why[0], why[1].1, why[2].1), ((long.as_str(), &NoEntry::LongName), &NoEntry::BadName, &NoEntry::BadName));
    assert_eq!(why[3], ("Leaps", &NoEntry::LeapSeconds));
    assert!(matches!(why[4], ("Cut", NoEntry::Refused(why)) if why.number == Number::TzifHeader));
    assert!(matches!(why[5], ("Text", NoEntry::Refused(why)) if why.number == Number::TzifMagic));
    assert_eq!(why[6], ("One", &NoEntry::Twice));
    assert_eq!(why.len(), 7);
    assert!(why[3].1.to_string().contains("refusal 91"));
}

/// Leap seconds in a file that is silent at 1970 are met all the same.
#[test]
fn leap_seconds_of_a_file_that_ends_early() {
    let mut file = header(0, [0, 0, 1, 1, 1, 4]);
    file.extend((-86_400i32).to_be_bytes());
    file.extend([0; 1 + 6]);
    file.extend(b"AAA\0");
    file.extend(78_796_800i32.to_be_bytes());
    file.extend(1i32.to_be_bytes());
    assert_eq!(reasons(&bundle(&[("Ended", file)])), [("Ended", &NoEntry::LeapSeconds)]);
}

#[test]
fn no_zone_and_no_release() {
    let none = Bundle::of_files(None, []);
    assert_eq!(none.bundle.to_bytes(), b"tzdata?????\0\0\0\0\x18\0\0\0\x18\0\0\0\x18");
    for release in ["", "2026", "2025b-dirty", "2026\u{e9}"] {
        assert_eq!(Bundle::of_files(Some(release), []).bundle, none.bundle, "{release}");
    }
}

/// A folder that goes away with the test.
struct Folder(PathBuf);

impl Folder {
    fn new(name: &str) -> Folder {
        let path = std::env::temp_dir().join(format!("uskelzar-{name}-{}", std::process::id()));
        fs::create_dir_all(path.join("Up/Far")).unwrap();
        Folder(path)
    }

    fn with(self, name: &str, file: impl AsRef<[u8]>) -> Folder {
        fs::write(self.0.join(name), file).unwrap();
        self
    }
}

impl Drop for Folder {
    fn drop(&mut self) {
        fs::remove_dir_all(&self.0).unwrap();
    }
}

#[test]
fn a_folder() {
    let folder = Folder::new("bundle").with("UT", fixed(0, "A")).with("Up/Far/Two", fixed(3600, "B")).with("localtime", fixed(0, "A")).with("zone.tab", "# text\n").with("+VERSION", "2025c\n");
    symlink("Far", folder.0.join("Up/Near")).unwrap();
    symlink("none", folder.0.join("Up/Gone")).unwrap();
    // nobody writes to this pipe
    assert!(std::process::Command::new("mkfifo").arg(folder.0.join("Up/Pipe")).status().unwrap().success());
    // a link to a folder above has an end
    symlink("..", folder.0.join("Up/Round")).unwrap();
    let odd = folder.0.join(std::ffi::OsStr::from_bytes(b"Z\xff"));
    fs::write(odd, fixed(0, "A")).unwrap();
    let bundled = Bundle::of_folder(&folder.0).unwrap();
    assert_eq!(bundled.release.as_deref(), Some("2025c"));
    assert!(["UT", "Up/Far/Two", "Up/Near/Two"].iter().all(|name| bundled.zones.contains(&name.to_string())), "{bundled:?}");
    assert_eq!(bundled.files, 2);
    let why = reasons(&bundled);
    for (name, reason) in [("localtime", NoEntry::Other), ("Z\u{fffd}", NoEntry::BadName), ("Up/Pipe", NoEntry::OtherKind), ("Up/Gone", NoEntry::NoFile(std::io::ErrorKind::NotFound))] {
        assert!(why.contains(&(name, &reason)), "{name}: {why:?}");
    }
    assert!(why.iter().any(|(_, why)| **why == NoEntry::LongName));
    assert!(Bundle::of_folder(folder.0.join("none")).is_err() && Bundle::of_folder(folder.0.join("UT")).is_err());
}

#[test]
fn zones_by_name() {
    let folder = Folder::new("bundle-names").with("UT", fixed(0, "A")).with("Up/Two", fixed(3600, "B")).with("tzdata.zi", "# version 2025b\nR A\n");
    let names = ["Up/Two", "../UT", "/etc/passwd", "Up", "Gone"].map(str::to_string);
    let bundled = Bundle::of_zones(&folder.0, names).unwrap();
    assert_eq!((bundled.zones.as_slice(), bundled.release.as_deref()), (&["Up/Two".to_string()][..], Some("2025b")));
    let why = reasons(&bundled);
    assert_eq!(why[..2], [("../UT", &NoEntry::BadName), ("/etc/passwd", &NoEntry::BadName)]);
    assert!(matches!(why[2..], [("Up", NoEntry::OtherKind), ("Gone", NoEntry::NoFile(_))]), "{why:?}");
    assert!(Bundle::of_zones(folder.0.join("none"), []).is_err());
}

/// Every zone of the system's folder is in its bundle with the bytes that the folder has.
#[test]
fn the_systems_zones() {
    let bundled = Bundle::of_folder(ZONEINFO).unwrap();
    let bytes = bundled.bundle.to_bytes();
    let entries = read(bytes);
    assert!(entries.len() > 400, "{}", entries.len());
    assert!(entries.windows(2).all(|two| two[0].0 < two[1].0));
    for (name, _, file) in &entries {
        assert_eq!(*file, fs::read(format!("{ZONEINFO}/{name}")).unwrap(), "{name}");
    }
    let places: BTreeMap<&[u8], usize> = entries.iter().map(|entry| (entry.2.as_slice(), entry.1)).collect();
    assert!(entries.iter().all(|entry| places[entry.2.as_slice()] == entry.1));
    assert_eq!(places.len(), bundled.files);
    let path = std::env::temp_dir().join(format!("uskelzar-tzdata-{}", std::process::id()));
    fs::write(&path, bytes).unwrap();
    assert_eq!(Bundle::read(&path).unwrap(), bundled.bundle);
    fs::remove_file(path).unwrap();
}
