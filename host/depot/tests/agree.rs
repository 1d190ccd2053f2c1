//! What check and salvage say of damaged files: neither passes what the other does not.

mod common;

use common::{depot, Folder, Random, Ran, YARDS};
use std::fs;

/// The example's yards.
fn yards(folder: &Folder) -> Vec<u8> {
    let path = folder.path("yards.plb");
    assert_eq!(depot(&["build", YARDS, "-o", &path, "--precision", "25"]).status, 0);
    fs::read(path).unwrap()
}

struct Both {
    check: Ran,
    salvage: Ran,
    /// Of what was salvaged, where anything was.
    again: Option<Ran>,
}

/// Check and salvage of a file with some bits turned, by their byte and number.
fn both(folder: &Folder, file: &[u8], bits: &[(usize, u8)]) -> Both {
    let mut bytes = file.to_vec();
    bits.iter().for_each(|(byte, bit)| bytes[*byte] ^= 1 << bit);
    let (bad, new) = (folder.with("bad.plb", bytes), folder.path("new.plb"));
    let _ = fs::remove_file(&new);
    let (check, salvage) = (depot(&["check", &bad]), depot(&["salvage", &bad, "-o", &new]));
    let again = fs::metadata(&new).is_ok().then(|| depot(&["check", &new]));
    Both { check, salvage, again }
}

#[test]
fn what_salvage_drops_is_not_in_order() {
    let folder = Folder::new("drops");
    let file = yards(&folder);
    assert_eq!(file.len(), 884);
    // a string's length: the strings of two zones are read, but lie elsewhere
    let told = both(&folder, &file, &[(259, 4)]);
    let words = "entry 8 at byte 179: the string of its field \"TimezoneIdPrefix\", told at byte 259, does not lie in the metadata section";
    assert!(told.salvage.status == 1 && told.salvage.out.contains(words) && told.salvage.out.contains("10 entries kept, 2 dropped"), "{:?}", told.salvage);
    assert!(told.check.status == 1 && told.check.out.contains(words) && told.check.out.contains("not in order"), "{:?}", told.check);
    assert!(told.check.out.contains("salvage asks of each entry: ") && told.check.out.contains("asked besides what salvage asks: "), "{:?}", told.check);
}

#[test]
fn salvage_says_where_what_it_kept_is_not_in_order() {
    let folder = Folder::new("keeps");
    let file = yards(&folder);
    // a box that its border leaves
    let told = both(&folder, &file, &[(51, 3)]);
    let words = "entry 0 at byte 51: its border reaches -0.002398 109.340605, outside its box";
    assert!(told.salvage.status == 1 && told.salvage.out.contains("12 entries kept, 0 dropped"), "{:?}", told.salvage);
    assert!(told.salvage.out.contains("what was kept is not in order, as depot check asks:") && told.salvage.out.contains(words), "{:?}", told.salvage);
    assert!(told.check.status == 1 && told.check.out.contains(words), "{:?}", told.check);
    // with an entry dropped before it, the entry that was kept is told by both its numbers
    let told = both(&folder, &file, &[(65, 6)]);
    assert!(told.salvage.out.contains("entry 0 at byte 51: its border at byte 923 can't be read: no number at byte 923"), "{:?}", told.salvage);
    assert!(told.salvage.out.contains("  entry 0 (1 in ") && told.salvage.out.contains("9 entries kept, 3 dropped"), "{:?}", told.salvage);
}

#[test]
fn sixty_damaged_files() {
    let folder = Folder::new("sixty");
    let file = yards(&folder);
    let mut random = Random(5);
    for _ in 0..60 {
        let bits: Vec<(usize, u8)> = (0..random.between(1.0, 4.0) as usize).map(|_| (random.between(7.0, 884.0) as usize, random.between(0.0, 8.0) as u8)).collect();
        let told = both(&folder, &file, &bits);
        assert_eq!(told.check.status == 0, told.salvage.status == 0, "{bits:?}: {:?} {:?}", told.check, told.salvage);
        if let Some(again) = told.again {
            let kept = told.salvage.out.contains("what was kept is in order");
            assert_eq!(again.status == 0, kept, "{bits:?}: {again:?} {:?}", told.salvage);
        }
    }
}
