//! The zones' TZif files in one, in the form of Android's `tzdata`. It is written here; what stands in one is found by the library alone.

use crate::answer::Error;
use crate::local::TimeZone;
use crate::raw;
use crate::refusal::{Number, Refusal};
use std::collections::{BTreeMap, HashMap};
use std::fmt;
use std::fs;
use std::io;
use std::path::{Component, Path};

/// The bytes of a bundle, as they are lent to the library.
#[derive(Clone, Debug, Eq, PartialEq)]
pub struct Bundle {
    bytes: Vec<u8>,
}

/// A bundle, and what went into it.
#[derive(Clone, Debug)]
pub struct Bundled {
    /// The bundle.
    pub bundle: Bundle,
    /// The release of tzdata in its head; none where nothing said it.
    pub release: Option<String>,
    /// The zones' names, in order.
    pub zones: Vec<String>,
    /// How many files these zones have; zones with the same bytes share one.
    pub files: usize,
    /// What did not go into it, in the order in which it was met.
    pub left_out: Vec<LeftOut>,
}

/// A name that did not go into a bundle.
#[derive(Clone, Debug, Eq, PartialEq)]
pub struct LeftOut {
    /// The name.
    pub name: String,
    /// Why.
    pub why: NoEntry,
}

/// Why a name has no entry in a bundle.
#[derive(Clone, Debug, Eq, PartialEq)]
pub enum NoEntry {
    /// It has more than 40 bytes.
    LongName,
    /// It is empty, no text, or leads out of the folder.
    BadName,
    /// It is the name of a zone that is in the bundle already.
    Twice,
    /// It stands in the folder and is no zone of its own: the machine's own clock, or all zones once more.
    Other,
    /// The folder has no such file, or it can't be read.
    NoFile(io::ErrorKind),
    /// It is no regular file.
    OtherKind,
    /// The library refuses the file.
    Refused(Refusal),
    /// 91: the file counts leap seconds.
    LeapSeconds,
    /// The bundle would have 2^31 bytes or more.
    NoRoom,
}

impl fmt::Display for NoEntry {
    fn fmt(&self, f: &mut fmt::Formatter) -> fmt::Result {
        match self {
            NoEntry::LongName => write!(f, "the name has more than {NAME} bytes"),
            NoEntry::BadName => write!(f, "the name is not that of a file"),
            NoEntry::Twice => write!(f, "the name stands there twice"),
            NoEntry::Other => write!(f, "no zone of its own"),
            NoEntry::NoFile(kind) => write!(f, "{kind}"),
            NoEntry::OtherKind => write!(f, "it is no file"),
            NoEntry::Refused(why) => write!(f, "{why}"),
            NoEntry::LeapSeconds => write!(f, "refusal {}: {}", Number::LeapSeconds as u8, Number::LeapSeconds.words()),
            NoEntry::NoRoom => write!(f, "a bundle has fewer than 2^31 bytes"),
        }
    }
}

/// The bytes of an entry's name, of an entry, and of the head.
const NAME: usize = 40;
const ENTRY: usize = NAME + 12;
const HEAD: usize = 24;
/// No number of a bundle is larger.
const MOST: usize = i32::MAX as usize;
/// Where the release stands in the head.
const RELEASE: std::ops::Range<usize> = 6..11;
/// What stands there where it is not known.
const NO_RELEASE: &str = "?????";
/// What the folder of tzdata holds besides zones.
const OTHERS: [&str; 4] = ["localtime", "posix", "posixrules", "right"];

impl Bundle {
    /// The bundle of files in memory, each a zone's name and its TZif file's bytes, sorted by name. The release has five bytes, such as `2026a`; any other is none.
    pub fn of_files(release: Option<&str>, files: impl IntoIterator<Item = (String, Vec<u8>)>) -> Bundled {
        let mut making = Making::default();
        files.into_iter().for_each(|(name, file)| making.take(name, file));
        making.bundled(release)
    }

    /// The bundle of every zone in a folder of TZif files, and in the folders in it.
    pub fn of_folder(folder: impl AsRef<Path>) -> Result<Bundled, Error> {
        let folder = folder.as_ref();
        let mut making = Making::default();
        making.walk(folder, "")?;
        Ok(making.bundled(release_of(folder).as_deref()))
    }

    /// The bundle of these zones, whose files stand in a folder.
    pub fn of_zones(folder: impl AsRef<Path>, names: impl IntoIterator<Item = String>) -> Result<Bundled, Error> {
        let folder = folder.as_ref();
        fs::read_dir(folder)?;
        let mut making = Making::default();
        for name in names {
            if is_inside(&name) {
                making.take_file(&folder.join(&name), name);
            } else {
                making.leave_out(name, NoEntry::BadName);
            }
        }
        Ok(making.bundled(release_of(folder).as_deref()))
    }

    /// A bundle's bytes, whoever wrote them; what is wrong with them the library says.
    pub fn of_bytes(bytes: Vec<u8>) -> Bundle {
        Bundle { bytes }
    }

    /// The file of a zone, by its name: that of the first entry that has it. Refused where there is none (88) and where the bundle is damaged (89).
    ///
    /// ```
    /// use uskelzar::{Bundle, Number, TimeZone};
    ///
    /// let zones = Bundle::read("../examples/zones.tzdata")?;
    /// let berlin = TimeZone::new(zones.find("Europe/Berlin")?)?;
    /// assert_eq!(berlin.local_time(1_782_907_199)?.unwrap().abbreviation, b"CEST");
    /// assert_eq!(zones.find("Europe/Berln").unwrap_err().number, Number::NoFile);
    /// # Ok::<(), uskelzar::Error>(())
    /// ```
    pub fn find(&self, name: impl AsRef<[u8]>) -> Result<&[u8], Refusal> {
        let [start, length, ..] = raw::bundle_find(&self.bytes, name.as_ref())?;
        Ok(&self.bytes[start as usize..][..length as usize])
    }

    /// The release of tzdata in its head; none where it says none.
    pub fn release(&self) -> Option<&str> {
        let word = std::str::from_utf8(self.bytes.get(RELEASE)?).ok();
        word.filter(|word| is_release(word))
    }

    /// Reads a file into memory.
    pub fn read(path: impl AsRef<Path>) -> Result<Bundle, Error> {
        Ok(Bundle::of_bytes(fs::read(path)?))
    }

    /// Its bytes.
    pub fn to_bytes(&self) -> &[u8] {
        &self.bytes
    }
}

impl AsRef<[u8]> for Bundle {
    fn as_ref(&self) -> &[u8] {
        &self.bytes
    }
}

/// A bundle in the making.
#[derive(Default)]
struct Making {
    zones: BTreeMap<String, Vec<u8>>,
    left_out: Vec<LeftOut>,
    length: usize,
}

impl Making {
    fn leave_out(&mut self, name: String, why: NoEntry) {
        self.left_out.push(LeftOut { name, why });
    }

    /// Everything in a folder, by name.
    fn walk(&mut self, folder: &Path, before: &str) -> io::Result<()> {
        let mut entries: Vec<fs::DirEntry> = fs::read_dir(folder)?.collect::<io::Result<_>>()?;
        entries.sort_by_key(fs::DirEntry::file_name);
        for entry in entries {
            let name = entry.file_name();
            let Some(plain) = name.to_str() else {
                self.leave_out(format!("{before}{}", name.to_string_lossy()), NoEntry::BadName);
                continue;
            };
            let name = format!("{before}{plain}");
            match fs::metadata(entry.path()) {
                _ if OTHERS.contains(&name.as_str()) => self.leave_out(name, NoEntry::Other),
                // so that a link to a folder above ends too
                _ if name.len() > NAME => self.leave_out(name, NoEntry::LongName),
                Ok(there) if there.is_dir() => {
                    let within = format!("{name}/");
                    if let Err(error) = self.walk(&entry.path(), &within) {
                        self.leave_out(within, NoEntry::NoFile(error.kind()));
                    }
                }
                _ => self.take_file(&entry.path(), name),
            }
        }
        Ok(())
    }

    fn take_file(&mut self, path: &Path, name: String) {
        // to open a pipe would wait for who writes to it
        let file = fs::metadata(path).and_then(|there| there.is_file().then(|| fs::read(path)).transpose());
        match file {
            Ok(Some(file)) => self.take(name, file),
            Ok(None) => self.leave_out(name, NoEntry::OtherKind),
            Err(error) => self.leave_out(name, NoEntry::NoFile(error.kind())),
        }
    }

    fn take(&mut self, name: String, file: Vec<u8>) {
        match self.fault(&name, &file) {
            Some(why) => self.leave_out(name, why),
            None => {
                self.length += ENTRY + file.len();
                self.zones.insert(name, file);
            }
        }
    }

    fn fault(&self, name: &str, file: &[u8]) -> Option<NoEntry> {
        if name.len() > NAME {
            return Some(NoEntry::LongName);
        }
        if name.is_empty() || name.contains('\0') {
            return Some(NoEntry::BadName);
        }
        if self.zones.contains_key(name) {
            return Some(NoEntry::Twice);
        }
        if HEAD + self.length + ENTRY + file.len() > MOST {
            return Some(NoEntry::NoRoom);
        }
        refused(file)
    }

    fn bundled(self, release: Option<&str>) -> Bundled {
        let release = release.filter(|release| is_release(release));
        let data = HEAD + ENTRY * self.zones.len();
        let (mut index, mut files, mut places): (Vec<u8>, Vec<u8>, HashMap<&[u8], usize>) = Default::default();
        for (name, file) in &self.zones {
            let place = *places.entry(file).or_insert_with(|| {
                files.extend(file);
                files.len() - file.len()
            });
            index.extend(name.bytes().chain(std::iter::repeat(0)).take(NAME));
            index.extend([place, file.len(), 0].into_iter().flat_map(number));
        }
        let mut bytes = format!("tzdata{}\0", release.unwrap_or(NO_RELEASE)).into_bytes();
        bytes.extend([HEAD, data, data + files.len()].into_iter().flat_map(number));
        bytes.extend(index);
        bytes.extend(files);
        let files = places.len();
        Bundled { bundle: Bundle { bytes }, release: release.map(str::to_string), files, zones: self.zones.into_keys().collect(), left_out: self.left_out }
    }
}

/// A name of letters, digits, `_`, `+` and `-` in parts that `/` separates: it leads to no place outside a folder.
fn is_inside(zone: &str) -> bool {
    let letter = |byte: u8| byte.is_ascii_alphanumeric() || b"_+-".contains(&byte);
    let plain = |part: &str| !part.is_empty() && part.bytes().all(letter);
    zone.split('/').all(plain) && Path::new(zone).components().all(|part| matches!(part, Component::Normal(_)))
}

/// Four bytes, the high one first; [`MOST`] is not passed.
fn number(value: usize) -> [u8; 4] {
    (value as u32).to_be_bytes()
}

/// Why the library does not tell the hour by a file, at any instant.
fn refused(file: &[u8]) -> Option<NoEntry> {
    let zone = match TimeZone::new(file) {
        Ok(zone) => zone,
        Err(why) => return Some(NoEntry::Refused(why)),
    };
    // the scale is told where the file answers
    let leaps = |instant| matches!(zone.local_time(instant), Ok(Some(local)) if local.leap_seconds.is_some());
    [0, i64::MIN].into_iter().any(leaps).then_some(NoEntry::LeapSeconds)
}

/// Four digits and a letter, as tzdata names its releases.
fn is_release(word: &str) -> bool {
    let bytes = word.as_bytes();
    bytes.len() == 5 && bytes[..4].iter().all(u8::is_ascii_digit) && bytes[4].is_ascii_lowercase()
}

/// The release that a folder says it has: in `+VERSION`, or in the first line of `tzdata.zi`, which is `# version 2026a`.
fn release_of(folder: &Path) -> Option<String> {
    let first = |name: &str| {
        let text = fs::read(folder.join(name)).ok()?;
        let line = text.split(|byte| *byte == b'\n').next()?;
        Some(String::from_utf8_lossy(line).trim().to_string())
    };
    let in_zi = || first("tzdata.zi").and_then(|line| line.strip_prefix("# version ").map(str::to_string));
    first("+VERSION").or_else(in_zi).filter(|release| is_release(release))
}

#[cfg(test)]
mod tests {
    use super::*;

    #[test]
    fn no_name_leads_out_of_the_folder() {
        for zone in ["Europe/Berlin", "UTC", "Etc/GMT+1", "America/Port-au-Prince", "America/Argentina/Buenos_Aires"] {
            assert!(is_inside(zone), "{zone}");
        }
        for zone in ["", "/", "/etc/passwd", "..", "../UTC", "Europe/../../UTC", "Europe/..", ".", "Europe//Berlin", "Europe/", "a\\b", "a\0b", "é"] {
            assert!(!is_inside(zone), "{zone}");
        }
    }

    #[test]
    fn releases() {
        assert!(["2026a", "1993g"].into_iter().all(is_release));
        assert!(!["", "2026", "2026A", "2026aa", "2025b-dirty", "202\u{e9}"].into_iter().any(is_release));
    }
}
