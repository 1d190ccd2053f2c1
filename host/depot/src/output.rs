//! Output that is there whole or not at all.

use crate::fault::Fault;
use crate::source::STANDARD;
use indicatif::{ProgressBar, ProgressStyle};
use std::collections::HashSet;
use std::ffi::OsString;
use std::fmt;
use std::fs::{self, File, Metadata, Permissions};
use std::io::{self, BufWriter, Write};
use std::os::unix::fs::MetadataExt;
use std::path::{Path, PathBuf};
use std::time::Duration;

/// Writes the one file of a verb, which `-o` names.
pub fn write_whole(path: &Path, inputs: &[&Path], fill: impl FnOnce(&mut dyn Write) -> io::Result<()>) -> Result<(), Fault> {
    Output { path, option: "-o" }.filled(inputs, fill)?.put()
}

/// A file to write, and the option that names it. `-` is standard output.
#[derive(Clone, Copy)]
pub struct Output<'a> {
    pub path: &'a Path,
    pub option: &'static str,
}

impl<'a> Output<'a> {
    /// Fills a file under a temporary name beside its own. It may take the place of a file, but of nothing else, and never of one of these inputs or of a file in
    /// one that is a folder; it then keeps that file's mode. A verb with two outputs fills both before it puts either.
    pub fn filled(self, inputs: &[&Path], fill: impl FnOnce(&mut dyn Write) -> io::Result<()>) -> Result<Filled<'a>, Fault> {
        if self.path == Path::new(STANDARD) {
            let mut whole = vec![];
            fill(&mut whole).map_err(|error| not_written(self.path, error))?;
            return Ok(Filled { path: self.path, kept: Kept::Standard(whole) });
        }
        let place = Place::of(self, inputs).map_err(|words| not_written(self.path, words))?;
        let part = Part(self.part_name(&place.path)?);
        let write = || {
            let file = File::options().write(true).create_new(true).open(&part.0)?;
            let mut out = BufWriter::new(file);
            fill(&mut out)?;
            let file = out.into_inner().map_err(io::IntoInnerError::into_error)?;
            place.mode.iter().try_for_each(|mode| file.set_permissions(mode.clone()))?;
            file.sync_all()
        };
        write().map_err(|error| not_written(self.path, error))?;
        Ok(Filled { path: self.path, kept: Kept::Part(part, place.path) })
    }

    /// Two outputs that are one file, however they are spelt, would leave only what is put last.
    pub fn check_apart(self, other: Output) -> Result<(), Fault> {
        if self.place() != other.place() {
            return Ok(());
        }
        Err(Fault::file(other.path, format!("{} and {} name one file: give two names", self.option, other.option)))
    }

    /// Where it is, or will be, by the true name of its folder.
    fn place(self) -> PathBuf {
        if self.path == Path::new(STANDARD) {
            return self.path.to_path_buf();
        }
        let folder = self.path.parent().filter(|folder| *folder != Path::new("")).unwrap_or(Path::new("."));
        let new = || Some(fs::canonicalize(folder).ok()?.join(self.path.file_name()?));
        fs::canonicalize(self.path).ok().or_else(new).unwrap_or_else(|| self.path.to_path_buf())
    }

    fn part_name(self, path: &Path) -> Result<PathBuf, Fault> {
        let name = path.file_name().ok_or_else(|| Fault::file(path, format!("is no name of a file: give one with {}", self.option)))?;
        let mut part = OsString::from(".");
        part.push(name);
        part.push(format!(".part-{}", std::process::id()));
        Ok(path.with_file_name(part))
    }
}

fn not_written(path: &Path, why: impl fmt::Display) -> Fault {
    Fault::file(path, format!("{why}; this file was not written"))
}

/// An output that is whole and not yet in its place. Where it is not put, nothing of it is left.
#[must_use]
pub struct Filled<'a> {
    path: &'a Path,
    kept: Kept,
}

enum Kept {
    /// Under a temporary name, with the name that it gets.
    Part(Part, PathBuf),
    /// For standard output.
    Standard(Vec<u8>),
}

impl Filled<'_> {
    pub fn put(self) -> Result<(), Fault> {
        match self.kept {
            Kept::Part(part, place) => fs::rename(&part.0, place).map_err(|error| not_written(self.path, error)),
            Kept::Standard(whole) => {
                let mut out = io::stdout().lock();
                // what stays in its buffer would be lost at the end without a word
                out.write_all(&whole).and_then(|()| out.flush()).map_err(|error| Fault::file(self.path, format!("{error}; not all was written")))
            }
        }
    }
}

/// Where a file is to be written: behind all links, and with the mode of the file that is there.
struct Place {
    path: PathBuf,
    mode: Option<Permissions>,
}

impl Place {
    fn of(Output { path, option }: Output, inputs: &[&Path]) -> Result<Place, String> {
        if fs::symlink_metadata(path).is_err() {
            return Ok(Place { path: path.to_path_buf(), mode: None });
        }
        let there = fs::metadata(path).map_err(|_| format!("is a link to nothing: give another name with {option}"))?;
        if !there.is_file() {
            return Err(format!("is there and is no file: give another name with {option}"));
        }
        for input in inputs {
            let Ok(read) = fs::metadata(input) else { continue };
            if number(&read) == number(&there) {
                return Err(format!("is {}, which is read: give another name with {option}", input.display()));
            }
            if read.is_dir() && is_in(number(&there), input, &mut HashSet::from([number(&read)])) {
                return Err(format!("is a file of {}, which is read: give another name with {option}", input.display()));
            }
        }
        let path = fs::canonicalize(path).map_err(|error| error.to_string())?;
        Ok(Place { path, mode: Some(there.permissions()) })
    }
}

/// What a file is known by, whatever its name.
fn number(of: &Metadata) -> (u64, u64) {
    (of.dev(), of.ino())
}

/// Whether a file stands in a folder, or in one in it, by itself or by a link. A folder that was seen is not walked again: a link may lead to one above.
fn is_in(file: (u64, u64), folder: &Path, seen: &mut HashSet<(u64, u64)>) -> bool {
    let entries = fs::read_dir(folder).into_iter().flatten().flatten();
    entries.map(|entry| entry.path()).any(|path| {
        let Ok(there) = fs::metadata(&path) else { return false };
        number(&there) == file || there.is_dir() && seen.insert(number(&there)) && is_in(file, &path, seen)
    })
}

/// A file that goes away unless it was renamed.
struct Part(PathBuf);

impl Drop for Part {
    fn drop(&mut self) {
        // it is not there if it was renamed, or never made
        let _ = fs::remove_file(&self.0);
    }
}

/// Work below this many steps has no progress line.
const LARGE: usize = 2000;

/// A progress line on standard error; none for little work, or where nobody looks.
pub fn progress(steps: usize, what: &'static str) -> ProgressBar {
    if steps < LARGE {
        return ProgressBar::hidden();
    }
    let style = ProgressStyle::with_template("{msg} [{bar:40}] {pos}/{len} {eta}").expect("the template is good");
    ProgressBar::new(steps as u64).with_style(style.progress_chars("=> ")).with_message(what)
}

/// A file below this many bytes is read in a moment.
const LONG: usize = 1 << 20;
/// How often the line of what takes long is drawn again.
const TICK: Duration = Duration::from_millis(200);

/// Does what takes long for a large file, with a line on standard error that says for how long it has; none for a small one, or where nobody looks.
pub fn waiting<T>(bytes: usize, what: &'static str, work: impl FnOnce() -> T) -> T {
    let line = if bytes < LONG { ProgressBar::hidden() } else { ProgressBar::new_spinner() };
    let style = ProgressStyle::with_template("{msg} {spinner} {elapsed}").expect("the template is good");
    let line = line.with_style(style).with_message(what);
    line.enable_steady_tick(TICK);
    let done = work();
    line.finish_and_clear();
    done
}
