//! How a verb ends when it does not end well.

use std::fmt;
use std::path::Path;

/// Why a verb did not do what was asked.
#[derive(Debug)]
pub enum Fault {
    /// Answered no: exit status 1.
    No(String),
    /// Not run: exit status 2.
    NotRun(String),
}

impl Fault {
    /// The exit status.
    pub fn status(&self) -> u8 {
        match self {
            Fault::No(_) => 1,
            Fault::NotRun(_) => 2,
        }
    }

    /// A file that the system does not give, or does not take.
    pub fn file(path: &Path, error: impl fmt::Display) -> Fault {
        Fault::NotRun(format!("{}: {error}", path.display()))
    }

    /// A map's error, with the file's name and what to do.
    pub fn map(path: &Path, error: uskelzar::Error) -> Fault {
        let path = path.display();
        match error {
            uskelzar::Error::File(error) => Fault::NotRun(format!("{path}: {error}")),
            uskelzar::Error::Refused(why) => Fault::No(format!("{path}: {why}{}", advice(why.number))),
            uskelzar::Error::NotAtlas(not) => Fault::No(format!("{path}: {not}")),
            uskelzar::Error::Unknown(number) => Fault::NotRun(format!("{path}: {number}: library and program are of different releases")),
        }
    }
}

/// What to do about a refused file.
fn advice(number: uskelzar::Number) -> &'static str {
    use uskelzar::Number::*;
    match number {
        TooShort | Magic => "\n  this is no PLB file: give the file of borders",
        LengthMismatch => "\n  the file is cut, or something was added: copy it again",
        Incomplete => "\n  the file was cut inside a number: copy it again",
        IndexTable => "\n  depot check names the entries; lookups without an index or an atlas are answered still",
        NothingLeft => "\n  no entry is whole: copy the file again",
        Precision => "\n  the file's precision must be 1 to 32 for a lookup",
        _ => "",
    }
}

impl fmt::Display for Fault {
    fn fmt(&self, f: &mut fmt::Formatter) -> fmt::Result {
        match self {
            Fault::No(words) | Fault::NotRun(words) => f.write_str(words),
        }
    }
}

impl std::error::Error for Fault {}

/// What a verb says, and whether it answered yes.
#[derive(Debug)]
pub struct Said {
    pub text: String,
    pub yes: bool,
}

impl Said {
    pub fn yes(text: String) -> Said {
        Said { text, yes: true }
    }
}
