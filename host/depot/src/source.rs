//! Files that are read.

use crate::fault::Fault;
use crate::output;
use std::io::Read;
use std::path::Path;
use uskelzar::{Error, Map};

/// The name that stands for standard input and output.
pub const STANDARD: &str = "-";

/// A file's bytes; those of standard input where its name is `-`.
pub fn bytes(path: &Path) -> Result<Vec<u8>, Fault> {
    let mut bytes = vec![];
    let read = if path == Path::new(STANDARD) { std::io::stdin().lock().read_to_end(&mut bytes).map(|_| bytes) } else { std::fs::read(path) };
    read.map_err(|error| Fault::file(path, error))
}

/// A text without the byte order mark that some programs put before it.
pub fn unmarked(bytes: &[u8]) -> &[u8] {
    bytes.strip_prefix(b"\xef\xbb\xbf").unwrap_or(bytes)
}

/// A PLB file, opened strictly or plainly.
pub fn open(path: &Path, strict: bool) -> Result<Map<Vec<u8>>, Fault> {
    let bytes = bytes(path)?;
    let opened = if strict { Map::open_strict(bytes) } else { Map::open(bytes) };
    opened.map_err(|error| Fault::map(path, error))
}

/// A PLB file with its atlas, each word of which is worked out again.
pub fn open_with(path: &Path, atlas: &Path) -> Result<Map<Vec<u8>>, Fault> {
    let (file, words) = (bytes(path)?, bytes(atlas)?);
    let opened = output::waiting(file.len(), "checking the atlas", || Map::open_with(file, words));
    opened.map_err(|error| match error {
        Error::NotAtlas(not) => Fault::No(format!("{}: {not}:\n  depot atlas {} -o {0}", atlas.display(), path.display())),
        error => Fault::map(path, error),
    })
}
