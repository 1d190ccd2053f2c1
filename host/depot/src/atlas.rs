//! `depot atlas`: an atlas beside a file, through which a lookup reads only the stretches of borders near a fix.

use crate::fault::{Fault, Said};
use crate::words::count;
use crate::{output, source};
use std::path::Path;
use std::time::Instant;
use uskelzar::{Atlas, Map};

/// Builds a file's atlas and writes it.
pub fn run(path: &Path, output: &Path) -> Result<Said, Fault> {
    let map = source::open(path, false)?;
    let begun = Instant::now();
    let built = output::waiting(map.bytes().len(), "building the atlas", || Atlas::build(&map));
    let spent = begun.elapsed();
    let atlas = built.map_err(|error| Fault::map(path, error))?;
    output::write_whole(output, &[path], |out| out.write_all(&atlas.to_bytes()))?;
    Ok(Said::yes(format!("{}: {}; built in {:.1} s\n", output.display(), size(&map, &atlas), spent.as_secs_f64())))
}

/// Says whether an atlas is the one of a file, and where it is not why.
pub fn check(path: &Path, atlas: &Path) -> Result<Said, Fault> {
    let begun = Instant::now();
    let map = source::open_with(path, atlas)?;
    let spent = begun.elapsed();
    let words = map.atlas().map_or(String::new(), |words| size(&map, words));
    Ok(Said::yes(format!("{}: the atlas of {}: {words}; checked in {:.1} s\n", atlas.display(), path.display(), spent.as_secs_f64())))
}

fn size(map: &Map<Vec<u8>>, atlas: &Atlas) -> String {
    let (words, bytes) = (atlas.words().len(), 4 * atlas.words().len());
    let share = 100.0 * bytes as f64 / map.bytes().len() as f64;
    format!("{}, {}, {share:.1} % of the file", count(words, "word"), count(bytes, "byte"))
}
