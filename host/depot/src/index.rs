//! `depot index`: a tile index beside a file, through which its lookups read only the entries near a fix.

use crate::fault::{Fault, Said};
use crate::words::count;
use crate::{output, source};
use std::path::Path;
use uskelzar::{Error, Index, Map, Number, Refusal, Zones};

/// Builds a file's index and writes it.
pub fn run(path: &Path, output: &Path) -> Result<Said, Fault> {
    let map = source::open(path, false)?;
    let index = Index::build(&map).map_err(|error| Fault::map(path, error))?;
    let bytes = index.to_bytes();
    output::write_whole(output, &[path], |out| out.write_all(&bytes))?;
    let most = index.in_tiles().max().unwrap_or(0);
    let some = index.in_tiles().sum::<usize>() as f64 / index.in_tiles().count() as f64;
    Ok(Said::yes(format!(
        "{}: {}, {} for {}; a lookup reads {some:.1} of them, at most {most}\n",
        output.display(),
        count(index.words().len(), "word"),
        count(bytes.len(), "byte"),
        count(index.words()[2] as usize, "entry"),
    )))
}

/// Reads the index of a file, and holds it against the file.
fn read(path: &Path, (file, map): (&Path, &Map<Vec<u8>>)) -> Result<Index, Fault> {
    Index::read(path, map).map_err(|error| match error {
        Error::Refused(why) if why.number == Number::OtherIndex => other(path, file, why),
        error => Fault::map(path, error),
    })
}

/// Looks a fix up through the index of a file.
pub fn lookup(path: &Path, (file, map): (&Path, &Map<Vec<u8>>), (lat, lon): (f32, f32)) -> Result<Zones, Fault> {
    let index = read(path, (file, map))?;
    map.lookup_through(&index, lat, lon).map_err(|error| Fault::map(file, error))
}

fn other(index: &Path, file: &Path, why: Refusal) -> Fault {
    let (index, file) = (index.display(), file.display());
    let advice = format!("it is not what is built for {file}: built for another file, before a change of that one's header or table, or damaged: depot index {file} -o {index}");
    Fault::No(format!("{index}: {why}\n  {advice}"))
}
