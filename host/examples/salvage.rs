//! salvage: salvages each file that it reads from standard input, for compare/salvage.
//!
//! A file is its length in four bytes, the low one first, and its bytes. The answer to each: the refusal's number or 0 in one byte; then, if 0, three
//! such lengths (new file, lines, kept), two words for each line, and the new file.

use std::io::{self, BufWriter, Read, Write};
use uskelzar::raw;

/// Room for all but what repeated runs blow up.
const ROOM: usize = 1 << 17;

fn next_file(input: &mut impl Read) -> io::Result<Option<Vec<u8>>> {
    let mut length = [0; 4];
    if input.read(&mut length[..1])? == 0 {
        return Ok(None);
    }
    input.read_exact(&mut length[1..])?;
    let mut file = vec![0; u32::from_le_bytes(length) as usize];
    input.read_exact(&mut file)?;
    Ok(Some(file))
}

fn main() -> io::Result<()> {
    let (mut input, mut output) = (io::stdin().lock(), BufWriter::new(io::stdout().lock()));
    let (mut dropped, mut out) = (vec![0; ROOM / 8], vec![0; ROOM]);
    while let Some(file) = next_file(&mut input)? {
        match raw::salvage(&file, &mut dropped, &mut out) {
            Ok([length, lines, kept, ..]) => {
                output.write_all(&[0])?;
                for word in [length as u32, lines as u32, kept as u32] {
                    output.write_all(&word.to_le_bytes())?;
                }
                for word in &dropped[..raw::DROPPED_WORDS * lines as usize] {
                    output.write_all(&word.to_le_bytes())?;
                }
                output.write_all(&out[..length as usize])?;
            }
            Err(why) => output.write_all(&[why.number as u8])?,
        }
    }
    output.flush()
}
