//! Files mapped into memory.

use memmap2::Mmap;
use std::fs::File;
use std::io;

/// A file mapped into memory, to be read.
pub struct Mapping(Mmap);

impl Mapping {
    /// Maps a file.
    ///
    /// # Safety
    /// Nobody changes or cuts the file while it is mapped.
    pub unsafe fn new(file: &File) -> io::Result<Mapping> {
        // SAFETY: the caller sees to it.
        unsafe { Mmap::map(file) }.map(Mapping)
    }
}

impl AsRef<[u8]> for Mapping {
    fn as_ref(&self) -> &[u8] {
        &self.0
    }
}
