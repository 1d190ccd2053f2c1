//! Appended to a copy of the Rust's text: a number that the file's end cuts is a panic where it is read, while the harness says so.
use std::cell::Cell;

thread_local!(static STRICT: Cell<bool> = const { Cell::new(false) });

/// What the panic says.
pub const CUT: &str = "a number cut by the file's end";

struct Until;

impl Drop for Until {
    fn drop(&mut self) {
        STRICT.set(false);
    }
}

/// Does the work with every number read strictly.
pub fn strictly<T>(work: impl FnOnce() -> T) -> T {
    STRICT.set(true);
    let _until = Until;
    work()
}

/// Asked behind each number: where the next one begins, and the file's size.
pub fn number(next: u32, size: usize) {
    if STRICT.get() && next as usize > size {
        panic!("{CUT}");
    }
}
