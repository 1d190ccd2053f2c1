//! Memory between two pages that may not be touched. What is lent of it ends, or begins, right at one of them; its other end
//! has a margin that is filled with AA and must stay so.

use std::ffi::{c_int, c_void};
use std::ops::Range;
use std::ptr::null_mut;

extern "C" {
    fn mmap(
        at: *mut c_void,
        length: usize,
        access: c_int,
        flags: c_int,
        file: c_int,
        from: i64,
    ) -> *mut c_void;
    fn mprotect(at: *mut c_void, length: usize, access: c_int) -> c_int;
    fn munmap(at: *mut c_void, length: usize) -> c_int;
    fn fork() -> c_int;
    fn waitpid(child: c_int, status: *mut c_int, options: c_int) -> c_int;
    fn _exit(status: c_int) -> !;
}

const PROT_NONE: c_int = 0;
const PROT_READ_WRITE: c_int = 3;
const MAP_PRIVATE_ANONYMOUS: c_int = 0x22;
const SIGSEGV: c_int = 11;

/// A multiple of every page size in use.
const PAGE: usize = 65_536;
const FILL: u8 = 0xAA;
const MARGIN: usize = 256;

/// Which guard a lent slice touches.
#[derive(Clone, Copy, Debug)]
pub enum Edge {
    /// It begins right behind one.
    Front,
    /// It ends right before one.
    Back,
}

pub const EDGES: [Edge; 2] = [Edge::Front, Edge::Back];

/// Numbers of which every bit pattern is a value.
pub trait Plain: Copy {}
impl Plain for u8 {}
impl Plain for u32 {}
impl Plain for u64 {}
impl Plain for i32 {}
impl Plain for f32 {}

pub struct Fence {
    start: *mut u8,
    room: usize,
}

impl Fence {
    /// With room for so many bytes at least.
    pub fn new(bytes: usize) -> Fence {
        let room = (bytes + MARGIN).div_ceil(PAGE) * PAGE;
        // SAFETY: a new mapping at a place that the system chooses; its middle is then opened.
        unsafe {
            let all = mmap(
                null_mut(),
                room + 2 * PAGE,
                PROT_NONE,
                MAP_PRIVATE_ANONYMOUS,
                -1,
                0,
            );
            assert_ne!(all as isize, -1, "no memory");
            let start = all.cast::<u8>().add(PAGE);
            assert_eq!(
                mprotect(start.cast(), room, PROT_READ_WRITE),
                0,
                "no access"
            );
            Fence { start, room }
        }
    }

    /// The lent bytes, then the margin at their other end, by their places.
    fn parts(&self, bytes: usize, edge: Edge) -> [Range<usize>; 2] {
        assert!(bytes + MARGIN <= self.room);
        let (room, rest) = (self.room, self.room - bytes);
        match edge {
            Edge::Front => [0..bytes, bytes..bytes + MARGIN],
            Edge::Back => [rest..room, rest - MARGIN..rest],
        }
    }

    fn bytes(&mut self, part: Range<usize>) -> &mut [u8] {
        // SAFETY: mapped, open, and borrowed with `self`.
        let all = unsafe { std::slice::from_raw_parts_mut(self.start, self.room) };
        &mut all[part]
    }

    /// So many numbers at an edge, filled like the margin.
    pub fn lend<T: Plain>(&mut self, count: usize, edge: Edge) -> &mut [T] {
        let [lent, margin] = self.parts(count * size_of::<T>(), edge);
        self.bytes(margin).fill(FILL);
        let lent = self.bytes(lent);
        lent.fill(FILL);
        // SAFETY: just these bytes, aligned since both edges are, of a type that every bit pattern suits.
        unsafe { std::slice::from_raw_parts_mut(lent.as_mut_ptr().cast(), count) }
    }

    /// A copy of numbers at an edge.
    pub fn hold<T: Plain>(&mut self, numbers: &[T], edge: Edge) -> &mut [T] {
        let held = self.lend(numbers.len(), edge);
        held.copy_from_slice(numbers);
        held
    }

    /// The margin of what was lent is as it was.
    pub fn assert_kept(&mut self, bytes: usize, edge: Edge) {
        let [_, margin] = self.parts(bytes, edge);
        let kept = self.bytes(margin).iter().all(|byte| *byte == FILL);
        assert!(kept, "written beside what was lent");
    }

    /// What was lent is still filled as it was.
    pub fn is_filled(&mut self, bytes: usize, edge: Edge) -> bool {
        let [lent, _] = self.parts(bytes, edge);
        self.bytes(lent).iter().all(|byte| *byte == FILL)
    }

    /// The last address before the memory, and the first behind it.
    pub fn guards(&self) -> [*const u8; 2] {
        [
            self.start.wrapping_sub(1),
            self.start.wrapping_add(self.room),
        ]
    }
}

impl Drop for Fence {
    fn drop(&mut self) {
        // SAFETY: `new` mapped just this.
        unsafe { munmap(self.start.sub(PAGE).cast(), self.room + 2 * PAGE) };
    }
}

/// Whether a process that reads a byte there is stopped for it.
pub fn dies_reading(at: *const u8) -> bool {
    let mut status = 0;
    // SAFETY: the child only reads and leaves; the parent waits for it.
    unsafe {
        let child = fork();
        assert_ne!(child, -1, "no process");
        if child == 0 {
            at.read_volatile();
            _exit(0);
        }
        assert_eq!(waitpid(child, &mut status, 0), child);
    }
    status & 0x7F == SIGSEGV
}
