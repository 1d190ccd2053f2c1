//! The largest file that is built, one byte more, and borders that alone are over 1 GiB. Every yard has the same points, and the lists of all of them are one page range, mapped
//! again and again.
#![cfg(feature = "office")]

use std::ffi::{c_int, c_void};
use std::fs::File;
use std::os::fd::AsRawFd;
use std::os::unix::fs::FileExt;
use uskelzar::raw::{self, Lengths, Plan};
use uskelzar::{Desk, Number, Refusal};

extern "C" {
    fn mmap(at: *mut c_void, length: usize, access: c_int, flags: c_int, file: c_int, from: i64) -> *mut c_void;
}

const PROT_NONE: c_int = 0;
const PROT_READ: c_int = 1;
const MAP_SHARED_FIXED: c_int = 0x11;
const MAP_PRIVATE_ANONYMOUS: c_int = 0x22;

const LARGEST: usize = 1 << 30;
const FAR: i32 = (1 << 30) - 1;

/// So many points are a range of whole pages, whatever their size, and a border of ten bytes a point.
const POINTS: usize = 49_152;
/// Version 0: the number of points in three bytes, and two guard bytes.
const BORDER: usize = 3 + 10 * POINTS + 2;
/// As many as fit in 1 GiB.
const YARDS: usize = LARGEST / BORDER;

/// The same numbers so many times, one behind the other: a file's pages, mapped as often. They stay until the test ends.
fn repeated(name: &str, numbers: &[i32], times: usize) -> &'static [i32] {
    let path = format!("{}/{name}", env!("CARGO_TARGET_TMPDIR"));
    let file = File::options().read(true).write(true).create(true).truncate(true).open(&path).unwrap();
    let bytes: Vec<u8> = numbers.iter().flat_map(|number| number.to_ne_bytes()).collect();
    file.write_all_at(&bytes, 0).unwrap();
    // SAFETY: room that the system chooses, then the file's pages over all of it; nobody changes the file.
    let all = unsafe {
        let all = mmap(std::ptr::null_mut(), times * bytes.len(), PROT_NONE, MAP_PRIVATE_ANONYMOUS, -1, 0);
        assert_ne!(all as isize, -1, "no room");
        for i in 0..times {
            let part = mmap(all.cast::<u8>().add(i * bytes.len()).cast(), bytes.len(), PROT_READ, MAP_SHARED_FIXED, file.as_raw_fd(), 0);
            assert_ne!(part as isize, -1, "no mapping");
        }
        std::slice::from_raw_parts(all.cast(), times * numbers.len())
    };
    std::fs::remove_file(path).unwrap();
    all
}

/// Yards from one corner to the other and back, then one of so many points; a notice of so many bytes. No names, so no values.
struct Corners {
    lats: &'static [i32],
    lons: &'static [i32],
    out: Vec<u8>,
    bytes: Vec<u8>,
}

impl Corners {
    fn new() -> Corners {
        let list: Vec<i32> = (0..POINTS).map(|i| if i % 2 == 0 { FAR } else { -FAR }).collect();
        let room = LARGEST + 1024;
        Corners {
            lats: repeated("latitudes", &list, YARDS + 1),
            lons: repeated("longitudes", &list, YARDS + 1),
            out: vec![0xAA; room],
            bytes: vec![0xAA; room],
        }
    }

    fn build(&mut self, yards: usize, last: usize, notice: usize) -> Result<usize, Refusal> {
        let mut counts = [POINTS as u32, POINTS as u32, 0, 0].repeat(yards);
        counts.extend([last as u32, last as u32, 0, 0]);
        let points = yards * POINTS + last;
        let plan = Plan {
            kind: b'C',
            version: 0,
            precision: 31,
            names: 0,
            yards: &counts,
            lats: &self.lats[..points],
            lons: &self.lons[..points],
            pieces: &[],
            lengths: &[notice as u32],
            texts: &vec![b'n'; notice],
        };
        let mut desk = Desk::new(Lengths::of(yards + 1, 0, 0));
        let mut boxes = vec![0; 4 * (yards + 1)];
        raw::build(&plan, desk.lend(), &mut boxes, &mut self.bytes, &mut self.out).map(|[length, ..]| length as usize)
    }
}

fn is_zero(list: &[u8]) -> bool {
    list.iter().all(|byte| *byte == 0)
}

/// Three builds of 1 GiB each: by the emulator some minutes.
#[test]
#[ignore]
fn one_gib_and_one_byte_more() {
    const TOO_LONG: Refusal = Refusal {
        number: Number::FileRoom,
        cause: None,
        detail: 0,
    };
    let mut corners = Corners::new();
    // seven bytes, the notice with its length, the sizes; the first entry has a border at 1, the others one that far behind the last; a zero byte
    let head = 7 + 2 + 3 + 1 + 5;
    let table = (4 * 5 + 1 + 1) + (4 * 5 + 1 + 3) * YARDS;
    let rest = LARGEST - head - table - 1 - YARDS * BORDER;
    let last = (rest - 255 - 5) / 10 + 1;
    let notice = rest - (3 + 10 * last + 2);
    assert!((128..=254).contains(&notice) && (16_384..=POINTS).contains(&last), "{last} {notice}");
    assert_eq!(corners.build(YARDS, last, notice), Ok(LARGEST));
    assert!(corners.out.starts_with(b"PLBC\0\x1F\0") && is_zero(&corners.out[LARGEST..]) && is_zero(&corners.bytes));
    assert_eq!(corners.build(YARDS, last, notice + 1), Err(TOO_LONG));
    assert!(is_zero(&corners.out) && is_zero(&corners.bytes));
    // the borders alone
    assert_eq!(corners.build(YARDS, POINTS, 0), Err(TOO_LONG));
    assert!(is_zero(&corners.out) && is_zero(&corners.bytes));
}
