//! Small TZif files.

/// A header with these counts.
pub fn header(version: u8, counts: [u32; 6]) -> Vec<u8> {
    let mut out = b"TZif".to_vec();
    out.push(version);
    out.extend([0; 15]);
    out.extend(counts.iter().flat_map(|count| count.to_be_bytes()));
    out
}

/// `AAA` at UT; from instant 0 on `BCD`, an hour east, daylight time; from 2^33 on, in March 2242, `AAA` again, and then by the string.
pub fn small() -> Vec<u8> {
    let types = [0, 0, 0, 0, 0, 0, 0, 0, 0x0E, 0x10, 1, 4];
    let mut out = header(b'2', [0, 0, 0, 0, 1, 4]);
    out.extend(&types[..6]);
    out.extend(b"AAA\0");
    out.extend(header(b'2', [0, 0, 0, 2, 2, 8]));
    out.extend([0i64, 1 << 33].iter().flat_map(|time| time.to_be_bytes()));
    out.extend([1, 0]);
    out.extend(types);
    out.extend(b"AAA\0BCD\0\nAAA0BCD,M3.5.0,M10.5.0\n");
    out
}

/// Version 1: one clock, this offset, for ever.
pub fn fixed(offset: i32, name: &str) -> Vec<u8> {
    let mut file = header(0, [0, 0, 0, 0, 1, name.len() as u32 + 1]);
    file.extend(offset.to_be_bytes());
    file.extend([0, 0]);
    file.extend(name.bytes().chain([0]));
    file
}

/// Version 1: one clock, this offset, for ever, and a leap second at each of these instants.
pub fn leaping(offset: i32, name: &str, occurrences: &[i32]) -> Vec<u8> {
    let mut file = header(0, [0, 0, occurrences.len() as u32, 0, 1, name.len() as u32 + 1]);
    file.extend(offset.to_be_bytes());
    file.extend([0, 0]);
    file.extend(name.bytes().chain([0]));
    for (at, correction) in occurrences.iter().zip(1i32..) {
        file.extend(at.to_be_bytes());
        file.extend(correction.to_be_bytes());
    }
    file
}

/// Version 1: one change, at 1970, and nothing said after it.
pub fn ended() -> Vec<u8> {
    let mut file = header(0, [0, 0, 0, 1, 1, 4]);
    file.extend([0; 4 + 1 + 6]);
    file.extend(b"AAA\0");
    file
}
