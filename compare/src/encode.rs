//! How the format writes numbers and points, rightly and less rightly.
use crate::random::Random;

#[allow(dead_code)] // strings here are less right than those
#[path = "../../host/tests/common/encode.rs"]
mod rightly;

pub use rightly::{number_of as signed, varint};

/// The same value in at least so many bytes.
pub fn padded(value: u64, width: usize) -> Vec<u8> {
    let mut out = varint(value);
    while out.len() < width {
        *out.last_mut().unwrap() |= 0x80;
        out.push(0);
    }
    out
}

fn spread(code: u32) -> u64 {
    (0..32).fold(0, |sum, i| sum | (code as u64 >> i & 1) << (2 * i))
}

pub fn point(lat: i64, lon: i64) -> u64 {
    spread(signed(lat) as u32) | spread(signed(lon) as u32) << 1
}

/// How often, one in so many numbers, a number is written in more bytes than it needs, is another number, or has eleven bytes.
#[derive(Clone, Copy)]
pub struct Style {
    pub overlong: usize,
    pub wild: usize,
    pub eleven: usize,
}

impl Style {
    pub fn any(r: &mut Random) -> Style {
        match r.below(8) {
            0 => Style { overlong: 3, wild: 0, eleven: 0 },
            1 => Style { overlong: 20, wild: 30, eleven: 0 },
            2 => Style { overlong: 40, wild: 60, eleven: 60 },
            _ => Style { overlong: 0, wild: 0, eleven: 0 },
        }
    }

    pub fn number(self, r: &mut Random, value: u64) -> Vec<u8> {
        let value = if r.one_in(self.wild) { r.wild() } else { value };
        if r.one_in(self.eleven) {
            return padded(value, 11);
        }
        if !r.one_in(self.overlong) {
            return varint(value);
        }
        let width = 1 + r.below(10);
        let mut out = padded(value, width);
        if out.len() == 10 && r.one_in(2) {
            // bits of the tenth byte that are lost
            out[9] |= (r.below(64) << 1) as u8;
        }
        out
    }
}

pub fn masked(text: &[u8]) -> Vec<u8> {
    text.iter().map(|byte| byte ^ 0x80).collect()
}
