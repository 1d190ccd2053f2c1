//! The Rust's leaves and verdict: its published text with loops behind it, and the language's own conversions.

use bench::leaves::{run, Leaves, Map};
use zone_detect_counted::{counted, Database};

struct Rust(Database);

/// Every NaN alike, as the library has it.
fn bits_of(x: f32) -> u32 {
    if x.is_nan() {
        0x7fc0_0000
    } else {
        x.to_bits()
    }
}

impl Leaves for Rust {
    fn of(file: Vec<u8>, map: &Map) -> Rust {
        Rust(counted::raw(file, map.version, map.data_offset as u32))
    }
    #[inline(never)]
    fn forward(&self, place: usize, count: usize) -> u64 {
        counted::forward(&self.0, place as u32, count)
    }
    #[inline(never)]
    fn backward(&self, place: usize, count: usize) -> u64 {
        counted::backward(&self.0, place as u32, count)
    }
    #[inline(never)]
    fn unshuffle(&self, words: &[u64]) -> u32 {
        counted::unshuffled(words)
    }
    #[inline(never)]
    fn of_i32(&self, integers: &[i32]) -> u32 {
        integers.iter().fold(0, |sum, &n| sum ^ bits_of(n as f32))
    }
    #[inline(never)]
    fn of_u64(&self, integers: &[u64]) -> u32 {
        integers.iter().fold(0, |sum, &n| sum ^ bits_of(n as f32))
    }
    #[inline(never)]
    fn to_i32(&self, floats: &[f32]) -> i32 {
        floats.iter().fold(0, |sum, &x| sum ^ x as i32)
    }
    #[inline(never)]
    fn to_i64(&self, floats: &[f32]) -> i64 {
        floats.iter().fold(0, |sum, &x| sum ^ x as i64)
    }
    #[inline(never)]
    fn sqrt(&self, floats: &[f32]) -> u32 {
        floats.iter().fold(0, |sum, &x| sum ^ bits_of(x.sqrt()))
    }
    #[inline(never)]
    fn verdict(&self, place: usize, lat: i32, lon: i32, asked: bool) -> (u8, u64) {
        counted::verdict(&self.0, place as u32, lat, lon, asked)
    }
}

fn main() {
    run::<Rust>();
}
