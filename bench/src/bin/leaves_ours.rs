//! The library's leaves and verdict, through the counting crate's archive.

use bench::leaves::{run, Leaves, Map};

#[link(name = "counted", kind = "static")]
extern "C" {
    fn counted_forward(file: *const u8, file_len: usize, place: usize, count: usize) -> u64;
    fn counted_backward(file: *const u8, file_len: usize, place: usize, count: usize) -> u64;
    fn counted_unshuffle(words: *const u64, len: usize) -> u32;
    fn counted_of_i32(integers: *const i32, len: usize) -> u32;
    fn counted_of_u64(integers: *const u64, len: usize) -> u32;
    fn counted_to_i32(floats: *const f32, len: usize) -> i32;
    fn counted_to_i64(floats: *const f32, len: usize) -> i64;
    fn counted_sqrt(floats: *const f32, len: usize) -> u32;
    fn counted_verdict(
        file: *const u8,
        file_len: usize,
        version: u8,
        data_offset: u32,
        place: usize,
        lat: i32,
        lon: i32,
        asked: bool,
        least: *mut [u64; 1],
    ) -> u8;
}

struct Ours {
    file: Vec<u8>,
    version: u8,
    data_offset: u32,
}

// SAFETY, of every call: a pointer goes with the number of values it points to.
impl Leaves for Ours {
    fn of(file: Vec<u8>, map: &Map) -> Ours {
        Ours {
            file,
            version: map.version,
            data_offset: map.data_offset as u32,
        }
    }
    fn forward(&self, place: usize, count: usize) -> u64 {
        unsafe { counted_forward(self.file.as_ptr(), self.file.len(), place, count) }
    }
    fn backward(&self, place: usize, count: usize) -> u64 {
        unsafe { counted_backward(self.file.as_ptr(), self.file.len(), place, count) }
    }
    fn unshuffle(&self, words: &[u64]) -> u32 {
        unsafe { counted_unshuffle(words.as_ptr(), words.len()) }
    }
    fn of_i32(&self, integers: &[i32]) -> u32 {
        unsafe { counted_of_i32(integers.as_ptr(), integers.len()) }
    }
    fn of_u64(&self, integers: &[u64]) -> u32 {
        unsafe { counted_of_u64(integers.as_ptr(), integers.len()) }
    }
    fn to_i32(&self, floats: &[f32]) -> i32 {
        unsafe { counted_to_i32(floats.as_ptr(), floats.len()) }
    }
    fn to_i64(&self, floats: &[f32]) -> i64 {
        unsafe { counted_to_i64(floats.as_ptr(), floats.len()) }
    }
    fn sqrt(&self, floats: &[f32]) -> u32 {
        unsafe { counted_sqrt(floats.as_ptr(), floats.len()) }
    }
    fn verdict(&self, place: usize, lat: i32, lon: i32, asked: bool) -> (u8, u64) {
        let (file, len) = (self.file.as_ptr(), self.file.len());
        let mut least = [u64::MAX];
        let (version, data_offset) = (self.version, self.data_offset);
        let verdict = unsafe {
            counted_verdict(
                file,
                len,
                version,
                data_offset,
                place,
                lat,
                lon,
                asked,
                &mut least,
            )
        };
        (verdict, least[0])
    }
}

fn main() {
    run::<Ours>();
}
