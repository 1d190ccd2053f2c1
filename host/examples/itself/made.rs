//! Files with extreme and inverted boxes, and fixes on, beside and far from them.

use crate::common::encode::{signed, string, varint};
use crate::common::Fix;
use crate::random::Random;

/// A file of type C without fields, with the sizes of its sections at one place, so that its data can grow by a byte.
pub struct Made {
    pub bytes: Vec<u8>,
    pub precision: u8,
    pub boxes: Vec<[i64; 4]>,
    /// Where the size of the data stands, and that size.
    size_at: usize,
    data: usize,
}

fn boxes(random: &mut Random, precision: u8) -> Vec<[i64; 4]> {
    let mut boxes: Vec<[i64; 4]> = (0..random.below(12)).map(|_| [0; 4].map(|_| random.coordinate(precision))).collect();
    for bounds in &mut boxes {
        // inverted ones stay as they are
        if !random.once_in(5) {
            *bounds = [bounds[0].min(bounds[2]), bounds[1].min(bounds[3]), bounds[0].max(bounds[2]), bounds[1].max(bounds[3])];
        }
    }
    if !random.once_in(10) {
        boxes.sort_by_key(|bounds| bounds[0]);
    }
    boxes
}

/// The corners of a box as a border of version 0.
fn border([south, west, north, east]: [i64; 4]) -> Vec<u8> {
    let (mut bytes, mut here) = (varint(4), (0, 0));
    for (lat, lon) in [(south, west), (north, west), (north, east), (south, east)] {
        bytes.extend(signed(lat - here.0));
        bytes.extend(signed(lon - here.1));
        here = (lat, lon);
    }
    bytes.extend([2, 2]);
    bytes
}

impl Made {
    /// With a border for each box; the table mostly in order.
    pub fn new(random: &mut Random) -> Made {
        let precision = if random.once_in(8) { random.pick(&[1, 2, 5, 31, 32]) } else { 6 + random.below(16) as u8 };
        let boxes = boxes(random, precision);
        let (mut table, mut data, mut last) = (vec![], vec![0], 0);
        for bounds in &boxes {
            table.extend(bounds.iter().flat_map(|bound| signed(*bound)));
            table.extend(signed(0));
            table.extend(varint((data.len() - last) as u64));
            last = data.len();
            data.extend(border(*bounds));
        }
        let mut bytes = b"PLBC\0".to_vec();
        bytes.extend([precision, 0]);
        bytes.extend(string(""));
        bytes.extend(varint(table.len() as u64));
        bytes.extend(varint(0));
        let size_at = bytes.len();
        bytes.extend(varint(data.len() as u64));
        bytes.extend(table);
        bytes.extend(&data);
        Made { bytes, precision, boxes, size_at, data: data.len() }
    }

    /// With a byte more of data, where the data's size is written as long as before.
    pub fn longer(&self, byte: u8) -> Option<Vec<u8>> {
        let (old, new) = (varint(self.data as u64), varint(self.data as u64 + 1));
        (old.len() == new.len()).then(|| {
            let mut bytes = [&self.bytes[..], &[byte]].concat();
            bytes[self.size_at..][..new.len()].copy_from_slice(&new);
            bytes
        })
    }

    pub fn fix(&self, random: &mut Random) -> Fix {
        let steps = 2f64.powi(i32::from(self.precision) - 1);
        let degrees = |lat: i64, lon: i64| ((lat as f64 * 90.0 / steps) as f32, (lon as f64 * 180.0 / steps) as f32);
        let (lat, lon) = match (random.below(6), self.boxes.is_empty()) {
            (0, _) => (random.pick(&[f32::NAN, f32::INFINITY, -90.0, 90.0, 0.0, -0.0]), random.pick(&[f32::NAN, f32::NEG_INFINITY, -180.0, 180.0, 0.0])),
            (1, _) | (_, true) => degrees(random.coordinate(self.precision), random.coordinate(self.precision)),
            _ => {
                let [south, west, north, east] = random.pick(&self.boxes);
                let near = |random: &mut Random, low: i64, high: i64| random.pick(&[low, high, (low + high) / 2]) + random.pick(&[0, 0, 1, -1]);
                degrees(near(random, south, north), near(random, west, east))
            }
        };
        Fix { lat, lon, asked: random.once_in(2) }
    }
}
