//! Small PLB files.

use super::encode::{number_of, signed, string, varint};

/// Document 01's example: one square zone `A`, type C, version 1, precision 16; and its fix.
pub const SQUARE: [u8; 33] = [
    0x50, 0x4C, 0x42, 0x43, 0x01, 0x10, 0x01, 0x04, 0xCE, 0xE1, 0xED, 0xE5, 0x00, 0x06, 0x02, 0x09,
    0x04, 0x04, 0x14, 0x14, 0x00, 0x00, 0x01, 0xC1, 0x30, 0x80, 0x02, 0x80, 0x04, 0x81, 0x02, 0x00,
    0x00,
];
pub const SQUARE_LAT: u32 = 0x3C61_0000;
pub const SQUARE_LON: u32 = 0x3CE1_0000;

/// A zone, an entry above it, and behind that a hole of the zone: the table is not in order.
pub const OUT_OF_ORDER: [u8; 54] = [
    0x50, 0x4C, 0x42, 0x43, 0x01, 0x10, 0x01, 0x04, 0xCE, 0xE1, 0xED, 0xE5, 0x00, 0x12, 0x02, 0x12,
    0x04, 0x04, 0x14, 0x14, 0x00, 0x00, 0x28, 0x28, 0x28, 0x28, 0x00, 0x00, 0x04, 0x04, 0x14, 0x14,
    0x00, 0x09, 0x01, 0xC1, 0x30, 0x80, 0x02, 0x80, 0x04, 0x81, 0x02, 0x00, 0x00, 0x30, 0x80, 0x04,
    0x80, 0x02, 0x82, 0x04, 0x00, 0x00,
];
pub const OUT_OF_ORDER_LAT: u32 = 0x3C61_0000;
pub const OUT_OF_ORDER_LON: u32 = 0x3CE1_0000;

/// One zone, "A", whose border's first vertex is the fix, and a table entry that the file's end cuts: a match under end mark 2.
pub const TABLE_CUT: [u8; 45] = [
    0x50, 0x4C, 0x42, 0x43, 0x01, 0x10, 0x01, 0x04, 0xCE, 0xE1, 0xED, 0xE5, 0x00, 0x1B, 0x02, 0x00,
    0x80, 0x80, 0x80, 0x80, 0x10, 0x80, 0x80, 0x80, 0x80, 0x10, 0xFE, 0xFF, 0xFF, 0xFF, 0x0F, 0xFE,
    0xFF, 0xFF, 0xFF, 0x0F, 0x00, 0xFD, 0xFF, 0xFF, 0xFF, 0x0F, 0x0C, 0x01, 0xC1,
];
pub const TABLE_CUT_LAT: u32 = 0x3B34_0000;
pub const TABLE_CUT_LON: u32 = 0x3BB4_0000;

/// Where the square's sections begin, and where the third size stands.
pub const SQUARE_TABLE: usize = 16;
pub const SQUARE_DATA: usize = 24;
pub const SQUARE_THIRD_SIZE: usize = 15;

/// Precision 16: so many degrees are one step of the grid.
pub const LAT_STEP: f32 = 90.0 / 32768.0;
pub const LON_STEP: f32 = 180.0 / 32768.0;

pub struct Zone<'a> {
    pub fields: &'a [&'a str],
    pub borders: &'a [&'a [(i32, i32)]],
}

fn strings(texts: &[&str]) -> Vec<u8> {
    texts.iter().flat_map(|text| string(text)).collect()
}

/// The box of a border, and the steps from the last entry.
fn entry(points: &[(i32, i32)], metadata: i64, data: u64) -> Vec<u8> {
    let lats = || points.iter().map(|point| i64::from(point.0));
    let lons = || points.iter().map(|point| i64::from(point.1));
    let bounds = [lats().min(), lons().min(), lats().max(), lons().max()];
    let mut bytes: Vec<u8> = bounds
        .iter()
        .flat_map(|bound| signed(bound.unwrap()))
        .collect();
    bytes.extend(signed(metadata));
    bytes.extend(varint(data));
    bytes
}

pub struct Sections {
    pub table: Vec<u8>,
    pub metadata: Vec<u8>,
    pub data: Vec<u8>,
}

/// A border as docs/FORMAT.md has it, written here, so that a printer's tests need no writer: a number of steps and 02 02 behind them, or each move in one number and two zeros.
pub fn border(version: u8, points: &[(i32, i32)]) -> Vec<u8> {
    let before = [(0, 0)].iter().chain(points);
    let moves = points.iter().zip(before).map(|(to, from)| (i64::from(to.0) - i64::from(from.0), i64::from(to.1) - i64::from(from.1)));
    if version == 0 {
        let steps = moves.flat_map(|(lat, lon)| [signed(lat), signed(lon)].concat());
        return varint(points.len() as u64).into_iter().chain(steps).chain([2, 2]).collect();
    }
    let bits = |value: i64| (0..32).map(|bit| (number_of(value) >> bit & 1) << (2 * bit)).sum::<u64>();
    moves.flat_map(|(lat, lon)| varint(bits(lat) | bits(lon) << 1)).chain([0, 0]).collect()
}

/// The borders in the order given: lower latitudes must not fall.
pub fn sections(version: u8, zones: &[Zone]) -> Sections {
    let mut all = Sections {
        table: vec![],
        metadata: vec![],
        data: vec![],
    };
    let (mut last_metadata, mut last_data) = (0, 0);
    for zone in zones {
        let metadata = all.metadata.len() as i64;
        for points in zone.borders {
            let data = all.data.len() as u64;
            all.table
                .extend(entry(points, metadata - last_metadata, data - last_data));
            all.data
                .extend(border(version, points));
            (last_metadata, last_data) = (metadata, data);
        }
        all.metadata.extend(strings(zone.fields));
    }
    all
}

/// A header for sections of these sizes: type T or C, precision 16.
pub fn header(kind: u8, version: u8, names: &[&str], notice: &str, sizes: [usize; 3]) -> Vec<u8> {
    let mut file = vec![b'P', b'L', b'B', kind, version, 16, names.len() as u8];
    file.extend(strings(names));
    file.extend(string(notice));
    file.extend(sizes.iter().flat_map(|size| varint(*size as u64)));
    file
}

pub fn file(kind: u8, version: u8, names: &[&str], notice: &str, zones: &[Zone]) -> Vec<u8> {
    let Sections {
        table,
        metadata,
        data,
    } = sections(version, zones);
    let mut file = header(
        kind,
        version,
        names,
        notice,
        [table.len(), metadata.len(), data.len()],
    );
    file.extend([table, metadata, data].concat());
    file
}

/// Two time zones about one place, the first with two borders: three hits and two matches at (5,5) of the grid.
pub fn overlap(version: u8) -> Vec<u8> {
    let names = ["TimezoneIdPrefix", "TimezoneId"];
    let small = [(1, 1), (9, 1), (9, 9), (1, 9)];
    let large = [(2, 2), (10, 2), (10, 10), (2, 10)];
    let other = [(3, 3), (20, 3), (20, 20), (3, 20)];
    let zones = [
        Zone {
            fields: &["Up/", "One"],
            borders: &[&small, &large],
        },
        Zone {
            fields: &["Up/", "Two"],
            borders: &[&other],
        },
    ];
    file(b'T', version, &names, "none", &zones)
}
