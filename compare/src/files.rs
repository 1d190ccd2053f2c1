//! Whole files with a location, in all their parts by chance; then damaged ones.
use crate::borders::{border, Data};
use crate::encode::{masked, padded, signed, varint, Style};
use crate::random::Random;
use zone_detect_hooked::hooks;

#[derive(Clone)]
pub struct Case {
    pub file: Vec<u8>,
    pub lat: u32,
    pub lon: u32,
    /// How the file was made, for the count.
    pub made: &'static str,
}

// ---- locations

pub fn coordinate(r: &mut Random, limit: f32) -> f32 {
    let special = [0.0, -0.0, limit, -limit, limit / 2.0, -limit / 2.0, f32::INFINITY, f32::NEG_INFINITY, f32::NAN,
        f32::MIN_POSITIVE, f32::MAX, f32::MIN, f32::from_bits(1), f32::from_bits(0x8000_0001), f32::from_bits(0x7F80_0001),
        f32::from_bits(limit.to_bits() + 1), f32::from_bits(limit.to_bits() - 1)];
    match r.below(12) {
        0 => r.pick(&special),
        1 => f32::from_bits(r.next() as u32),
        2 => f32::from_bits(r.next() as u32 & 0x807F_FFFF),
        3 => r.between(-3, 3) as f32 * limit / 65536.0,
        4 => r.between(-180, 180) as f32,
        _ => (r.below(1 << 24) as f32 / (1 << 23) as f32 - 1.0) * limit,
    }
}

fn precision(r: &mut Random) -> u8 {
    match r.below(60) {
        0 => 0,
        1 => r.between(33, 40) as u8,
        2 => 255,
        3..=6 => r.pick(&[1, 2, 31, 32]),
        7..=14 => r.between(1, 32) as u8,
        _ => r.pick(&[16, 16, 20, 21]),
    }
}

// ---- texts

fn utf8_bytes(r: &mut Random, size: usize) -> Vec<u8> {
    let letters = ["a", "Z", "0", "_", "é", "ß", "߿", "ࠀ", "한", "\u{D7FF}", "\u{E000}", "\u{FFFF}", "\u{10000}", "\u{10FFFF}", "\0"];
    let mut out = Vec::new();
    while out.len() < size {
        let next = if r.one_in(3) { r.pick(&letters) } else { "n" };
        let fits = out.len() + next.len() <= size;
        out.extend(if fits { next } else { "n" }.as_bytes());
    }
    out
}

fn bad_bytes(r: &mut Random, size: usize) -> Vec<u8> {
    let parts: [&[u8]; 14] = [&[0xC0, 0x80], &[0xC1, 0xBF], &[0xED, 0xA0, 0x80], &[0xF4, 0x90, 0x80, 0x80], &[0x80], &[0xFF], &[0xE0, 0x9F, 0xBF],
        &[0xF0, 0x8F, 0xBF, 0xBF], &[0xC2], &[0xE2, 0x89], &[0xF0, 0x90, 0x80], &[0xF5, 0x80, 0x80, 0x80], &[0xBF], &[0xC2, 0x41]];
    let mut out = utf8_bytes(r, size);
    let part = r.pick(&parts);
    if part.len() <= size {
        let at = r.below(size - part.len() + 1);
        out[at..at + part.len()].copy_from_slice(part);
    }
    out
}

fn size(r: &mut Random) -> usize {
    match r.below(80) {
        0 => r.pick(&[127, 128, 254, 255]),
        1 => r.below(256),
        2..=10 => 0,
        _ => r.below(9),
    }
}

fn text(r: &mut Random, bad: usize) -> Vec<u8> {
    let size = size(r);
    if r.one_in(bad) { bad_bytes(r, size) } else { utf8_bytes(r, size) }
}

fn inline(r: &mut Random, style: Style, text: &[u8]) -> Vec<u8> {
    let mut out = style.number(r, text.len() as u64);
    out.extend(masked(text));
    out
}

/// A string kept elsewhere: here of 256 and 257 bytes too.
fn remote(r: &mut Random, style: Style, bad: usize) -> Vec<u8> {
    let mut words = text(r, bad);
    if r.one_in(12) {
        let size = r.pick(&[255, 256, 256, 257, 300]);
        words = utf8_bytes(r, size);
    }
    inline(r, style, &words)
}

// ---- the parts of a file

struct Parts {
    style: Style,
    bad: usize,
    header: Vec<u8>,
    /// Places in the header that mean a string of the pool, by its number.
    later: Vec<(usize, usize)>,
    table: Vec<u8>,
    metadata: Vec<u8>,
    /// Where remote strings stand in the metadata.
    pool: Vec<usize>,
    data: Data,
}

fn name(r: &mut Random, kind: u8, bad: usize) -> Vec<u8> {
    let known: [&[u8]; 3] = [b"Name", b"TimezoneIdPrefix", b"TimezoneId"];
    match (r.below(6), kind) {
        (0 | 1, b'C') => known[0].to_vec(),
        (0 | 1, _) => known[1].to_vec(),
        (2 | 3, b'T') => known[2].to_vec(),
        (2, _) => r.pick(&known).to_vec(),
        _ => text(r, bad),
    }
}

fn put_name(r: &mut Random, kind: u8, parts: &mut Parts) {
    match r.below(14) {
        0 if !parts.pool.is_empty() => {
            let which = r.below(parts.pool.len());
            parts.later.push((parts.header.len(), which));
            parts.header.extend(padded(0, 3));
        }
        1 if r.one_in(4) => {
            let place = 256 + r.below(parts.header.len() + 40) as u64;
            let number = parts.style.number(r, place);
            parts.header.extend(number);
        }
        _ => {
            let name = name(r, kind, parts.bad);
            let name = inline(r, parts.style, &name);
            parts.header.extend(name);
        }
    }
}

fn field_count(r: &mut Random) -> usize {
    match r.below(400) {
        0 => 255,
        1 => r.pick(&[254, 100, 40]),
        2..=60 => 0,
        _ => 1 + r.below(4),
    }
}

fn put_header(r: &mut Random, kind: u8, version: u8, precision: u8, fields: usize, parts: &mut Parts) {
    parts.header.extend(b"PLB");
    parts.header.extend([kind, version, precision, fields as u8]);
    let both: [&[u8]; 2] = [b"TimezoneIdPrefix", b"TimezoneId"];
    let whole = fields >= 2 && kind == b'T' && r.one_in(2);
    let first = r.below(2);
    for i in 0..fields {
        if whole && i < 2 {
            let name = inline(r, parts.style, both[(i + first) % 2]);
            parts.header.extend(name);
        } else {
            put_name(r, kind, parts);
        }
    }
    let notice = if r.one_in(3) { text(r, parts.bad) } else { Vec::new() };
    let notice = inline(r, parts.style, &notice);
    parts.header.extend(notice);
}

/// The place of one record of fields.
fn put_fields(r: &mut Random, fields: usize, parts: &mut Parts) -> usize {
    let start = parts.metadata.len();
    for _ in 0..fields {
        let bytes = match r.below(12) {
            0 | 1 if !parts.pool.is_empty() => {
                let which = r.below(parts.pool.len());
                parts.style.number(r, 256 + parts.pool[which] as u64)
            }
            2 if r.one_in(4) => {
                let value = 256 + r.below(parts.metadata.len() + 40) as u64;
                varint(value + ((r.one_in(4) as u64) << 32))
            }
            _ => {
                let text = text(r, parts.bad);
                inline(r, parts.style, &text)
            }
        };
        parts.metadata.extend(bytes);
    }
    start
}

/// A table entry: its box, metadata id and border.
type Entry = ([i64; 4], usize, usize);

fn held_box(r: &mut Random, points: &[(i64, i64)], fix: (i32, i32)) -> [i64; 4] {
    let whole = [i32::MIN as i64 + 1, i32::MIN as i64 + 1, i32::MAX as i64, i32::MAX as i64];
    let (lats, lons) = (points.iter().map(|p| p.0), points.iter().map(|p| p.1));
    let tight = [lats.clone().min().unwrap(), lons.clone().min().unwrap(), lats.max().unwrap(), lons.max().unwrap()];
    let mut sides = match r.below(10) {
        0..=2 => whole,
        3 => [fix.0 as i64, fix.1 as i64, fix.0 as i64, fix.1 as i64],
        4 => [fix.0 as i64 - r.between(-1, 1), fix.1 as i64 - r.between(-1, 1), fix.0 as i64 + r.between(-1, 1), fix.1 as i64 + r.between(-1, 1)],
        _ => tight,
    };
    if r.one_in(20) {
        sides.swap(0, 2);
    }
    if r.one_in(20) {
        sides.swap(1, 3);
    }
    sides
}

fn put_table(r: &mut Random, entries: &[Entry], parts: &mut Parts) {
    let (mut meta, mut place) = (0i64, 0i64);
    let loose = Style { wild: parts.style.wild * 4, ..parts.style };
    for (sides, fields, border) in entries {
        for side in sides {
            let number = loose.number(r, signed(*side));
            parts.table.extend(number);
        }
        let number = loose.number(r, signed(*fields as i64 - meta));
        parts.table.extend(number);
        let number = loose.number(r, (*border as i64 - place) as u32 as u64);
        parts.table.extend(number);
        (meta, place) = (*fields as i64, *border as i64);
    }
}

fn put_sections(r: &mut Random, fields: usize, entries: usize, fix: (i32, i32), parts: &mut Parts) {
    for _ in 0..r.below(3) {
        parts.pool.push(parts.metadata.len());
        let string = remote(r, parts.style, parts.bad);
        parts.metadata.extend(string);
    }
    let many = if r.one_in(8) { 4 + r.below(6) } else { 1 + r.below(3) };
    let records: Vec<usize> = (0..many).map(|_| put_fields(r, fields, parts)).collect();
    let before = r.below(3);
    let before = r.bytes(before);
    parts.data.bytes.extend(before);
    let mut list = Vec::new();
    for _ in 0..entries {
        let style = parts.style;
        let (start, points) = border(r, style, &mut parts.data, fix);
        list.push((held_box(r, &points, fix), r.pick(&records), start));
    }
    if !r.one_in(8) {
        list.sort_by_key(|e| e.0[0]);
    }
    put_table(r, &list, parts);
}

fn whole_size(r: &mut Random, size: usize) -> Vec<u8> {
    match r.below(30) {
        0 => varint(size as u64 + ((r.below(4) as u64 + 1) << 32)),
        1 => padded(size as u64, 1 + r.below(10)),
        _ => varint(size as u64),
    }
}

fn assembled(r: &mut Random, mut parts: Parts) -> Vec<u8> {
    let mut sizes = [parts.table.len(), parts.metadata.len()];
    if r.one_in(30) {
        // entries or fields that run past the end of their section
        let which = r.below(2);
        let less = r.below(sizes[which] + 1).min(4);
        sizes[which] -= less;
    }
    let mut out = std::mem::take(&mut parts.header);
    out.extend(whole_size(r, sizes[0]));
    out.extend(whole_size(r, sizes[1]));
    let rest = parts.table.len() + parts.metadata.len() + parts.data.bytes.len() - sizes[0] - sizes[1];
    out.extend(if r.one_in(20) { padded(rest as u64, 1 + r.below(10)) } else { varint(rest as u64) });
    let metadata = out.len() + parts.table.len();
    for (place, which) in &parts.later {
        let value = 256 + (metadata + parts.pool[*which]) as u64;
        let bytes = padded(value, 3);
        if bytes.len() == 3 {
            out[*place..*place + 3].copy_from_slice(&bytes);
        }
    }
    out.extend(parts.table);
    out.extend(parts.metadata);
    out.extend(parts.data.bytes);
    out
}

fn kind(r: &mut Random) -> u8 {
    if r.one_in(100) { r.next() as u8 } else { r.pick(b"CT") }
}

fn whole(r: &mut Random) -> Case {
    let (version, precision) = (if r.one_in(100) { r.next() as u8 } else { r.below(3).min(1) as u8 }, precision(r));
    let (lat, lon) = (coordinate(r, 90.0), coordinate(r, 180.0));
    let grid = precision.clamp(1, 32) as u32;
    let fix = (hooks::fixed(lat, 90.0, grid), hooks::fixed(lon, 180.0, grid));
    let bad = r.pick(&[0, 0, 0, 30, 8]);
    let mut parts = Parts {
        style: Style::any(r), bad, header: Vec::new(), later: Vec::new(), table: Vec::new(), metadata: Vec::new(), pool: Vec::new(),
        data: Data { version: version.min(1), bytes: Vec::new(), runs: Vec::new() },
    };
    let fields = field_count(r);
    let entries = match r.below(3000) {
        0 if fields < 9 => 300 + r.below(700),
        1..=40 => 20 + r.below(40),
        _ => r.below(7),
    };
    let kind = kind(r);
    put_sections(r, fields, entries, fix, &mut parts);
    put_header(r, kind, version, precision, fields, &mut parts);
    let file = assembled(r, parts);
    Case { file, lat: lat.to_bits(), lon: lon.to_bits(), made: if version == 0 { "whole, version 0" } else { "whole, version 1" } }
}

// ---- damage

/// A file that opens, with other bytes behind its header and the sizes of its sections to match.
fn with_sections(file: &[u8], sizes: [usize; 3], body: &[u8]) -> Option<Vec<u8>> {
    let opened = crate::rust::open(file).ok()?;
    let mut out = file[..opened.sizes].to_vec();
    for size in sizes {
        out.extend(varint(size as u64));
    }
    out.extend(body);
    Some(out)
}

/// Cut to a size, behind the header, so that it still opens.
fn cut(file: &[u8], size: usize) -> Option<Vec<u8>> {
    let opened = crate::rust::open(file).ok()?;
    let table = opened.table as usize;
    if size < table {
        return None;
    }
    let (metadata, data) = (size.min(opened.metadata as usize), size.min(opened.data as usize));
    with_sections(file, [metadata - table, data - metadata, size - data], &file[table..size])
}

/// Bytes of a section replaced by others, so that the file still opens.
pub fn replaced(file: &[u8], from: usize, to: usize, by: &[u8]) -> Option<Vec<u8>> {
    let opened = crate::rust::open(file).ok()?;
    let places = [opened.table as usize, opened.metadata as usize, opened.data as usize, file.len()];
    let which = (0..3).find(|&i| places[i] <= from && to <= places[i + 1])?;
    let mut sizes = [places[1] - places[0], places[2] - places[1], places[3] - places[2]];
    sizes[which] = sizes[which] + by.len() - (to - from);
    with_sections(file, sizes, &[&file[places[0]..from], by, &file[to..]].concat())
}

fn changed(r: &mut Random, file: &[u8]) -> Vec<u8> {
    let mut out = file.to_vec();
    let (at, many) = (r.below(file.len().max(1)), 1 + r.below(4));
    match r.below(9) {
        0 if !out.is_empty() => out.truncate(at),
        1 if !out.is_empty() => {
            // cut, and sized so that it still opens
            return cut(file, at).unwrap_or_else(|| file[..at].to_vec());
        }
        2 => {
            let more = if r.one_in(2) { r.bytes(many) } else { vec![r.pick(&[0, 0x80, 0xFF]); many * 3] };
            out.splice(at..at, more.iter().copied());
            if let (true, Some(sized)) = (r.one_in(2), replaced(file, at, at, &more)) {
                return sized;
            }
        }
        3 if at + many <= out.len() => {
            out.drain(at..at + many);
            if let (true, Some(sized)) = (r.one_in(2), replaced(file, at, at + many, &[])) {
                return sized;
            }
        }
        4 if !out.is_empty() => {
            for _ in 0..many {
                let place = r.below(out.len());
                out[place] = r.next() as u8;
            }
        }
        5 if out.len() > 7 => {
            // the head: magic, type, version, precision, count, first string
            let place = r.pick(&[0, 1, 2, 3, 3, 4, 4, 5, 5, 5, 6, 6, 7, 7, 8]).min(out.len() - 1);
            out[place] = r.pick(&[0, 1, 2, 31, 32, 33, 0x7F, 0x80, 0xFF, b'T', b'C', out[place].wrapping_add(1)]);
        }
        6 => {
            // any of the sizes
            if let Ok(opened) = crate::rust::open(file) {
                let raw = hooks::raw(file.to_vec(), 0, 0, 0);
                let mut place = opened.sizes as u32;
                for _ in 0..r.below(3) {
                    place = hooks::forward(&raw, place).unwrap().1;
                }
                let (value, next) = hooks::forward(&raw, place).unwrap();
                let value = if r.one_in(2) { r.wild() } else { value.wrapping_add(r.between(-3, 3) as u64) };
                out.splice(place as usize..next as usize, varint(value));
            }
        }
        _ if !out.is_empty() => {
            for _ in 0..many {
                let place = r.below(out.len());
                out[place] ^= 1 << r.below(8);
            }
        }
        _ => {}
    }
    out
}

fn damaged(r: &mut Random) -> Case {
    let mut case = whole(r);
    for _ in 0..1 + r.below(3) {
        case.file = changed(r, &case.file);
    }
    Case { made: "damaged", ..case }
}

fn random(r: &mut Random) -> Case {
    let size = if r.one_in(10) { r.below(400) } else { r.below(60) };
    let mut file = r.bytes(size);
    if r.one_in(2) {
        file.iter_mut().for_each(|byte| *byte &= 0x0F);
    }
    let head = [b'P', b'L', b'B', r.pick(b"CT"), r.below(2) as u8, precision(r), r.below(3) as u8];
    let keep = r.pick(&[0, 3, 4, 5, 6, 7, 7, 7, 7]).min(file.len());
    file[..keep].copy_from_slice(&head[..keep]);
    Case { file, lat: coordinate(r, 90.0).to_bits(), lon: coordinate(r, 180.0).to_bits(), made: "random bytes" }
}

/// A file cut at each of its places, 256 at most, by the case's number; every second file is made to open.
fn prefix(seed: u64, index: u64) -> Case {
    let mut case = whole(&mut Random::new(seed, 2, index / 256));
    let size = ((index % 256) as usize * case.file.len().max(256) / 256).min(case.file.len());
    let opening = if index / 256 % 2 == 1 { cut(&case.file, size) } else { None };
    case.file = opening.unwrap_or_else(|| case.file[..size].to_vec());
    Case { made: "cut at every place", ..case }
}

pub fn case(seed: u64, index: u64) -> Case {
    let mut r = Random::new(seed, 1, index);
    match index % 16 {
        0..=7 => whole(&mut r),
        8..=13 => damaged(&mut r),
        14 => random(&mut r),
        _ => prefix(seed, index / 16),
    }
}
