//! The leaves: a case of each kind, with what the Rust answers.
use crate::encode::{padded, varint, Style};
use crate::random::Random;
use crate::record::{Call, Reply, STRING, UTF8};
use crate::rust::{caught, Refusal};
use zone_detect_hooked::hooks;

pub const KINDS: [&str; 11] =
    ["varint", "backward", "signed", "point", "i32_to_f32", "u64_to_f32", "f32_to_i32", "f32_to_i64", "sqrt", "fixed", "safezone"];

pub fn hex(bytes: &[u8]) -> String {
    if bytes.is_empty() {
        return "-".into();
    }
    bytes.iter().map(|b| format!("{b:02X}")).collect()
}

/// Numbers of the format, whole and overlong, cut at either end, at most 32 bytes.
fn number_bytes(r: &mut Random) -> Vec<u8> {
    let style = Style { overlong: 3, wild: 0, eleven: 12 };
    let mut out = Vec::new();
    for _ in 0..r.below(7) {
        let value = if r.one_in(2) { r.wild() } else { r.wild() % 20_000 };
        out.extend(style.number(r, value));
    }
    if r.one_in(4) {
        let many = r.below(14);
        out.extend(vec![r.pick(&[0x80, 0xFF]); many]);
        out.extend(vec![r.pick(&[0, 1, 2, 3, 0x7F]); r.below(2)]);
    }
    if r.one_in(4) {
        let more = r.below(6);
        out.extend(r.bytes(more));
    }
    let drop = if r.one_in(3) { r.below(out.len() + 1) } else { 0 };
    out.drain(..drop);
    out.truncate(32);
    out
}

fn place(r: &mut Random, size: usize) -> u32 {
    match r.below(20) {
        0 => r.next() as u32,
        1 => u32::MAX,
        _ => r.below(size + 2) as u32,
    }
}

/// Mostly where a number can be read backward.
fn place_backward(r: &mut Random, file: &[u8]) -> u32 {
    let ends: Vec<u32> = (1..file.len()).filter(|&i| file[i] & 0x80 == 0).map(|i| i as u32).collect();
    if ends.is_empty() || r.one_in(5) { place(r, file.len()) } else { r.pick(&ends) }
}

fn float(r: &mut Random) -> f32 {
    match r.below(7) {
        6 => f32::from_bits(r.next() as u32 >> r.below(31) & 0x807F_FFFF),
        0 => r.pick(&[0.0, -0.0, 1.0, -1.0, f32::NAN, -f32::NAN, f32::INFINITY, f32::NEG_INFINITY, f32::MAX, f32::MIN, f32::MIN_POSITIVE]),
        1 => f32::from_bits((r.next() as u32 & 0x807F_FFFF) | (r.between(120, 200) as u32) << 23),
        2 => r.wild() as i64 as f32,
        3 => f32::from_bits(((1u64 << r.below(64)) as f32).to_bits().wrapping_add(r.between(-2, 2) as u32) | (r.next() as u32 & 1) << 31),
        _ => f32::from_bits(r.next() as u32),
    }
}

fn answered(answer: &Result<Option<(u64, u32)>, Refusal>) -> String {
    match answer {
        Ok(Some((value, next))) => format!("{value} {next}"),
        Ok(None) => "fails".into(),
        Err(why) => format!("refused {} 0", why.number),
    }
}

fn outcome(answer: &Result<Option<(u64, u32)>, Refusal>) -> &'static str {
    match answer {
        Ok(Some(_)) => "number",
        Ok(None) => "fails",
        Err(_) => "refused 12",
    }
}

/// A document's rule, not the Rust's: one bit pattern for every root that is no number (docs/DIFFERENCES.md).
fn root_bits(x: f32) -> u32 {
    // Tests of the bits: a test of the float may be compiled into the root alone, whose NaN has the machine's sign.
    let bits = x.to_bits();
    let is_nan = bits & 0x7FFF_FFFF > 0x7F80_0000;
    let is_below = bits > 0x8000_0000;
    if is_nan || is_below { 0x7FC0_0000 } else { x.sqrt().to_bits() }
}

fn sort_of(x: f32) -> &'static str {
    if x.is_nan() { "NaN" } else if x.is_infinite() { "infinity" } else if x.is_subnormal() { "subnormal" } else { "number" }
}

/// What a line asks: a number (a place, a value, or the bits of a float), bytes, and for a coordinate its scale.
#[derive(Clone)]
pub struct Leaf {
    kind: &'static str,
    x: u64,
    file: Vec<u8>,
    scale: f32,
    precision: u32,
}

pub fn case(kind: &'static str, r: &mut Random) -> Leaf {
    let mut leaf = Leaf { kind, x: 0, file: Vec::new(), scale: r.pick(&[90.0, 180.0]), precision: r.between(1, 32) as u32 };
    match kind {
        "varint" => {
            leaf.file = number_bytes(r);
            leaf.x = place(r, leaf.file.len()) as u64;
        }
        "backward" => {
            leaf.file = number_bytes(r);
            leaf.x = place_backward(r, &leaf.file) as u64;
        }
        "f32_to_i32" | "f32_to_i64" => leaf.x = float(r).to_bits() as u64,
        "sqrt" => leaf.x = (float(r).to_bits() & if r.one_in(8) { u32::MAX } else { 0x7FFF_FFFF }) as u64,
        "fixed" if r.one_in(2) => leaf.x = ((r.below(1 << 24) as f32 / (1 << 23) as f32 - 1.0) * leaf.scale).to_bits() as u64,
        "fixed" => leaf.x = float(r).to_bits() as u64,
        "i32_to_f32" => leaf.x = (if r.one_in(2) { r.next() } else { r.wild() }) as u32 as u64,
        "u64_to_f32" if r.one_in(2) => leaf.x = r.next(),
        _ => leaf.x = r.wild(),
    }
    leaf
}

/// The line, and what it counts as.
pub fn told(leaf: &Leaf) -> (String, &'static str) {
    let (kind, x, float, integer) = (leaf.kind, leaf.x, f32::from_bits(leaf.x as u32), leaf.x as i32);
    match kind {
        "varint" | "backward" => {
            let raw = hooks::raw(leaf.file.clone(), 1, 0, 0);
            let answer = caught(|| if kind == "varint" { hooks::forward(&raw, x as u32) } else { hooks::backward(&raw, x as u32) });
            (format!("{kind} {x} {} > {}", hex(&leaf.file), answered(&answer)), outcome(&answer))
        }
        "signed" => (format!("{kind} {x} - > {}", hooks::signed(x)), if x & 1 == 1 { "odd" } else { "even" }),
        "point" => {
            let (lat, lon) = hooks::point(x);
            (format!("{kind} {x} - > {lat} {lon}"), "point")
        }
        "i32_to_f32" => {
            let near = integer as f32;
            (format!("{kind} {integer} - > {:08X}", near.to_bits()), if near as i64 == integer as i64 { "exact" } else { "rounded" })
        }
        "u64_to_f32" => (format!("{kind} {x} - > {:08X}", (x as f32).to_bits()), if x as f32 as u128 == x as u128 { "exact" } else { "rounded" }),
        "f32_to_i32" => (format!("{kind} {x:08X} - > {}", float as i32), sort_of(float)),
        "f32_to_i64" => (format!("{kind} {x:08X} - > {}", float as i64), sort_of(float)),
        "sqrt" => (format!("{kind} {x:08X} - > {:08X}", root_bits(float)), if float < 0.0 { "below 0" } else { sort_of(float) }),
        "fixed" => {
            let fixed = hooks::fixed(float, leaf.scale, leaf.precision);
            (format!("{kind} {x:08X} {:08X} {} > {fixed}", leaf.scale.to_bits(), leaf.precision), sort_of(float))
        }
        _ => {
            let degrees = (x as f32).sqrt() * 90f32 / (1i32 << (leaf.precision - 1)) as f32;
            (format!("{kind} {x} {} - > {:08X}", leaf.precision, degrees.to_bits()), "safezone")
        }
    }
}

/// Fewer bytes, or fewer bits set.
pub fn smaller(leaf: &Leaf) -> Vec<Leaf> {
    let mut out = Vec::new();
    for (from, to) in crate::shrink::parts(leaf.file.len()) {
        let mut file = leaf.file.clone();
        file.drain(from..to);
        let x = if leaf.x >= to as u64 { leaf.x - (to - from) as u64 } else { leaf.x };
        out.push(Leaf { file, x, ..leaf.clone() });
    }
    if leaf.file.is_empty() {
        let set = (0..64).filter(|i| leaf.x >> i & 1 == 1);
        out.extend(set.map(|i| Leaf { x: leaf.x & !(1 << i), ..leaf.clone() }));
    }
    out
}

// ---- strings and UTF-8, by replay

/// Strings one behind the other, some kept elsewhere; where they begin, and what the metadata offset is.
fn strings(r: &mut Random) -> (Vec<u8>, Vec<usize>, u32) {
    let metadata = if r.one_in(2) { 0 } else { place(r, 20) };
    let (mut out, mut starts) = (Vec::new(), Vec::new());
    for _ in 0..1 + r.below(4) {
        starts.push(out.len());
        if r.one_in(3) {
            let target = if r.one_in(4) { r.below(out.len() + 20) } else { r.pick(&starts) };
            let value = (target as u32).wrapping_sub(metadata).wrapping_add(256) as u64;
            let value = if value < 256 { value + (1 << 32) } else { value };
            out.extend(if r.one_in(4) { padded(value, 1 + r.below(10)) } else { varint(value) });
        } else {
            let size = r.pick(&[0, 1, 2, 5, 20, 255, 256, 256, 257, 258]);
            out.extend(if r.one_in(3) { padded(size as u64, 1 + r.below(10)) } else { varint(size as u64) });
            let less = if r.one_in(6) { r.below(size + 1) } else { 0 };
            out.extend(r.bytes(size - less));
        }
    }
    (out, starts, metadata)
}

pub fn string(r: &mut Random) -> Call {
    let (mut file, starts, mut metadata) = strings(r);
    let mut at = r.pick(&starts) as u32;
    match r.below(8) {
        0 => {
            file = number_bytes(r);
            at = place(r, file.len());
            metadata = place(r, file.len());
        }
        1 => at = place(r, file.len()),
        2 => file.truncate(r.below(file.len() + 1)),
        _ => {}
    }
    Call { op: STRING, lat: at, lon: metadata, ask: false, slots: 0, room: 0, file }
}

/// The room is the string's size, so that all of it is compared.
pub fn reply_string(call: &mut Call) -> Reply {
    let raw = hooks::raw(call.file.clone(), 0, call.lon, 0);
    call.room = 0;
    match caught(|| hooks::string(&raw, call.lat)) {
        Err(refusal) => Reply { outcome: 1, refusal, ..Reply::default() },
        Ok(None) => Reply { outcome: 2, ..Reply::default() },
        Ok(Some((text, next))) => {
            call.room = text.len();
            Reply { words: [text.len() as u32, next, 0, 0, 0], text, ..Reply::default() }
        }
    }
}

fn encoded(r: &mut Random) -> Vec<u8> {
    let edges = [0u32, 0x7F, 0x80, 0x7FF, 0x800, 0xFFF, 0x1000, 0xD7FF, 0xD800, 0xDFFF, 0xE000, 0xFFFF, 0x10000, 0x3FFFF, 0x10FFFF, 0x110000, 0x1FFFFF];
    let code = if r.one_in(2) { r.pick(&edges) } else { r.wild() as u32 % 0x20_0000 };
    let fit = if code < 0x80 { 1 } else if code < 0x800 { 2 } else if code < 0x1_0000 { 3 } else { 4 };
    // now and then longer than it need be
    let size = if r.one_in(10) { (fit + 1).min(4) } else { fit };
    let low = |shift: u32| 0x80 | (code >> shift & 0x3F) as u8;
    match size {
        1 => vec![code as u8],
        2 => vec![0xC0 | (code >> 6) as u8, low(0)],
        3 => vec![0xE0 | (code >> 12) as u8, low(6), low(0)],
        _ => vec![0xF0 | (code >> 18) as u8, low(12), low(6), low(0)],
    }
}

/// The bytes of the call are stored XOR 0x80.
pub fn utf8(r: &mut Random) -> Call {
    let mut out = Vec::new();
    for _ in 0..r.below(6) {
        out.extend(encoded(r));
    }
    match r.below(6) {
        0 if !out.is_empty() => out.truncate(r.below(out.len())),
        1 if !out.is_empty() => {
            let at = r.below(out.len());
            out[at] = r.next() as u8;
        }
        2 => {
            let size = r.below(5);
            out = r.bytes(size).iter().map(|b| if r.one_in(3) { *b } else { 0x80 | b }).collect();
        }
        _ => {}
    }
    Call { op: UTF8, lat: 0, lon: 0, ask: false, slots: 0, room: 0, file: crate::encode::masked(&out) }
}

pub fn reply_utf8(call: &Call) -> Reply {
    let good = std::str::from_utf8(&crate::encode::masked(&call.file)).is_ok();
    Reply { words: [good as u32, 0, 0, 0, 0], ..Reply::default() }
}
