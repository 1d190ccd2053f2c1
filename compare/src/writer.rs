//! The border writer. The Rust has none: what it must write is worked out here from document 01, and read back with the Rust's reader.
use crate::encode::{point, signed, varint};
use crate::record::{Piece, Writing};
use crate::rust::{caught, refused, Refusal};
use zone_detect_hooked::hooks;

const LIMIT: i64 = 1_073_741_823;

fn moves(points: &[(i64, i64)]) -> Vec<(i64, i64)> {
    let before = std::iter::once(&(0, 0)).chain(points);
    points.iter().zip(before).map(|(p, q)| (p.0 - q.0, p.1 - q.1)).collect()
}

/// The moves of a run of so many bytes; none where it does not split into whole numbers of at most ten bytes, none 0.
fn run_moves(run: &[u8]) -> Option<Vec<(i64, i64)>> {
    let mut out = Vec::new();
    for number in run.split_inclusive(|byte| byte & 0x80 == 0) {
        if number.len() > 10 || number.last().unwrap() & 0x80 != 0 {
            return None;
        }
        let raw = hooks::raw(number.to_vec(), 1, 0, 0);
        let (value, _) = hooks::forward(&raw, 0).unwrap();
        if value == 0 {
            return None;
        }
        let (lat, lon) = hooks::point(value);
        out.push((lat as i64, lon as i64));
    }
    Some(out)
}

fn is_good(piece: &Piece, least: u64, moves: &[(i64, i64)], earlier: &[u8]) -> bool {
    let (first, after) = (piece.first as u64, piece.first as u64 + piece.count as u64);
    let (start, end) = (piece.start as u64, piece.start as u64 + piece.bytes as u64);
    if first < least || piece.count == 0 || after > moves.len() as u64 || end > earlier.len() as u64 {
        return false;
    }
    let Some(mut run) = run_moves(&earlier[start as usize..end as usize]) else {
        return false;
    };
    if piece.direction != 0 {
        if start == 0 || earlier[start as usize - 1] & 0x80 != 0 {
            return false;
        }
        run = run.iter().rev().map(|m| (-m.0, -m.1)).collect();
    }
    run == moves[first as usize..after as usize]
}

fn bad_piece(writing: &Writing, moves: &[(i64, i64)]) -> Option<u64> {
    if writing.version == 0 {
        return if writing.pieces.is_empty() { None } else { Some(0) };
    }
    if writing.pieces.len() > 16 {
        return Some(16);
    }
    let mut least = 0;
    for (i, piece) in writing.pieces.iter().enumerate() {
        if !is_good(piece, least, moves, &writing.earlier) {
            return Some(i as u64);
        }
        least = piece.first as u64 + piece.count as u64;
    }
    None
}

fn plain(moves: &[(i64, i64)]) -> Vec<u8> {
    let mut out = varint(moves.len() as u64);
    for m in moves {
        out.extend(varint(signed(m.0)));
        out.extend(varint(signed(m.1)));
    }
    out.extend([2, 2]);
    out
}

fn packed(moves: &[(i64, i64)], pieces: &[Piece]) -> Vec<u8> {
    let mut out = Vec::new();
    let mut i = 0;
    while i < moves.len() {
        if let Some(piece) = pieces.iter().find(|p| p.first as usize == i) {
            let (from, length) = match piece.direction {
                0 => (piece.start, piece.bytes as i64),
                _ => (piece.start + piece.bytes, -(piece.bytes as i64)),
            };
            out.extend([0, 1]);
            out.extend(varint(from as u64));
            out.extend(varint(signed(length)));
            i += piece.count as usize;
        } else {
            out.extend(varint(point(moves[i].0, moves[i].1)));
            i += 1;
        }
    }
    out.extend([0, 0]);
    out
}

/// The Rust reads the written border as its points and the first point again.
fn check(writing: &Writing, out: &[u8], points: &[(i64, i64)]) {
    let file = [&writing.earlier[..], out].concat();
    let raw = hooks::raw(file, writing.version, 0, 0);
    let read = caught(|| hooks::points(&raw, writing.earlier.len() as u32, 1 << 20));
    let mut told: Vec<(i32, i32)> = points.iter().map(|p| (p.0 as i32, p.1 as i32)).collect();
    told.push(told[0]);
    assert!(read == Ok((told, true)), "the Rust does not read the border back");
}

pub fn written(writing: &Writing) -> Result<Vec<u8>, Refusal> {
    if writing.version >= 2 {
        return Err(refused(5, 0, writing.version as u64));
    }
    let (lats, lons) = (&writing.lats, &writing.lons);
    if lats.is_empty() || lats.len() > 65535 || lats.len() != lons.len() {
        return Err(refused(19, 0, 0));
    }
    let points: Vec<(i64, i64)> = lats.iter().zip(lons).map(|(&a, &o)| (a as i64, o as i64)).collect();
    if points.iter().any(|p| p.0.abs() > LIMIT || p.1.abs() > LIMIT) {
        return Err(refused(20, 0, 0));
    }
    if points.windows(2).any(|w| w[0] == w[1]) {
        return Err(refused(21, 0, 0));
    }
    if points[0] == (0, 0) {
        return Err(refused(22, 0, 0));
    }
    let moves = moves(&points);
    if let Some(index) = bad_piece(writing, &moves) {
        return Err(refused(23, 0, index));
    }
    let out = if writing.version == 0 { plain(&moves) } else { packed(&moves, &writing.pieces) };
    check(writing, &out, &points);
    if out.len() > writing.room {
        return Err(refused(24, 0, 0));
    }
    Ok(out)
}
