//! Borders to write, with pieces of earlier data proposed for them, rightly and wrongly.
use crate::encode::{point, Style};
use crate::random::Random;
use crate::record::{Piece, Writing};

/// Where a number stands in the earlier data, how long it is, and the move it means.
type Move = (usize, usize, i64, i64);

fn step(r: &mut Random) -> (i64, i64) {
    let reach = r.pick(&[1, 3, 3, 200, 200, 100_000, 1 << 24]);
    loop {
        let by = (r.between(-reach, reach), r.between(-reach, reach));
        if by != (0, 0) {
            return by;
        }
    }
}

fn earlier(r: &mut Random) -> (Vec<u8>, Vec<Move>) {
    let style = if r.one_in(3) { Style { overlong: 6, wild: 0, eleven: 40 } } else { Style { overlong: 0, wild: 0, eleven: 0 } };
    let before = r.below(3);
    let (mut bytes, mut moves) = (r.bytes(before), Vec::new());
    for _ in 0..r.below(12) {
        let (lat, lon) = step(r);
        let number = style.number(r, point(lat, lon));
        moves.push((bytes.len(), number.len(), lat, lon));
        bytes.extend(number);
        if r.one_in(10) {
            bytes.extend([0, 0]);
        }
    }
    (bytes, moves)
}

fn propose(r: &mut Random, moves: &[Move], steps: &mut Vec<(i64, i64)>) -> Piece {
    let first = r.below(moves.len());
    let part = &moves[first..first + 1 + r.below(moves.len() - first)];
    let backward = r.one_in(2);
    let mut by: Vec<(i64, i64)> = part.iter().map(|m| (m.2, m.3)).collect();
    if backward {
        by = by.iter().rev().map(|m| (-m.0, -m.1)).collect();
    }
    let last = part.last().unwrap();
    let mut piece = Piece {
        start: part[0].0 as u32,
        bytes: (last.0 + last.1 - part[0].0) as u32,
        direction: if backward { r.pick(&[1, 1, 1, u32::MAX, 2]) } else { 0 },
        first: steps.len() as u32,
        count: by.len() as u32,
    };
    steps.extend(by);
    if r.one_in(14) {
        let by = if r.one_in(4) { r.next() as u32 } else { r.between(-2, 2) as u32 };
        match r.below(5) {
            0 => piece.start = piece.start.wrapping_add(by),
            1 => piece.bytes = piece.bytes.wrapping_add(by),
            2 => piece.first = piece.first.wrapping_add(by),
            3 => piece.count = piece.count.wrapping_add(by),
            _ => piece.direction = (piece.direction == 0) as u32,
        }
    }
    piece
}

fn coordinate(r: &mut Random) -> i64 {
    match r.below(8) {
        0 => r.pick(&[1_073_741_823, -1_073_741_823, 1_073_741_824, -1_073_741_824, i32::MAX as i64, i32::MIN as i64]),
        1 => r.between(-1_073_741_823, 1_073_741_823),
        _ => r.between(-40, 40),
    }
}

pub fn case(seed: u64, index: u64) -> Writing {
    let r = &mut Random::new(seed, 4, index);
    let version = if r.one_in(40) { r.next() as u8 } else { r.below(4).min(1) as u8 };
    let (earlier, known) = earlier(r);
    let (mut steps, mut pieces) = (Vec::new(), Vec::new());
    if !r.one_in(6) {
        steps.push((coordinate(r), coordinate(r)));
    }
    let many = if r.one_in(20) { 40 } else { r.below(10) };
    for _ in 0..many {
        if !known.is_empty() && pieces.len() < 32 && r.one_in(3) && (version != 0 || r.one_in(20)) {
            pieces.push(propose(r, &known, &mut steps));
        } else {
            steps.push(if r.one_in(60) { (0, 0) } else { step(r) });
        }
    }
    if r.one_in(60) && !pieces.is_empty() {
        pieces = pieces.iter().cycle().take(r.pick(&[15, 16, 17, 20])).copied().collect();
    }
    if r.one_in(60) && !steps.is_empty() {
        steps[0] = (0, 0);
    }
    let (mut lats, mut lons, mut at) = (Vec::new(), Vec::new(), (0i64, 0i64));
    for by in steps {
        at = (at.0 + by.0, at.1 + by.1);
        lats.push(at.0 as i32);
        lons.push(at.1 as i32);
    }
    if r.one_in(60) {
        lons.pop();
    }
    Writing { version, lats, lons, pieces, earlier, room: 0 }
}

/// A piece, a point or some earlier bytes left out.
pub fn smaller(w: &Writing) -> Vec<Writing> {
    let mut out = Vec::new();
    for i in 0..w.pieces.len() {
        let mut next = w.clone();
        next.pieces.remove(i);
        out.push(next);
    }
    for i in 0..w.lats.len().min(w.lons.len()) {
        let mut next = w.clone();
        next.lats.remove(i);
        next.lons.remove(i);
        out.push(next);
    }
    for (from, to) in crate::shrink::parts(w.earlier.len()) {
        let mut next = w.clone();
        next.earlier.drain(from..to);
        for piece in &mut next.pieces {
            if piece.start as usize >= to {
                piece.start -= (to - from) as u32;
            }
        }
        out.push(next);
    }
    if w.room > 0 {
        out.push(Writing { room: w.room / 2, ..w.clone() });
    }
    out
}
