//! Borders about a location, written in either version into a data section.
use crate::encode::{point, signed, Style};
use crate::random::Random;

/// A number written into the data section: where it stands, and the move it means.
#[derive(Clone, Copy)]
pub struct Move {
    pub start: usize,
    pub end: usize,
    pub lat: i64,
    pub lon: i64,
}

pub struct Data {
    pub version: u8,
    pub bytes: Vec<u8>,
    /// Moves that stand side by side, for references.
    pub runs: Vec<Vec<Move>>,
}

type Point = (i64, i64);

fn reach(r: &mut Random) -> i64 {
    match r.below(8) {
        0 => 2,
        1 | 2 => 20,
        3 | 4 => 2000,
        5 => 1 << 20,
        6 => 1 << 26,
        _ => 1 << r.between(27, 30),
    }
}

fn near(r: &mut Random, at: Point, reach: i64) -> Point {
    (at.0 + r.between(-reach, reach), at.1 + r.between(-reach, reach))
}

fn rectangle(r: &mut Random, at: Point) -> Vec<Point> {
    let size = reach(r);
    let (up, down, right, left) = (r.between(0, size), r.between(0, size), r.between(0, size), r.between(0, size));
    vec![(at.0 - down, at.1 - left), (at.0 + up, at.1 - left), (at.0 + up, at.1 + right), (at.0 - down, at.1 + right)]
}

/// Points about the middle in the order of their angles.
fn star(r: &mut Random, at: Point) -> Vec<Point> {
    let count = if r.one_in(200) { 20 + r.below(300) } else { 3 + r.below(10) };
    let size = reach(r) as f64;
    (0..count).map(|i| {
        let angle = (i as f64 + r.below(100) as f64 / 110.0) / count as f64 * std::f64::consts::TAU;
        let far = size * (0.1 + r.below(1000) as f64 / 1000.0);
        (at.0 + (far * angle.sin()) as i64, at.1 + (far * angle.cos()) as i64)
    }).collect()
}

fn walk(r: &mut Random, at: Point) -> Vec<Point> {
    let size = reach(r);
    (0..1 + r.below(12)).map(|_| near(r, at, size)).collect()
}

/// A slope through the middle, or beside it by one or two.
fn slope(r: &mut Random, at: Point) -> Vec<Point> {
    let size = reach(r);
    let (lat, lon) = (r.between(-size, size), r.between(-size, size));
    let (shift, scale) = (r.between(-2, 2), r.between(1, 3));
    let mut points = vec![(at.0 - lat, at.1 - lon + shift), (at.0 + lat * scale, at.1 + lon * scale + shift)];
    points.push(near(r, at, size));
    points
}

/// Coordinates that differ little, far out, where f32 has no room for the difference.
fn far(r: &mut Random, at: Point) -> Vec<Point> {
    let base = (r.pick(&[1i64 << 30, -(1 << 30), 1 << 26, (1 << 31) - 40, 40 - (1 << 31), at.0]),
        r.pick(&[1i64 << 30, -(1 << 30), 1 << 26, (1 << 31) - 40, 40 - (1 << 31), at.1]));
    (0..2 + r.below(6)).map(|_| near(r, base, 30)).collect()
}

fn anywhere(r: &mut Random) -> Vec<Point> {
    (0..1 + r.below(6)).map(|_| (r.next() as i32 as i64, r.next() as i32 as i64)).collect()
}

fn straight(r: &mut Random, at: Point) -> Vec<Point> {
    let size = reach(r);
    let (a, b) = (r.between(0, size), r.between(0, size));
    let mut points = if r.one_in(2) { vec![(at.0, at.1 - a), (at.0, at.1 + b)] } else { vec![(at.0 - a, at.1), (at.0 + b, at.1)] };
    points.push(near(r, at, size));
    points
}

pub fn points(r: &mut Random, fix: (i32, i32)) -> Vec<Point> {
    let middle = (fix.0 as i64, fix.1 as i64);
    let size = reach(r);
    let at = if r.one_in(4) { near(r, middle, size) } else { middle };
    let mut points = match r.below(16) {
        0..=3 => rectangle(r, at),
        4..=7 => star(r, at),
        8 | 9 => walk(r, at),
        10 | 11 => slope(r, at),
        12 => straight(r, at),
        13 => far(r, at),
        14 => anywhere(r),
        _ => {
            let mut points = star(r, at);
            let k = r.below(points.len());
            points.insert(k, middle);
            points
        }
    };
    if r.one_in(2) {
        points.reverse();
    }
    let held = r.one_in(2);
    let part = |x: i64| if held { x.clamp(i32::MIN as i64, i32::MAX as i64) } else { x as i32 as i64 };
    points.iter().map(|p| (part(p.0), part(p.1))).collect()
}

fn plain(r: &mut Random, style: Style, data: &mut Data, points: &[Point]) {
    let mut moves = Vec::new();
    let mut at = (0, 0);
    for p in points {
        while r.one_in(12) {
            moves.push((0, 0));
        }
        moves.push((p.0 - at.0, p.1 - at.1));
        at = *p;
    }
    let count = match r.below(80) {
        0 => 0,
        1 => moves.len() as u64 + 1,
        2 => moves.len() as u64 - 1,
        3 => r.wild(),
        _ => moves.len() as u64,
    };
    data.bytes.extend(style.number(r, count));
    for m in moves {
        for part in [m.0, m.1] {
            let odd = (part == 0 && r.one_in(20)) as u64;
            data.bytes.extend(style.number(r, signed(part) | odd));
        }
    }
    let tails: [&[u8]; 7] = [&[0, 2], &[3, 0], &[0, 0], &[1, 0], &[0x80, 0x80, 0, 1], &[2], &[]];
    let tail = if r.one_in(8) { r.pick(&tails) } else { &[2, 2] };
    data.bytes.extend(tail);
}

/// A reference to a part of an earlier run, or to anywhere. How far it goes.
fn reference(r: &mut Random, style: Style, data: &mut Data) -> Point {
    let (mut from, mut length, mut by) = (r.wild(), r.between(-40, 40), (0, 0));
    if r.one_in(3) {
        from = r.below(data.bytes.len() + 3) as u64;
    }
    if !data.runs.is_empty() && !r.one_in(10) {
        let which = r.below(data.runs.len());
        let run = &data.runs[which];
        let first = r.below(run.len());
        let part = &run[first..first + 1 + r.below(run.len() - first)];
        (from, length) = (part[0].start as u64, (part.last().unwrap().end - part[0].start) as i64);
        by = part.iter().fold((0, 0), |sum, m| (sum.0 + m.lat, sum.1 + m.lon));
        if r.one_in(2) {
            (from, length, by) = (from + length as u64, -length, (-by.0, -by.1));
        }
        if r.one_in(20) {
            length += r.between(-2, 2);
        }
    }
    if r.one_in(40) {
        from = r.pick(&[(1 << 63) - 1, 1 << 63, u64::MAX, 1 << 32]);
    }
    if r.one_in(40) {
        length = r.pick(&[0, 1 << 32, i32::MAX as i64, i32::MIN as i64, 1, -1]);
    }
    data.bytes.extend([0, 1]);
    data.bytes.extend(style.number(r, from));
    data.bytes.extend(style.number(r, signed(length)));
    by
}

fn packed(r: &mut Random, style: Style, data: &mut Data, points: &[Point], references: bool) {
    let (mut at, mut run) = ((0, 0), Vec::new());
    for p in points {
        if r.one_in(15) {
            data.bytes.push(0);
            let other = 2 + r.wild() / 3;
            data.bytes.extend(style.number(r, other));
            data.runs.extend((!run.is_empty()).then(|| std::mem::take(&mut run)));
        }
        if references && r.one_in(4) {
            let by = reference(r, style, data);
            at = (at.0 + by.0, at.1 + by.1);
            data.runs.extend((!run.is_empty()).then(|| std::mem::take(&mut run)));
        }
        let (lat, lon) = (p.0 - at.0, p.1 - at.1);
        let start = data.bytes.len();
        let mut value = point(lat, lon);
        if value == 0 {
            // no move: one of the codes that mean it, or the marker that repeats the point
            value = r.pick(&[1, 2, 3, 0]);
        }
        data.bytes.extend(style.number(r, value));
        if value == 0 {
            data.bytes.push(2);
        }
        run.push(Move { start, end: data.bytes.len(), lat, lon });
        at = *p;
    }
    data.runs.extend((!run.is_empty()).then_some(run));
    let tails: [&[u8]; 5] = [&[0x80, 0, 0x80, 0], &[0, 0x80, 0], &[0, 2, 0, 0], &[0], &[]];
    let tail = if r.one_in(12) { r.pick(&tails) } else { &[0, 0] };
    data.bytes.extend(tail);
}

/// Where the border begins in the data section, and its points.
pub fn border(r: &mut Random, style: Style, data: &mut Data, fix: (i32, i32)) -> (usize, Vec<Point>) {
    let start = data.bytes.len();
    let points = points(r, fix);
    if data.version == 0 {
        plain(r, style, data, &points);
    } else {
        let references = r.one_in(2);
        packed(r, style, data, &points, references);
    }
    (start, points)
}
