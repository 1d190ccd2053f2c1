//! Pieces to borrow: runs of a border's moves that stand in the data already, forward or backward. Two yards that share a border have the same moves there.

use crate::grid::Point;
use std::collections::HashMap;
use uskelzar::{write_border, Piece, Refusal};

/// From one point to the next. A border has no (0, 0): between moves that do not stand side by side in the data it is a gap.
type Move = (i32, i32);
const GAP: Move = (0, 0);

/// A run is found by this many of its moves. Fewer take no more bytes than what points to them.
const WINDOW: usize = 2;
/// Of one window's places the first is tried, and so many of the latest.
const TRIED: usize = 16;
/// A run of so many moves is long enough to look for no longer one.
const LONG: usize = 32;
/// A border has so many pieces at most.
const MOST_PIECES: usize = 16;

/// The data section of a file as it grows, and where its moves stand.
pub struct Lender {
    version: u8,
    data: Vec<u8>,
    moves: Vec<Move>,
    /// Where each move begins in the data.
    begins: Vec<u32>,
    windows: HashMap<[Move; WINDOW], Places>,
    /// For each place of a window the one before it.
    before: Vec<Option<usize>>,
    saved: Saved,
}

/// Where a window stands in the moves: first, and latest.
struct Places {
    first: usize,
    latest: usize,
}

/// What borrowing came to.
#[derive(Clone, Copy, Debug, Default, Eq, PartialEq)]
pub struct Saved {
    /// Pieces read forward, and backward.
    pub forward: usize,
    pub backward: usize,
    /// Moves that were borrowed, of all.
    pub moves: usize,
    pub of: usize,
    /// Bytes of the data section, and what it would take without pieces.
    pub bytes: usize,
    pub plain: usize,
}

/// A run of the data that a border's moves repeat: its first move as they read it, and how many.
#[derive(Clone, Copy)]
struct Run {
    place: usize,
    backward: bool,
    count: usize,
}

impl Lender {
    /// With nothing but the zero byte that backward runs need.
    pub fn new(version: u8) -> Lender {
        Lender {
            version,
            data: vec![0],
            moves: vec![GAP],
            begins: vec![0],
            windows: HashMap::new(),
            before: vec![None],
            saved: Saved { bytes: 1, plain: 1, ..Saved::default() },
        }
    }

    /// What borrowing came to so far.
    pub fn saved(&self) -> Saved {
        self.saved
    }

    /// The data section so far.
    pub fn data(&self) -> &[u8] {
        &self.data
    }

    /// Adds a border to the data, written by the library, and gives the pieces that it borrows.
    pub fn add(&mut self, points: &[Point]) -> Result<Vec<Piece>, Refusal> {
        let moves = moves_of(points);
        let pieces = if self.version == 0 { vec![] } else { self.pieces(&moves) };
        let border = write_border(self.version, points, &pieces, &self.data)?;
        if self.version == 1 {
            self.index(&moves, &pieces);
        }
        self.saved.count(border.len(), moves.len(), &pieces);
        self.data.extend(border);
        Ok(pieces)
    }

    /// Notes where the moves stand that a border does not borrow.
    fn index(&mut self, moves: &[Move], pieces: &[Piece]) {
        let (mut byte, mut next) = (self.data.len(), 0);
        for piece in pieces {
            let first = piece.first as usize;
            byte = self.index_run(&moves[next..first], byte) + piece_bytes(piece);
            next = first + piece.count as usize;
        }
        self.index_run(&moves[next..], byte);
    }

    /// Moves that stand side by side from a byte on, then a gap; gives the byte behind them.
    fn index_run(&mut self, run: &[Move], mut byte: usize) -> usize {
        for &step in run.iter().chain([&GAP]) {
            let place = self.moves.len();
            self.moves.push(step);
            self.begins.push(byte as u32);
            self.before.push(None);
            if step != GAP {
                byte += move_bytes(step);
            }
            let first = place + 1 - WINDOW;
            let window = window_at(&self.moves, first);
            if !window.contains(&GAP) {
                let places = self.windows.entry(window).or_insert(Places { first, latest: first });
                self.before[first] = Some(places.latest).filter(|latest| *latest != first);
                places.latest = first;
            }
        }
        byte
    }

    /// Of the runs that repeat, those that make the border shortest.
    fn pieces(&self, moves: &[Move]) -> Vec<Piece> {
        let runs = self.longest_runs(moves);
        if runs.iter().all(Option::is_none) {
            return vec![];
        }
        let piece = |(first, run): (usize, &Option<Run>)| run.map(|run| self.piece(first, run));
        let pieces: Vec<Option<Piece>> = runs.iter().enumerate().map(piece).collect();
        cheapest(moves, &pieces)
    }

    fn piece(&self, first: usize, run: Run) -> Piece {
        let (low, high) = if run.backward { (run.place + 1 - run.count, run.place) } else { (run.place, run.place + run.count - 1) };
        let end = self.begins[high] as usize + move_bytes(self.moves[high]);
        let start = self.begins[low];
        Piece { start, bytes: end as u32 - start, backward: run.backward, first: first as u32, count: run.count as u32 }
    }

    /// For each move the longest run known that repeats from there on.
    fn longest_runs(&self, moves: &[Move]) -> Vec<Option<Run>> {
        let mut runs = Vec::with_capacity(moves.len());
        let mut last: Option<Run> = None;
        for first in 0..moves.len() {
            // a run from the move before goes on here, one shorter
            let mut best = last.filter(|run| run.count > WINDOW).map(Run::shortened);
            if first + WINDOW <= moves.len() && best.map_or(0, |run| run.count) < LONG {
                best = self.longest_at(moves, first, best);
            }
            runs.push(best);
            last = best;
        }
        runs
    }

    fn longest_at(&self, moves: &[Move], first: usize, mut best: Option<Run>) -> Option<Run> {
        let ahead = window_at(moves, first);
        let mut back = ahead.map(negated);
        back.reverse();
        for (window, backward) in [(ahead, false), (back, true)] {
            let Some(places) = self.windows.get(&window) else { continue };
            let latest = std::iter::successors(Some(places.latest), |place| self.before[*place]).take(TRIED);
            for place in [places.first].into_iter().chain(latest) {
                let run = self.run(&moves[first..], place, backward);
                if best.map_or(true, |best| run.count > best.count) {
                    best = Some(run);
                }
            }
        }
        best
    }

    /// How far the moves go along the data from a place where their first window stands.
    fn run(&self, moves: &[Move], found: usize, backward: bool) -> Run {
        if backward {
            let place = found + WINDOW - 1;
            let same = moves.iter().zip(self.moves[..=place].iter().rev()).take_while(|(ours, theirs)| **ours == negated(**theirs));
            return Run { place, backward, count: same.count() };
        }
        let same = moves.iter().zip(&self.moves[found..]).take_while(|(ours, theirs)| ours == theirs);
        Run { place: found, backward, count: same.count() }
    }
}

impl Saved {
    /// One border more, of so many bytes and moves.
    fn count(&mut self, bytes: usize, moves: usize, pieces: &[Piece]) {
        self.bytes += bytes;
        self.plain += bytes;
        self.of += moves;
        for piece in pieces {
            self.plain += piece.bytes as usize - piece_bytes(piece);
            self.moves += piece.count as usize;
            *(if piece.backward { &mut self.backward } else { &mut self.forward }) += 1;
        }
    }
}

impl Run {
    /// Without its first move.
    fn shortened(self) -> Run {
        let place = if self.backward { self.place - 1 } else { self.place + 1 };
        Run { place, count: self.count - 1, ..self }
    }
}

fn negated((lat, lon): Move) -> Move {
    (-lat, -lon)
}

fn window_at(moves: &[Move], first: usize) -> [Move; WINDOW] {
    std::array::from_fn(|i| moves[first + i])
}

/// The first move is from (0, 0).
fn moves_of(points: &[Point]) -> Vec<Move> {
    let from = [(0, 0)].into_iter().chain(points.iter().copied());
    from.zip(points).map(|(from, to)| (to.0.wrapping_sub(from.0), to.1.wrapping_sub(from.1))).collect()
}

fn varint_bytes(number: u64) -> usize {
    let bits = 64 - number.leading_zeros() as usize;
    bits.div_ceil(7).max(1)
}

/// A move's number has the bits of both its signed numbers in turn, the latitude's first.
fn move_bytes((lat, lon): Move) -> usize {
    let bits = |value: i32| {
        let number = u64::from(value.unsigned_abs()) * 2 + u64::from(value < 0);
        64 - number.leading_zeros() as usize
    };
    let all = (2 * bits(lat)).saturating_sub(1).max(2 * bits(lon));
    all.div_ceil(7).max(1)
}

/// What stands for a piece: 0, 1, the run's start or end, its signed length.
fn piece_bytes(piece: &Piece) -> usize {
    let (start, bytes) = (u64::from(piece.start), u64::from(piece.bytes));
    let (place, length) = if piece.backward { (start + bytes, 2 * bytes + 1) } else { (start, 2 * bytes) };
    2 + varint_bytes(place) + varint_bytes(length)
}

/// The choice of at most `MOST_PIECES` pieces, one candidate for each first move, that takes the fewest bytes.
fn cheapest(moves: &[Move], pieces: &[Option<Piece>]) -> Vec<Piece> {
    let mut costs = vec![[0usize; MOST_PIECES + 1]; moves.len() + 1];
    for first in (0..moves.len()).rev() {
        for left in 0..=MOST_PIECES {
            let written = move_bytes(moves[first]) + costs[first + 1][left];
            costs[first][left] = borrowed(&costs, &pieces[first], left).map_or(written, |cost| cost.min(written));
        }
    }
    let (mut chosen, mut first) = (vec![], 0);
    while first < moves.len() {
        let left = MOST_PIECES - chosen.len();
        let written = move_bytes(moves[first]) + costs[first + 1][left];
        match (&pieces[first], borrowed(&costs, &pieces[first], left)) {
            (Some(piece), Some(cost)) if cost < written => {
                chosen.push(*piece);
                first += piece.count as usize;
            }
            _ => first += 1,
        }
    }
    chosen
}

/// The bytes from a piece on, with so many pieces left.
fn borrowed(costs: &[[usize; MOST_PIECES + 1]], piece: &Option<Piece>, left: usize) -> Option<usize> {
    let piece = piece.as_ref().filter(|_| left > 0)?;
    Some(piece_bytes(piece) + costs[(piece.first + piece.count) as usize][left - 1])
}

#[cfg(test)]
mod tests {
    use super::*;

    /// A crooked line of so many points from a point on.
    fn line(from: Point, count: i32) -> Vec<Point> {
        let mut here = from;
        let step = |i: i32| {
            here = (here.0 + 40 + i * 7 % 31, here.1 + 90 - i * 13 % 190);
            here
        };
        [from].into_iter().chain((0..count).map(step)).collect()
    }

    #[test]
    fn sizes_are_those_that_the_library_writes() {
        let points: Vec<Point> = (0..30).flat_map(|i| [(1 << i, -(1 << i)), (-(1 << i) + 1, 5), ((1 << i) - 1, 3 << (i / 2))]).collect();
        for pair in points.windows(2).filter(|pair| pair[0] != pair[1]) {
            let border = write_border(1, pair, &[], &[0]).unwrap();
            let moves = moves_of(pair);
            assert_eq!(border.len(), moves.iter().map(|step| move_bytes(*step)).sum::<usize>() + 2, "{pair:?}");
        }
    }

    #[test]
    fn a_shared_line_is_borrowed_backward() {
        let shared = line((1000, 1000), 40);
        let mut left = shared.clone();
        left.extend([(3000, 0), (900, 0)]);
        let mut right: Vec<Point> = shared.iter().rev().copied().collect();
        right.extend([(800, 5000), (4000, 5000)]);
        let mut lender = Lender::new(1);
        assert_eq!(lender.add(&left).unwrap(), []);
        let pieces = lender.add(&right).unwrap();
        assert_eq!(pieces.len(), 1);
        assert_eq!((pieces[0].backward, pieces[0].first, pieces[0].count), (true, 1, 40));
        let saved = lender.saved();
        assert_eq!((saved.forward, saved.backward, saved.moves), (0, 1, 40));
        assert_eq!(saved.bytes, lender.data().len());
        assert!(saved.plain > saved.bytes + 60, "{saved:?}");
        let mut version_0 = Lender::new(0);
        assert_eq!([&left, &right].map(|points| version_0.add(points).unwrap().len()), [0, 0]);
    }

    #[test]
    fn a_shape_that_repeats_is_borrowed_forward() {
        let mut lender = Lender::new(1);
        lender.add(&line((1000, 1000), 40)).unwrap();
        let pieces = lender.add(&line((-700, 90), 40)).unwrap();
        assert_eq!(pieces.len(), 1);
        assert_eq!((pieces[0].backward, pieces[0].first, pieces[0].count), (false, 1, 40));
    }

    #[test]
    fn a_run_does_not_cross_a_borrowed_one() {
        // the third border repeats the second, which borrowed its middle: three runs, or the middle from the first
        let mut lender = Lender::new(1);
        let middle = line((0, 500), 30);
        lender.add(&middle).unwrap();
        let mut second = line((-9000, -3000), 10);
        second.extend(middle.iter().copied());
        second.extend(line((5000, 7000), 10));
        lender.add(&second).unwrap();
        let third: Vec<Point> = second.iter().map(|point| (point.0 + 11, point.1 + 13)).collect();
        let pieces = lender.add(&third).unwrap();
        assert!(pieces.len() >= 2, "{pieces:?}");
        assert!(pieces.iter().map(|piece| piece.count).sum::<u32>() > 45, "{pieces:?}");
    }

    #[test]
    fn sixteen_pieces_are_the_most() {
        let mut lender = Lender::new(1);
        let parts: Vec<Vec<Point>> = (0..40).map(|i| line((i * 50 + 1, i * 3), 5 + i % 7)).collect();
        for part in &parts {
            lender.add(part).unwrap();
        }
        let long: Vec<Point> = parts.iter().enumerate().flat_map(|(i, part)| part.iter().map(move |point| (point.0 + 7 + 31 * i as i32, point.1 - 5000))).collect();
        assert_eq!(lender.add(&long).unwrap().len(), 16);
    }

    #[test]
    fn no_quadratic_search() {
        // two hundred thousand moves, nearly all alike
        let mut lender = Lender::new(1);
        for ring in 0..5 {
            let points: Vec<Point> = (1..40_000).map(|i| (i, 7 * i % 11 + ring)).collect();
            lender.add(&points).unwrap();
        }
        assert!(lender.saved().moves > 150_000, "{:?}", lender.saved());
    }

    #[test]
    fn a_refusal_is_the_librarys() {
        let number = |points: &[Point]| Lender::new(1).add(points).unwrap_err().number as u8;
        assert_eq!(number(&[]), 19);
        assert_eq!(number(&[(0, 1 << 30)]), 20);
        assert_eq!(number(&[(1, 1), (1, 1)]), 21);
        assert_eq!(number(&[(0, 0), (1, 1)]), 22);
    }
}
