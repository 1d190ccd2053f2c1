//! The lists that a builder works in, each between guards.

use super::fence::{Edge, Fence, Plain};
use uskelzar::raw::{Lengths, Work};

/// What a call has made of the lists that it was lent to work in.
#[derive(Clone, Copy, Debug, Eq, PartialEq)]
pub enum Left {
    Zero,
    Untouched,
    /// Some of it.
    Mixed,
}

/// Of starts, keys, spare, kept, held, words and places.
pub struct FencedDesk([Fence; 7]);

pub fn is_zero<T: Plain + PartialEq + Default>(list: &[T]) -> bool {
    list.iter().all(|item| *item == T::default())
}

impl Left {
    fn of(zero: bool, untouched: bool) -> Left {
        match (zero, untouched) {
            (true, _) => Left::Zero,
            (_, true) => Left::Untouched,
            _ => Left::Mixed,
        }
    }
}

/// The length of each, to be changed.
pub const EACH_LENGTH: [fn(&mut Lengths) -> &mut usize; 7] = [
    |lengths| &mut lengths.starts,
    |lengths| &mut lengths.keys,
    |lengths| &mut lengths.spare,
    |lengths| &mut lengths.kept,
    |lengths| &mut lengths.held,
    |lengths| &mut lengths.words,
    |lengths| &mut lengths.places,
];

impl FencedDesk {
    pub fn new() -> FencedDesk {
        FencedDesk([(); 7].map(|()| Fence::new(1024)))
    }

    /// What a call answers, and how it has left these lists. Nothing was written beside them.
    pub fn work<A>(&mut self, lengths: Lengths, edge: Edge, call: impl FnOnce(Work) -> A) -> (A, Left) {
        let [a, b, c, d, e, f, g] = &mut self.0;
        let starts: &mut [u32] = a.lend(lengths.starts, edge);
        let keys: &mut [u64] = b.lend(lengths.keys, edge);
        let spare: &mut [u64] = c.lend(lengths.spare, edge);
        let kept: &mut [u32] = d.lend(lengths.kept, edge);
        let held: &mut [u8] = e.lend(lengths.held, edge);
        let words: &mut [u32] = f.lend(lengths.words, edge);
        let places: &mut [u32] = g.lend(lengths.places, edge);
        let answer = call(Work { starts, keys, spare, kept, held, words, places });
        let zero = [is_zero(starts), is_zero(keys), is_zero(spare), is_zero(kept), is_zero(held), is_zero(words), is_zero(places)];
        let sizes = [
            4 * lengths.starts,
            8 * lengths.keys,
            8 * lengths.spare,
            4 * lengths.kept,
            lengths.held,
            4 * lengths.words,
            4 * lengths.places,
        ];
        let mut untouched = true;
        for (fence, size) in self.0.iter_mut().zip(sizes) {
            fence.assert_kept(size, edge);
            untouched &= fence.is_filled(size, edge);
        }
        (answer, Left::of(zero == [true; 7], untouched))
    }
}
