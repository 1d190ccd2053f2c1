//! Strict forms against plain ones, on files whose last bytes are damaged, at a page that may not be touched.

use crate::common::fence::{Fence, EDGES};
use crate::common::{Buffers, Fix, Outcome};
use crate::made::Made;
use crate::random::Random;
use crate::tally::Tally;
use uskelzar::raw::HIT_WORDS;
use uskelzar::Number;

pub struct Strict {
    file: Fence,
    lent: Buffers,
}

fn is_cut(outcome: &Outcome) -> bool {
    outcome.number() == Number::Incomplete as u8
}

/// Refused 31, which cannot be where the last byte is below 128, or the plain one.
fn agrees(file: &[u8], strict: &Outcome, plain: &Outcome) -> bool {
    if is_cut(strict) {
        let zero = strict.hits.iter().all(|word| *word == 0) && strict.text.iter().all(|byte| *byte == 0);
        return zero && file.last().is_some_and(|last| 128 <= *last);
    }
    strict == plain
}

/// As it is, cut anywhere, or with its last byte or some other one changed.
fn damage(random: &mut Random, made: &mut Made) -> bool {
    let last = made.bytes.len() - 1;
    match random.below(4) {
        0 => made.bytes.truncate(random.below(last + 2)),
        1 => made.bytes[random.below(last + 1)] ^= 1 << random.below(8),
        2 => {}
        _ => {
            made.bytes[last] |= 128;
            return true;
        }
    }
    false
}

impl Strict {
    pub fn new() -> Strict {
        Strict { file: Fence::new(4096), lent: Buffers::new() }
    }

    pub fn compare(&mut self, random: &mut Random, tally: &mut Tally) {
        let mut made = Made::new(random);
        let fixes = [(); 4].map(|()| made.fix(random));
        let only_last = damage(random, &mut made);
        let (edge, slots, bytes) = (random.pick(&EDGES), random.pick(&[0, HIT_WORDS, 12 * HIT_WORDS]), random.pick(&[0, 1, 64]));
        let Strict { file, lent } = self;
        let file = &*file.hold(&made.bytes, edge);
        let (strict, plain) = (lent.open_strict(file, bytes, edge), lent.open(file, bytes, edge));
        tally.met("strict opening", strict.number());
        tally.same(agrees(file, &strict, &plain), || format!("strict opening: {file:02X?}: {strict:?}, plain {plain:?}"));
        for fix in fixes {
            let (strict, plain) = (lent.lookup_strict(file, fix, slots, bytes, edge), lent.lookup(file, fix, slots, bytes, edge));
            let Fix { lat, lon, asked } = fix;
            tally.met("strict lookup", strict.number());
            tally.same(agrees(file, &strict, &plain), || format!("strict lookup: {lat} {lon} {asked} {slots} {file:02X?}: {strict:?}, plain {plain:?}"));
            // every way to the end leads through the cut number: where it was not met, no byte behind it is
            let byte = random.next() as u8;
            let Some(longer) = (only_last && !is_cut(&strict)).then(|| made.longer(byte)).flatten() else { continue };
            tally.met("a byte behind a number that is not met", plain.number());
            let behind = lent.lookup(&longer, fix, slots, bytes, edge);
            tally.same(behind == plain, || format!("a byte behind a number that is not met: {lat} {lon} {asked} {slots} {longer:02X?}: {behind:?}, without it {plain:?}"));
        }
    }
}
