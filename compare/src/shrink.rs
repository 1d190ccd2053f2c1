//! The smallest input that still disagrees.

/// Parts to leave out of so many bytes: halves, quarters, .. single bytes.
pub fn parts(size: usize) -> Vec<(usize, usize)> {
    let (mut out, mut step) = (Vec::new(), size.div_ceil(2));
    while step > 0 && out.len() < 1500 {
        out.extend((0..size).step_by(step).map(|at| (at, (at + step).min(size))));
        step = if step == 1 { 0 } else { step / 2 };
    }
    out
}

/// Takes the first smaller case that is still wrong, until there is none.
pub fn smallest<C: Clone>(mut case: C, smaller: impl Fn(&C) -> Vec<C>, wrong: impl Fn(&[C]) -> Option<usize>) -> C {
    for _ in 0..200 {
        let next = smaller(&case);
        match wrong(&next) {
            Some(which) => case = next[which].clone(),
            None => break,
        }
    }
    case
}
