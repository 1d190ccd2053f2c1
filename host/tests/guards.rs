//! That the guards of the other tests are there. Alone in its program, for it forks; under the emulator each child that dies of a
//! guard leaves a line that says so.

mod common;

use common::fence::{dies_reading, Edge, Fence};

#[test]
fn the_guards_are_there() {
    let mut fence = Fence::new(1);
    let inside: *const u8 = fence.lend::<u8>(1, Edge::Back).as_ptr();
    assert!(!dies_reading(inside));
    for guard in fence.guards() {
        assert!(dies_reading(guard));
    }
}
