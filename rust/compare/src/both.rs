//! The same card on both sides, and what their windows must agree on.

use oracle::Oracle;
use std::fmt::Debug;
use tidmaruls::raw::{Card, Window};

/// The oracle on the same card: image, health, files and window.
pub fn oracle_on(card: &Card) -> Oracle {
    let geometry = card.geometry;
    let mut oracle = Oracle::new(
        geometry.block_size,
        geometry.block_count,
        card.lookahead,
        card.window.start,
    );
    oracle.device.image.copy_from_slice(&card.image);
    oracle.device.health.copy_from_slice(&card.health);
    let entries = card.table.entries().iter();
    oracle.files = entries.map(|entry| (entry.head, entry.size)).collect();
    oracle.set_window(oracle::Window {
        map: card.window.map,
        start: card.window.start,
        next: card.window.next,
        size: card.window.size,
        ckpoint: card.window.ckpoint,
    });
    oracle
}

/// Whether two windows agree: all numbers, and the map from `next` on within the lookahead.
fn agree(ours: &Window, theirs: &oracle::Window, lookahead: u32) -> bool {
    let bit = |map: &[u8; 64], place: u32| map[place as usize / 8] >> (place % 8) & 1;
    (ours.start, ours.next, ours.size, ours.ckpoint)
        == (theirs.start, theirs.next, theirs.size, theirs.ckpoint)
        && (ours.next..8 * lookahead).all(|at| bit(&ours.map, at) == bit(&theirs.map, at))
        && ours.map[lookahead as usize..].iter().all(|&byte| byte == 0)
}

/// Stops where the two windows do not agree.
#[track_caller]
pub fn same_window(card: &Card, oracle: &Oracle, about: impl Debug) {
    let (ours, theirs) = (&card.window, oracle.window());
    assert!(
        agree(ours, &theirs, card.lookahead),
        "{about:?}: {ours:?}, oracle {theirs:?}"
    );
}
