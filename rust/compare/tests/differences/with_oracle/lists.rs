//! Block lists: a number or a position that the Rust does not test.

use super::{both, place};
use oracle::Oracle;
use std::panic::catch_unwind;
use tidmaruls::raw::{find, index, visit};

/// Below 8 the Rust's subtraction wraps, which a build that checks sums stops at.
#[test]
fn index_of_small_blocks() {
    for block_size in 0..128 {
        let theirs = catch_unwind(|| Oracle::bare(block_size).index(0)).ok();
        let stops = block_size == 8 || block_size < 8 && cfg!(debug_assertions);
        assert_eq!(theirs, (!stops).then_some((0, 0)), "{block_size}");
        assert_eq!(index(block_size, 0), Err(-22), "{block_size}");
    }
}

#[test]
fn lookup_hands_a_number_back() {
    let (mut oracle, card) = both(1, |_| {});
    assert_eq!(oracle.find(1, 1, 0).map(place), Ok((1, 0, 0)));
    assert_eq!(find(card.geometry, &card.image, 1, 1, 0), Err(-84));
}

#[test]
fn lookup_past_the_size() {
    let (mut oracle, card) = both(1, |_| {});
    assert_eq!(oracle.find(0, 1, 1).map(place), Ok((0, 1, 0)));
    assert_eq!(find(card.geometry, &card.image, 0, 1, 1), Err(-22));
}

#[test]
fn visit_hands_a_number_over() {
    let (mut oracle, card) = both(1, |_| {});
    assert_eq!(oracle.traverse(1, 1), (0, vec![1]));
    assert_eq!(visit(card.geometry, &card.image, 1, 1), (-84, vec![]));
}
