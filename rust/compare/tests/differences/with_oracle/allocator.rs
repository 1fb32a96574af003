//! The scan, the map and the counts of an allocation.

use super::both;
use compare::cards::table;

/// The one block is marked in the place of block 1, and so there is none to take.
#[test]
fn scan_meets_a_number() {
    let (mut oracle, mut card) = both(1, |card| card.table = table(&[(0, 1, 1)]));
    let before = card.clone();
    assert_eq!((oracle.alloc(), card.alloc()), (Err(-28), Err(-84)));
    assert_eq!((oracle.window().next, oracle.window().map[0]), (1, 1));
    assert_eq!(card, before);
}

#[test]
fn scan_clears_the_map() {
    let (mut oracle, mut card) = both(1, |card| card.window.map[8] = 1);
    assert_eq!((oracle.alloc(), card.alloc()), (Ok(0), Ok(0)));
    assert_eq!((oracle.window().map[8], card.window.map[8]), (1, 0));
}

/// A block passed before the one taken, and one after it.
#[test]
fn counts() {
    let files = table(&[(0, 1, 0), (1, 1, 2)]);
    let (mut oracle, mut card) = both(3, |card| card.table = files);
    assert_eq!((oracle.alloc(), card.alloc()), (Ok(1), Ok(1)));
    let (theirs, ours) = (oracle.window(), card.window);
    assert_eq!((theirs.next, theirs.ckpoint), (3, 0));
    assert_eq!((ours.next, ours.ckpoint), (3, 0));
}
