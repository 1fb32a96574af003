//! Reads and writes: the order of lookups, copies and checkpoints.

use super::{both, write};
use compare::cards::{put_pointer, table};
use oracle::{File, Oracle};
use tidmaruls::raw::{Card, NULL};

/// Block 0 is index 2, and index 0 by its pointer 1; pointer 0 was damaged.
#[test]
fn read_copies_before_the_fault() {
    let (mut oracle, card) = both(1, |card| {
        card.table = table(&[(0, 253, 0)]);
        put_pointer(&mut card.image, 128, 0, 0, 1);
        put_pointer(&mut card.image, 128, 0, 1, 0);
    });
    let (mut theirs, mut ours) = ([7; 2], [7; 2]);
    let mut file = File::open(0, 253, 127);
    assert_eq!(oracle.read(&mut file, &mut theirs), -84);
    assert_eq!(card.read(0, 127, &mut ours), Err(-84));
    assert_eq!((theirs, ours), ([0xFF, 7], [7, 7]));
}

/// A byte written to file 0, where the window holds block 0: here -84, and the card as it came. The Rust's side, and its answer.
fn refused_here(position: u32, change: impl Fn(&mut Card)) -> (Oracle, (i32, u32, u32)) {
    let (mut oracle, mut card) = both(1, |card| {
        card.window.size = 1;
        change(card);
    });
    let before = card.clone();
    let theirs = write(&mut oracle, position, &[7]);
    assert_eq!(card.write(0, position, &[7]), Err(-84));
    assert_eq!(card, before);
    (oracle, theirs)
}

/// With block 0 in the window, neither side scans.
#[test]
fn write_before_its_lookups() {
    let (oracle, theirs) = refused_here(0, |card| card.table = table(&[(0, 2, 1)]));
    assert_eq!(theirs, (-84, 1, 2));
    assert_eq!(oracle.device.image[0], 7);
}

/// Block 0 is the file's own, and the Rust takes it.
#[test]
fn write_after_a_damaged_block() {
    let (_, theirs) = refused_here(129, |card| {
        card.table = table(&[(0, 129, 0)]);
        put_pointer(&mut card.image, 128, 0, 0, 1);
    });
    assert_eq!(theirs, (0, 0, 130));
}

/// The window holds the file's own blocks: the byte of block 1 is read before the erase, or after it.
#[test]
fn write_over_its_own_tail() {
    let (mut oracle, mut card) = both(2, |card| {
        card.table = table(&[(0, 129, 1)]);
        card.window.size = 2;
        put_pointer(&mut card.image, 128, 1, 0, 0);
        card.image[132] = 9;
    });
    assert_eq!(write(&mut oracle, 127, &[7]), (0, 1, 129));
    assert_eq!(card.write(0, 127, &[7]), Ok(()));
    assert_eq!(card.table, table(&[(0, 129, 1)]));
    assert_eq!((oracle.device.image[132], card.image[132]), (9, 0xFF));
}

#[test]
fn write_leaves_the_count() {
    let (mut oracle, mut card) = both(1, |card| card.table = table(&[(0, 0, NULL)]));
    assert_eq!(write(&mut oracle, 0, &[7]), (0, 0, 1));
    assert_eq!(card.write(0, 0, &[7]), Ok(()));
    assert_eq!(card.table, table(&[(0, 1, 0)]));
    assert_eq!(card.image, oracle.device.image);
    assert_eq!((oracle.window().ckpoint, card.window.ckpoint), (1, 0));
}

#[test]
fn write_of_no_bytes_past_the_end() {
    let (mut oracle, mut card) = both(1, |card| card.table = table(&[(0, 0, NULL)]));
    let before = card.clone();
    assert_eq!(write(&mut oracle, 1, &[]), (0, 0, 1));
    assert_eq!(oracle.device.image[0], 0);
    assert_eq!(card.write(0, 1, &[]), Ok(()));
    assert_eq!(card, before);
}
