//! One growth: a head or a pointer that the Rust does not test, and a refused block.

use super::both;
use compare::cards::{pointer, put_pointer};
use tidmaruls::raw::{Card, NULL};

/// The head stored; a head to copy from is refused by the device, and then both answer the same.
#[test]
fn growth_from_a_number() {
    let (mut oracle, mut card) = both(1, |card| card.image.fill(0x55));
    let grown = (oracle.extend(1, 128), card.extend(1, 128));
    assert_eq!(grown, (Ok((0, 4)), Err(-84)));
    assert_eq!(pointer(&oracle.device.image, 128, 0, 0), 1);
    assert_eq!(card.image, [0xFF; 128]);
    let (mut oracle, mut card) = both(1, |card| card.image.fill(0x55));
    let grown = (oracle.extend(1, 1), card.extend(1, 1));
    assert_eq!(grown, (Err(-84), Err(-84)));
    assert_eq!(card.image, oracle.device.image);
}

#[test]
fn growth_past_a_damaged_pointer() {
    let damage = |card: &mut Card| put_pointer(&mut card.image, 128, 1, 0, 2);
    let (mut oracle, mut card) = both(2, damage);
    let grown = (oracle.extend(1, 252), card.extend(1, 252));
    assert_eq!(grown, (Ok((0, 8)), Err(-84)));
    let pointers = |image: &[u8]| [0, 1].map(|x| pointer(image, 128, 0, x));
    assert_eq!(pointers(&oracle.device.image), [1, 2]);
    assert_eq!(pointers(&card.image), [1, NULL]);
}

#[test]
fn growth_past_a_refused_block() {
    let (mut oracle, mut card) = both(1, |card| card.health[0] = 1);
    let grown = (oracle.extend(NULL, 0), card.extend(NULL, 0));
    assert_eq!(grown, (Err(-28), Err(-28)));
    assert_eq!((oracle.window().map[0], card.window.map[0]), (1, 0));
    assert_eq!((oracle.window().next, card.window.next), (1, 1));
}
