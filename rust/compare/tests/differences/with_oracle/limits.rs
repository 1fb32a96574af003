//! Values outside the rules: refused here, taken by the Rust.

use super::{both, place, write};
use compare::cards::table;
use oracle::File;
use tidmaruls::raw::{check, find, visit, Window, FILE_MAX, NULL};

#[test]
fn size_above_the_largest() {
    let (mut oracle, mut card) = both(1, |_| {});
    let (size, before) = (FILE_MAX + 1, card.clone());
    let found = oracle.find(0, size, FILE_MAX).map(place);
    assert_eq!(found, Ok((0, 103, 0)));
    assert_eq!(oracle.traverse(0, size), (-84, vec![0, NULL, NULL]));
    assert_eq!(oracle.extend(0, size), Ok((0, 104)));
    let (on, image) = (card.geometry, &card.image);
    assert_eq!(find(on, image, 0, size, FILE_MAX), Err(-22));
    assert_eq!(visit(on, image, 0, size), (-22, vec![]));
    assert_eq!(check(on, image, 0, size), Err(-22));
    assert_eq!(card.extend(0, size), Err(-22));
    assert_eq!(card, before);
}

#[test]
fn position_above_the_largest() {
    let (mut oracle, mut card) = both(1, |card| card.table = table(&[(0, 0, NULL)]));
    let beyond = FILE_MAX + 1;
    assert_eq!(oracle.seek(0, beyond, 0, 0), 0);
    assert_eq!(oracle.read(&mut File::open(NULL, 0, beyond), &mut []), 0);
    let written = write(&mut oracle, beyond, &[]);
    assert_eq!(written, (-27, NULL, 0));
    assert_eq!(card.table.seek(0, beyond, 0, 0), Err(-22));
    assert_eq!(card.read(0, beyond, &mut []), Err(-22));
    assert_eq!(card.write(0, beyond, &[]), Err(-22));
}

#[test]
fn geometry_that_is_none() {
    let (mut oracle, mut card) = both(0, |_| {});
    assert_eq!(oracle.find(NULL, 0, 0).map(place), Ok((NULL, 0, 0)));
    assert_eq!(find(card.geometry, &card.image, NULL, 0, 0), Err(-22));
    assert_eq!((oracle.alloc(), card.alloc()), (Err(-28), Err(-22)));
}

/// The Rust is run at 1 only: at 0 it scans without end, and at 65 it clears a byte past the harness's map.
#[test]
fn lookahead_that_is_none() {
    let (mut oracle, mut card) = both(1, |card| card.lookahead = 1);
    assert_eq!((oracle.alloc(), card.alloc()), (Ok(0), Err(-22)));
    for lookahead in [0, 65] {
        card.lookahead = lookahead;
        assert_eq!(card.alloc(), Err(-22));
    }
}

/// The last holds more blocks than its count.
#[test]
fn window_that_is_none() {
    let wrong: [fn(&mut Window); 5] = [
        |window| window.start = 1,
        |window| window.next = 1,
        |window| window.size = 2,
        |window| window.ckpoint = 2,
        |window| (window.size, window.ckpoint) = (1, 0),
    ];
    for spoil in wrong {
        let (mut oracle, mut card) = both(1, |card| spoil(&mut card.window));
        let before = card.window;
        assert_eq!((oracle.alloc(), card.alloc()), (Ok(0), Err(-22)));
        assert_eq!(card.window, before);
    }
}

#[test]
fn table_that_is_none() {
    let (mut oracle, mut card) = both(1, |card| card.table = table(&[(0, 0, 0)]));
    assert_eq!((oracle.alloc(), card.alloc()), (Ok(0), Err(-22)));
}
