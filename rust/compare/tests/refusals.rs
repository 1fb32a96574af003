//! What each call refuses before it looks at the card, worked cases of damage, and what is left behind.

#[cfg(feature = "lists")]
mod lists {
    use compare::cards::geometry;
    use tidmaruls::raw::{find, visit, Found, FILE_MAX, NULL};

    /// Geometries and image lengths that are no card.
    pub const CARDS: [(u32, u32, usize); 7] = [
        (127, 4, 508),
        (65537, 1, 65537),
        (128, 0, 0),
        (128, 65537, 8_388_736),
        (4096, 4097, 16_781_312),
        (128, 4, 511),
        (128, 4, 513),
    ];

    #[test]
    fn lookups() {
        let (card, image) = (geometry(128, 4), vec![0xFF; 512]);
        let found = |size, position| find(card, &image, 0, size, position);
        assert_eq!(found(10, 10), Err(-22));
        assert_eq!(found(10, u32::MAX), Err(-22));
        assert_eq!(found(FILE_MAX + 1, 0), Err(-22));
        let nothing = Found {
            block: NULL,
            offset: 0,
            hops: 0,
        };
        assert_eq!(found(0, 77), Ok(nothing));
        assert_eq!(find(card, &image, 4, 1, 0), Err(-84));
        for (block_size, block_count, length) in CARDS {
            let (card, image) = (geometry(block_size, block_count), vec![0xFF; length]);
            assert_eq!(find(card, &image, 0, 1, 0), Err(-22));
        }
    }

    #[test]
    fn visits() {
        let (card, image) = (geometry(128, 4), vec![0xFF; 512]);
        assert_eq!(visit(card, &image, 0, 0), (0, vec![]));
        assert_eq!(visit(card, &image, 0, FILE_MAX + 1), (-22, vec![]));
        assert_eq!(visit(card, &image, 4, 1), (-84, vec![]));
        for (block_size, block_count, length) in CARDS {
            let (card, image) = (geometry(block_size, block_count), vec![0xFF; length]);
            assert_eq!(visit(card, &image, 0, 1), (-22, vec![]));
        }
    }
}

#[cfg(feature = "check")]
#[test]
fn checks() {
    use compare::cards::geometry;
    use tidmaruls::raw::{check, Fault, FILE_MAX, NULL};
    let (card, image) = (geometry(128, 4), vec![0xFF; 512]);
    assert_eq!(check(card, &image, 0, FILE_MAX + 1), Err(-22));
    assert_eq!(check(card, &image, NULL, 0), Ok(None));
    assert_eq!(check(card, &image, 0, 0), Ok(Some(Fault::Headed)));
    let fault = Fault::Beyond { index: 0 };
    assert_eq!(check(card, &image, 4, 1), Ok(Some(fault)));
    for (block_size, block_count, length) in lists::CARDS {
        let (card, image) = (geometry(block_size, block_count), vec![0xFF; length]);
        assert_eq!(check(card, &image, 0, 1), Err(-22));
    }
}

/// File number, then held position, then the sum.
#[cfg(feature = "seek")]
#[test]
fn seeks() {
    let table = compare::cards::table(&[(7, 100, 3)]);
    let beyond = tidmaruls::raw::FILE_MAX + 1;
    assert_eq!(table.seek(65536, beyond, -1, 0), Err(-22));
    assert_eq!(table.seek(8, beyond, -1, 0), Err(-2));
    for whence in [0, 1, 2, 3, -1] {
        assert_eq!(table.seek(7, beyond, 0, whence), Err(-22));
        assert_eq!(table.seek(7, u32::MAX, 0, whence), Err(-22));
    }
    assert_eq!(table.seek(7, 10, 3, 7), Ok(10));
}

/// Windows and lookaheads that are none; the window comes back as it was.
#[cfg(feature = "alloc")]
#[test]
fn windows() {
    use compare::cards::{blank, geometry};
    for lookahead in [0, 4, 7, 9, 65, 72, u32::MAX] {
        let made = tidmaruls::raw::fresh(geometry(128, 10), lookahead, 0);
        assert_eq!(made, Err(-22));
    }
    assert_eq!(tidmaruls::raw::fresh(geometry(128, 10), 8, 10), Err(-22));
    assert_eq!(tidmaruls::raw::fresh(geometry(128, 0), 8, 0), Err(-22));
    for (start, next, size, ckpoint) in [
        (100, 0, 0, 100),
        (0, 1, 0, 100),
        (0, 0, 65, 100),
        (0, 0, 0, 101),
        (0, 10, 20, 9),
        (0, u32::MAX, u32::MAX, 100),
    ] {
        let mut card = blank(geometry(128, 100), 8, start);
        card.window.next = next;
        card.window.size = size;
        card.window.ckpoint = ckpoint;
        let before = card.window;
        assert_eq!(card.alloc(), Err(-22));
        assert_eq!(card.ckpoint(), Err(-22));
        assert_eq!(card.drop_window(), Err(-22));
        assert_eq!(card.window, before);
    }
}

#[cfg(feature = "extend")]
mod growth {
    use compare::cards::{blank, geometry};

    #[test]
    fn sizes_and_health() {
        let mut card = blank(geometry(128, 4), 8, 0);
        let whole = card.clone();
        assert_eq!(card.extend(0, tidmaruls::raw::FILE_MAX + 1), Err(-22));
        assert_eq!(card, whole);
        for health in [vec![0; 3], vec![0; 5], vec![0, 3, 0, 0]] {
            card.health = health;
            let before = card.clone();
            assert_eq!(card.extend(tidmaruls::raw::NULL, 0), Err(-22));
            assert_eq!(card, before);
        }
    }

    /// The head is tested after the erase: the block is taken and erased, and nothing is programmed.
    #[test]
    fn damaged_heads() {
        for size in [1, 100, 128, 252] {
            let mut card = blank(geometry(128, 4), 8, 2);
            card.image.fill(0x55);
            let mut wanted = card.image.clone();
            wanted[256..384].fill(0xFF);
            assert_eq!(card.extend(4, size), Err(-84));
            assert_eq!(card.image, wanted);
            assert_eq!((card.window.next, card.window.ckpoint), (1, 3));
        }
    }
}

/// Positions, numbers and heads that are refused; the buffer keeps its bytes.
#[cfg(feature = "read")]
#[test]
fn reads() {
    use compare::cards::{blank, geometry, table};
    let mut card = blank(geometry(128, 4), 8, 0);
    card.table = table(&[(5, 200, 4)]);
    let beyond = tidmaruls::raw::FILE_MAX + 1;
    let mut buffer = [7; 10];
    for (number, position, code) in [(65536, 0, -22), (6, 0, -2), (5, beyond, -22), (5, 0, -84)] {
        assert_eq!(card.read(number, position, &mut buffer), Err(code));
        assert_eq!(card.stretch(number, position), Err(code));
    }
    for position in [200, 201, beyond - 1] {
        assert_eq!(card.read(5, position, &mut buffer), Ok(0));
        assert_eq!(card.stretch(5, position), Ok(&[][..]));
    }
    assert_eq!(buffer, [7; 10]);
}

/// Every part of a card that can be wrong; the card comes back as it was.
#[cfg(feature = "store")]
#[test]
fn stores() {
    use compare::cards::{blank, geometry, table};
    let mut whole = blank(geometry(128, 4), 8, 0);
    whole.table = table(&[(5, 0, tidmaruls::raw::NULL)]);
    let wrong: [fn(&mut tidmaruls::raw::Card); 9] = [
        |card| card.geometry.block_size = 127,
        |card| card.geometry.block_count = 5,
        |card| card.lookahead = 12,
        |card| card.image.truncate(511),
        |card| card.health.push(0),
        |card| card.health[3] = 3,
        |card| card.window.start = 4,
        |card| card.table.files[0].head = 0,
        |card| card.table.count = 33,
    ];
    for spoil in wrong {
        let mut card = whole.clone();
        spoil(&mut card);
        let before = card.clone();
        assert_eq!(card.write(5, 0, &[1]), Err(-22));
        assert_eq!(card.write(5, 0, &[]), Err(-22));
        assert_eq!(card.truncate(5, 9), Err(-22));
        assert_eq!(card.truncate(6, 0), Err(-22));
        assert_eq!(card, before);
    }
}
