//! The worked values of the rules, run through the oracle: it is the Rust that is meant, and the shims serve it well.
#![cfg(oracle)]

use oracle::{File, Oracle};

/// A list of full blocks, and the bytes it should hold: each is the low byte of its position.
struct List {
    blocks: Vec<u32>,
    size: u32,
}

fn grow(oracle: &mut Oracle, count: usize) -> List {
    let block_size = oracle.device.block_size;
    let (mut blocks, mut size) = (Vec::new(), 0);
    for _ in 0..count {
        let head = blocks.last().copied().unwrap_or(u32::MAX);
        let (block, offset) = oracle.extend(head, size).expect("room to grow");
        let room = block_size - offset;
        let fill: Vec<u8> = (size..size + room).map(|position| position as u8).collect();
        assert!(oracle.program(block, offset, &fill));
        blocks.push(block);
        size += room;
    }
    List { blocks, size }
}

#[test]
fn hops() {
    let mut oracle = Oracle::new(128, 64, 8, 5);
    let list = grow(&mut oracle, 9);
    let first = [0, 128, 252, 372, 496, 616, 740, 860, 984];
    for (from, to, hops) in [(8, 0, 1), (7, 0, 3), (7, 1, 4), (3, 1, 2)] {
        let found = oracle
            .find(list.blocks[from], first[from] + 1, first[to])
            .expect("a sound list");
        assert_eq!((found.block, found.hops), (list.blocks[to], hops));
    }
    let falling: Vec<u32> = list.blocks.iter().rev().copied().collect();
    assert_eq!(oracle.traverse(list.blocks[8], list.size), (0, falling));
}

#[test]
fn allocation() {
    let mut oracle = Oracle::new(128, 10, 8, 0);
    for block in 0..10 {
        assert_eq!(oracle.alloc(), Ok(block));
    }
    assert_eq!(oracle.alloc(), Err(-28));
    let mut oracle = Oracle::new(128, 10, 8, 0);
    oracle.files = vec![(0, 1), (1, 1), (4, 1)];
    assert_eq!((oracle.alloc(), oracle.alloc()), (Ok(2), Ok(3)));
    let window = oracle.window();
    assert_eq!((window.next, window.ckpoint), (5, 5));
}

#[test]
fn refused_blocks_are_passed() {
    let mut oracle = Oracle::new(128, 10, 8, 0);
    oracle.device.health[0] = 1;
    oracle.device.health[3] = 2;
    assert_eq!(oracle.extend(u32::MAX, 0), Ok((1, 0)));
    assert_eq!(oracle.extend(1, 128), Ok((2, 4)));
    assert_eq!(oracle.extend(2, 252), Ok((4, 8)));
}

#[test]
fn reading_in_steps() {
    let mut oracle = Oracle::new(128, 64, 8, 0);
    let list = grow(&mut oracle, 20);
    for step in [1, 7, 64, 4096] {
        let mut file = File::open(list.blocks[19], list.size, 0);
        let (mut bytes, mut piece) = (Vec::new(), vec![0; step]);
        loop {
            let length = oracle.read(&mut file, &mut piece);
            if length <= 0 {
                break;
            }
            bytes.extend_from_slice(&piece[..length as usize]);
        }
        let whole: Vec<u8> = (0..list.size).map(|position| position as u8).collect();
        assert_eq!(bytes, whole);
    }
}

#[test]
fn writing_keeps_the_tail() {
    let mut oracle = Oracle::new(128, 64, 8, 0);
    let list = grow(&mut oracle, 9);
    oracle.files = vec![(list.blocks[8], list.size)];
    let mut file = File::open(list.blocks[8], list.size, 300);
    assert_eq!(oracle.write(&mut file, &[0xAA; 100]), 100);
    assert_eq!(oracle.flush(&mut file), 0);
    let mut bytes = vec![0; list.size as usize];
    let mut again = File::open(file.head(), file.size(), 0);
    assert_eq!(oracle.read(&mut again, &mut bytes), list.size as i32);
    let byte = |position: u32| match position {
        300..=399 => 0xAA,
        _ => position as u8,
    };
    assert_eq!(bytes, (0..list.size).map(byte).collect::<Vec<u8>>());
}

#[test]
fn seeks() {
    let mut oracle = Oracle::bare(128);
    let mut seek = |offset, whence| oracle.seek(100, 10, offset, whence);
    assert_eq!((seek(-11, 1), seek(-10, 1)), (-22, 0));
    assert_eq!((seek(5, 2), seek(3, 7)), (105, 10));
    assert_eq!((seek(i32::MAX, 0), seek(i32::MAX, 1)), (i32::MAX, -22));
    assert_eq!((seek(-1, 0), seek(i32::MIN, 2)), (-22, -22));
}
