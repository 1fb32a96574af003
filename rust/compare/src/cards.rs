//! Cards to compare on: lists laid out by hand or grown by the oracle, noise in the data, damage.

use crate::{layout, Random};
use tidmaruls::raw::{Card, Entry, Geometry, Table, Window};

/// The block sizes that lists are compared at.
pub const BLOCK_SIZES: [u32; 5] = [128, 132, 512, 4096, 65536];

/// A list: its blocks by index, and its size.
#[derive(Clone, PartialEq, Eq, Debug)]
pub struct List {
    pub blocks: Vec<u32>,
    pub size: u32,
}

impl List {
    pub const EMPTY: List = List {
        blocks: Vec::new(),
        size: 0,
    };

    pub fn head(&self) -> u32 {
        self.blocks.last().copied().unwrap_or(tidmaruls::raw::NULL)
    }
}

/// The geometry of these numbers, valid or not.
pub fn geometry(block_size: u32, block_count: u32) -> Geometry {
    Geometry {
        block_size,
        block_count,
    }
}

/// A table of these files, each a number, a size and a head.
pub fn table(files: &[(u32, u32, u32)]) -> Table {
    let mut table = Table::EMPTY;
    for &(number, size, head) in files {
        table.files[table.count as usize] = Entry { number, size, head };
        table.count += 1;
    }
    table
}

/// An erased card of good blocks without files; its window is fresh and starts at `start`.
pub fn blank(geometry: Geometry, lookahead: u32, start: u32) -> Card {
    let length = geometry.block_size as usize * geometry.block_count as usize;
    Card {
        geometry,
        lookahead,
        image: vec![0xFF; length],
        health: vec![0; geometry.block_count as usize],
        window: Window {
            map: [0; 64],
            start,
            next: 0,
            size: 0,
            ckpoint: geometry.block_count,
        },
        table: Table::EMPTY,
    }
}

/// One of the lookahead sizes.
pub fn lookahead(random: &mut Random) -> u32 {
    8 * random.between(1, 8)
}

/// Bytes that read as block numbers, most of them below the count: a lookup led astray goes on for a while.
pub fn noise(length: usize, block_count: u32, random: &mut Random) -> Vec<u8> {
    let mut bytes = Vec::with_capacity(length + 4);
    while bytes.len() < length {
        let astray = random.one_in(40);
        let number = if astray {
            random.number()
        } else {
            random.below(block_count)
        };
        bytes.extend_from_slice(&number.to_le_bytes());
    }
    bytes.truncate(length);
    bytes
}

/// Stores pointer `pointer` of a block.
pub fn put_pointer(image: &mut [u8], block_size: u32, block: u32, pointer: u32, number: u32) {
    let at = block as usize * block_size as usize + 4 * pointer as usize;
    image[at..at + 4].copy_from_slice(&number.to_le_bytes());
}

/// Pointer `pointer` of a block.
pub fn pointer(image: &[u8], block_size: u32, block: u32, pointer: u32) -> u32 {
    let at = block as usize * block_size as usize + 4 * pointer as usize;
    u32::from_le_bytes(image[at..at + 4].try_into().expect("four bytes"))
}

/// Lays out a list in these blocks, all its pointers stored; its size ends somewhere in the last of them.
pub fn lay(image: &mut [u8], block_size: u32, blocks: Vec<u32>, random: &mut Random) -> List {
    for index in 1..blocks.len() as u32 {
        for x in 0..=index.trailing_zeros() {
            let named = blocks[(index - (1 << x)) as usize];
            put_pointer(image, block_size, blocks[index as usize], x, named);
        }
    }
    let last = blocks.len() as u32 - 1;
    let (low, high) = (
        layout::start(block_size, last),
        layout::start(block_size, last + 1),
    );
    List {
        blocks,
        size: random.between(low as u32 + 1, high as u32),
    }
}

/// The numbers below `count` in random order.
pub fn shuffled(count: u32, random: &mut Random) -> Vec<u32> {
    let mut numbers: Vec<u32> = (0..count).collect();
    for last in (1..count).rev() {
        numbers.swap(last as usize, random.between(0, last) as usize);
    }
    numbers
}

/// Stores wrong numbers over one to four pointers of a list.
pub fn damage(image: &mut [u8], geometry: Geometry, list: &List, random: &mut Random) {
    for _ in 0..random.between(1, 4) {
        let index = random.below(list.blocks.len() as u32);
        let pointers = layout::pointer_bytes(index) / 4;
        if pointers == 0 {
            continue;
        }
        let (count, any) = (geometry.block_count, random.number());
        let number = match random.below(4) {
            0 => random.pick(&[count, count + 1, tidmaruls::raw::NULL, any]),
            1 => list.blocks[random.below(list.blocks.len() as u32) as usize],
            _ => random.below(count),
        };
        let block = list.blocks[index as usize];
        put_pointer(
            image,
            geometry.block_size,
            block,
            random.below(pointers),
            number,
        );
    }
}
