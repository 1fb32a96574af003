//! Lists made by the oracle's own growth.

use crate::cards::{noise, List};
use crate::Random;
use oracle::Oracle;

/// A list of this size, grown in random blocks that no file of the oracle's table uses; its data is noise.
pub fn grow(oracle: &mut Oracle, size: u32, random: &mut Random) -> List {
    let block_count = oracle.device.health.len() as u32;
    let mut list = List::EMPTY;
    while list.size < size {
        let head = list.head();
        oracle.drop_window();
        let mut window = oracle.window();
        window.start = random.below(block_count);
        oracle.set_window(window);
        oracle.files.push((head, list.size));
        let grown = oracle.extend(head, list.size);
        oracle.files.pop();
        let (block, offset) = grown.expect("a card with room");
        let length = (oracle.device.block_size - offset).min(size - list.size);
        let bytes = noise(length as usize, block_count, random);
        assert!(oracle.program(block, offset, &bytes));
        list.blocks.push(block);
        list.size += length;
    }
    list
}
