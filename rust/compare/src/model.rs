//! The list check in plain Rust, as the rules say it: littlefs has none to compare with.

use crate::cards::pointer;
use crate::layout;
use tidmaruls::raw::{Fault, Geometry};

/// The blocks by pointer 0, index rising, or the first fault of that walk.
fn walk(geometry: Geometry, image: &[u8], head: u32, top: u32) -> Result<Vec<u32>, Fault> {
    let mut met = vec![false; geometry.block_count as usize];
    let mut blocks = Vec::new();
    let mut block = head;
    for index in (0..=top).rev() {
        if block >= geometry.block_count {
            return Err(Fault::Beyond { index });
        }
        if met[block as usize] {
            return Err(Fault::Again { index });
        }
        met[block as usize] = true;
        blocks.push(block);
        block = pointer(image, geometry.block_size, block, 0);
    }
    blocks.reverse();
    Ok(blocks)
}

/// The blocks of a list that is sound, index rising.
pub fn blocks(geometry: Geometry, image: &[u8], head: u32, size: u32) -> Vec<u32> {
    if size == 0 {
        return Vec::new();
    }
    let top = layout::index(geometry.block_size, size - 1);
    walk(geometry, image, head, top).expect("a sound list")
}

/// The first fault of a list on a valid card; None if it is sound.
pub fn fault(geometry: Geometry, image: &[u8], head: u32, size: u32) -> Option<Fault> {
    if size == 0 {
        return (head != tidmaruls::raw::NULL).then_some(Fault::Headed);
    }
    let block_size = geometry.block_size;
    let top = layout::index(block_size, size - 1);
    let blocks = match walk(geometry, image, head, top) {
        Ok(blocks) => blocks,
        Err(fault) => return Some(fault),
    };
    for index in (1..=top).rev() {
        for x in 1..=index.trailing_zeros() {
            let named = pointer(image, block_size, blocks[index as usize], x);
            if named != blocks[(index - (1 << x)) as usize] {
                return Some(Fault::Disagrees { index, pointer: x });
            }
        }
    }
    None
}
