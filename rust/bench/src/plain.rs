//! The plainest programs that touch the bytes which a read, a write and a check of file 1 touch: what the memory alone costs.

use crate::work::pointer_bytes;
use std::ops::Range;
use tidmaruls::View;

/// Where file 1 lies: its blocks, index rising.
pub struct Plain {
    block_size: usize,
    blocks: Vec<u32>,
}

impl Plain {
    /// As the library's own visit hands the blocks over, last index first.
    pub fn of(view: View) -> Plain {
        let visit = view.visit(1).expect("a file");
        let mut blocks: Vec<u32> = visit
            .map(|visited| visited.expect("a sound list").block)
            .collect();
        blocks.reverse();
        Plain {
            block_size: view.image().geometry().block_size() as usize,
            blocks,
        }
    }

    pub fn blocks(&self) -> usize {
        self.blocks.len()
    }

    /// The place of a block in the image.
    fn place(&self, block: u32) -> Range<usize> {
        let first = block as usize * self.block_size;
        first..first + self.block_size
    }

    /// Copies the data of each block out of the image.
    pub fn read(&self, image: &[u8], mut to: &mut [u8]) {
        for (index, &block) in (0..).zip(&self.blocks) {
            let data = &image[self.place(block)][pointer_bytes(index)..];
            let (here, after) = to.split_at_mut(data.len().min(to.len()));
            here.copy_from_slice(&data[..here.len()]);
            to = after;
        }
    }

    /// Erases each block and copies its data into it.
    pub fn write(&self, image: &mut [u8], mut from: &[u8]) {
        for (index, &block) in (0..).zip(&self.blocks) {
            let whole = &mut image[self.place(block)];
            whole.fill(0xFF);
            let data = &mut whole[pointer_bytes(index)..];
            let (here, after) = from.split_at(data.len().min(from.len()));
            data[..here.len()].copy_from_slice(here);
            from = after;
        }
    }

    /// Follows pointer 0 from the last block to index 0 and adds up all pointers on the way; the block it ends at, and the sum.
    pub fn chase(&self, image: &[u8]) -> (u32, u32) {
        let top = self.blocks() - 1;
        let (mut block, mut sum) = (self.blocks[top], 0_u32);
        for index in (1..=top as u32).rev() {
            let pointers = &image[self.place(block)][..pointer_bytes(index)];
            let number = |at: usize| {
                u32::from_le_bytes(pointers[at..at + 4].try_into().expect("four bytes"))
            };
            block = number(0);
            sum = (0..pointers.len())
                .step_by(4)
                .fold(sum, |sum, at| sum.wrapping_add(number(at)));
        }
        (block, sum)
    }
}
