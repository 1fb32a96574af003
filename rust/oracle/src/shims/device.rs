//! The plain device: blocks in a row of bytes, no caches, faults by health, every step counted.

/// What the oracle's reads, programs and erases go to.
///
/// Health of a block: 0 good, 1 refuses to be erased, 2 erases and then refuses to be programmed.
pub struct Device {
    pub block_size: u32,
    pub image: Vec<u8>,
    pub health: Vec<u8>,
    pub reads: u32,
    pub programs: u32,
    pub erases: u32,
}

impl Device {
    pub fn new(block_size: u32, block_count: u32) -> Device {
        Device {
            block_size,
            image: vec![0xFF; block_size as usize * block_count as usize],
            health: vec![0; block_count as usize],
            reads: 0,
            programs: 0,
            erases: 0,
        }
    }

    /// The bytes of block `block` from `offset` on; None if they do not lie in one block of the card.
    fn part(&mut self, block: u32, offset: u32, length: usize) -> Option<&mut [u8]> {
        if block as usize >= self.health.len() {
            return None;
        }
        if offset as usize + length > self.block_size as usize {
            return None;
        }
        let at = block as usize * self.block_size as usize + offset as usize;
        Some(&mut self.image[at..at + length])
    }

    /// False for a place that is not on the card.
    pub fn read(&mut self, block: u32, offset: u32, to: &mut [u8]) -> bool {
        self.reads += 1;
        match self.part(block, offset, to.len()) {
            Some(bytes) => to.copy_from_slice(bytes),
            None => return false,
        }
        true
    }

    /// False where the block refuses; a place that is not on the card is an error of the caller.
    pub fn program(&mut self, block: u32, offset: u32, from: &[u8]) -> bool {
        self.programs += 1;
        let refused = self.health[block as usize] == 2;
        let bytes = self.part(block, offset, from.len());
        let bytes = bytes.expect("a program within one block");
        if !refused {
            bytes.copy_from_slice(from);
        }
        !refused
    }

    /// False where the block refuses.
    pub fn erase(&mut self, block: u32) -> bool {
        self.erases += 1;
        let refused = self.health[block as usize] == 1;
        let length = self.block_size as usize;
        let bytes = self.part(block, 0, length).expect("a block of the card");
        if !refused {
            bytes.fill(0xFF);
        }
        !refused
    }
}
