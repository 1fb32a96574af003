//! Files as plain bytes, and what the rules say of the calls that change them.

use crate::{layout, model};
use std::collections::BTreeMap;
use tidmaruls::raw::{Card, Refusal, Window, FILE_MAX};

/// The files by number.
#[derive(Clone, Default)]
pub struct Plain {
    pub files: BTreeMap<u32, Vec<u8>>,
}

impl Plain {
    /// A file's bytes; else the refusal of its number.
    pub fn file(&self, number: u32) -> Result<&Vec<u8>, Refusal> {
        if number > 65_535 {
            return Err(-22);
        }
        self.files.get(&number).ok_or(-2)
    }

    /// Whether a file can be made.
    pub fn create(&mut self, number: u32) -> Result<(), Refusal> {
        match self.file(number) {
            Ok(_) => return Err(-17),
            Err(-22) => return Err(-22),
            Err(_) => {}
        }
        if self.files.len() == 32 {
            return Err(-12);
        }
        self.files.insert(number, Vec::new());
        Ok(())
    }

    pub fn remove(&mut self, number: u32) -> Result<(), Refusal> {
        self.file(number)?;
        self.files.remove(&number);
        Ok(())
    }

    /// How many new blocks a write needs; else its refusal before the card is looked at.
    pub fn write_needs(
        &self,
        block_size: u32,
        number: u32,
        position: u32,
        length: usize,
    ) -> Result<u32, Refusal> {
        let size = self.file(number)?.len() as u32;
        if position > FILE_MAX {
            return Err(-22);
        }
        let end = position as u64 + length as u64;
        if end > FILE_MAX as u64 {
            return Err(-27);
        }
        if length == 0 {
            return Ok(0);
        }
        let last = size.max(end as u32) - 1;
        let first = position.min(size);
        Ok(layout::index(block_size, last) - layout::index(block_size, first) + 1)
    }

    /// The write itself: a gap is zeros, the tail stays.
    pub fn write(&mut self, number: u32, position: u32, data: &[u8]) {
        let bytes = self.files.get_mut(&number).expect("a file that is there");
        let (position, end) = (position as usize, position as usize + data.len());
        if !data.is_empty() && bytes.len() < end {
            bytes.resize(end, 0);
        }
        if !data.is_empty() {
            bytes[position..end].copy_from_slice(data);
        }
    }

    /// How many new blocks a truncate needs; else its refusal before the card is looked at.
    pub fn truncate_needs(&self, block_size: u32, number: u32, size: u32) -> Result<u32, Refusal> {
        let held = self.file(number)?.len() as u32;
        if size > FILE_MAX {
            return Err(-22);
        }
        let zeros = size.saturating_sub(held) as usize;
        self.write_needs(block_size, number, held, zeros)
    }

    pub fn truncate(&mut self, number: u32, size: u32) {
        let bytes = self.files.get_mut(&number).expect("a file that is there");
        bytes.resize(size as usize, 0);
    }
}

/// How many good blocks of a card no file lists; all its lists are sound.
pub fn good_unlisted(card: &Card) -> u32 {
    let mut free: Vec<bool> = card.health.iter().map(|&health| health == 0).collect();
    for entry in card.table.entries() {
        let listed = model::blocks(card.geometry, &card.image, entry.head, entry.size);
        listed
            .iter()
            .for_each(|&block| free[block as usize] = false);
    }
    free.iter().filter(|&&free| free).count() as u32
}

/// Whether a window is fresh.
pub fn is_fresh(card: &Card) -> bool {
    let window = &card.window;
    (window.next, window.size, window.ckpoint) == (0, 0, card.geometry.block_count)
}

/// Whether a window is one that calls accept.
pub fn is_window(card: &Card) -> bool {
    let (window, count) = (&card.window, card.geometry.block_count);
    window.start < count
        && window.next <= window.size
        && window.size <= count.min(8 * card.lookahead)
        && window.size - window.next <= window.ckpoint
        && window.ckpoint <= count
}

/// Whether the window moved on from this one by as many blocks as its count fell since the call's own checkpoint.
pub fn passed_since(card: &Card, before: Window) -> bool {
    let (after, count) = (&card.window, card.geometry.block_count);
    let passed = count - after.ckpoint;
    (before.start + before.next + passed) % count == (after.start + after.next) % count
}
