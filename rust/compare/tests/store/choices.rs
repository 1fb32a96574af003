//! What a call is given: mostly files that are there, and places in or near them.

use crate::bench::Bench;
use tidmaruls::raw::FILE_MAX;

impl Bench<'_> {
    /// Mostly a file that is there.
    pub fn number(&mut self) -> u32 {
        let count = self.plain.files.len() as u32;
        if count == 0 || self.random.one_in(20) {
            return self.random.number() >> self.random.between(14, 26);
        }
        let place = self.random.below(count) as usize;
        *self.plain.files.keys().nth(place).expect("below the count")
    }

    /// Mostly in or near a file of this size.
    pub fn position(&mut self, size: u32) -> u32 {
        let block_size = self.card.geometry.block_size;
        match self.random.below(40) {
            0 => self.random.between(FILE_MAX - 2 * block_size, FILE_MAX),
            1 => self.random.number(),
            2 => FILE_MAX + self.random.below(2),
            3..=12 => size,
            13..=16 => size + self.random.below(3 * block_size),
            _ => self.random.between(0, size),
        }
    }

    /// A length from nothing to most of the card.
    pub fn length(&mut self) -> u32 {
        let whole = self.card.image.len() as u32;
        let block_size = self.card.geometry.block_size;
        match self.random.below(20) {
            0 => 0,
            1..=8 => self.random.below(20),
            9..=15 => self.random.below(2 * block_size),
            16..=18 => self.random.below(8 * block_size),
            _ => self.random.below(whole + 1),
        }
    }

    pub fn size_of(&self, number: u32) -> u32 {
        self.plain
            .file(number)
            .map_or(0, |bytes| bytes.len() as u32)
    }
}
