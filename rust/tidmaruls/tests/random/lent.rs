//! All that a call can be lent or told, mostly within the rules.

use crate::cards::{image, size, table, window};
use crate::guarded::Guarded;
use numbers::Random;
use std::hash::{Hash, Hasher};
use tidmaruls::ffi::{Geometry, Table, Visit, Window};
use tidmaruls::{FILE_MAX, NULL};

#[derive(Clone, PartialEq, Eq, Debug)]
pub struct Lent {
    pub geometry: Geometry,
    pub lookahead: u32,
    pub image: Guarded,
    pub health: Guarded,
    pub buffer: Guarded,
    pub data: Guarded,
    pub table: Table,
    pub window: Window,
    pub place: Visit,
    pub number: u32,
    pub position: u32,
    pub head: u32,
    pub size: u32,
    pub offset: i32,
    pub whence: i32,
}

impl Lent {
    /// A small card within the rules, sound or not.
    pub fn new(random: &mut Random) -> Lent {
        let geometry = Geometry {
            block_size: random.pick(&[128, 129, 200, 256, 512]),
            block_count: 1 + random.below(40),
        };
        let count = geometry.block_count;
        let lookahead = 8 * (1 + random.below(8));
        let length = geometry.block_size as usize * count as usize;
        let faults = random.pick(&[1, 2, 3]);
        let health: Vec<u8> = (0..count)
            .map(|_| (random.below(4) == 0) as u8 * random.below(faults) as u8)
            .collect();
        Lent {
            geometry,
            lookahead,
            image: Guarded::new(&image(length, count, random)),
            health: Guarded::new(&health),
            buffer: Guarded::new(&[]),
            data: Guarded::new(&[]),
            table: table(geometry, random),
            window: window(count, lookahead, random),
            place: Visit {
                index: 0,
                block: 0,
                held: 0,
                after: 0,
            },
            number: 0,
            position: 0,
            head: 0,
            size: 0,
            offset: 0,
            whence: 0,
        }
    }

    /// Other numbers, buffer and data for the next call.
    pub fn numbers(&mut self, random: &mut Random) {
        let whole = self.image.length() as u32;
        let count = self.geometry.block_count;
        self.number = match random.below(12) {
            0 => random.number(),
            1 => 65_535 + random.below(2),
            2..=8 => {
                let held = self.table.count.clamp(1, 32);
                self.table.files[random.below(held) as usize].number
            }
            _ => random.below(60),
        };
        self.position = match random.below(20) {
            0 => random.number(),
            1 => FILE_MAX + random.below(2),
            _ => random.below(whole + 2),
        };
        self.size = size(whole, random);
        self.head = match random.below(8) {
            0 => NULL,
            1 => count,
            _ => random.below(count),
        };
        self.offset = (random.number() as i32) >> random.below(32);
        self.whence = random.pick(&[0, 1, 2, 0, 1, 2, 7, -1]);
        self.place = Visit {
            index: random.number() >> random.below(32),
            block: random.below(count + 1),
            held: random.below(3),
            after: random.below(count + 1),
        };
        self.slices(random);
    }

    /// Another buffer and other data, a third of the time a few bytes like those of a saved table.
    fn slices(&mut self, random: &mut Random) {
        let whole = self.image.length() as u32;
        let shift = random.below(12);
        let length = random.below(whole + 2) >> shift;
        self.buffer = Guarded::new(&random.bytes(length as usize));
        let shift = random.below(12);
        let length = random.below(whole + whole / 4 + 2) >> shift;
        self.data = Guarded::new(&random.bytes(length as usize));
        if random.one_in(3) {
            let length = random.below(12) as usize;
            let mut saved = random.bytes(length);
            saved
                .iter_mut()
                .for_each(|byte| *byte &= random.pick(&[0x07, 0x7F, 0xFF]));
            self.data = Guarded::new(&saved);
        }
    }

    /// The same with one thing outside the rules, or at their edge.
    pub fn spoilt(&self, random: &mut Random) -> Lent {
        let mut lent = self.clone();
        let number = random.pick(&[0, 1, 127, 128, 65_535, 65_536, 65_537, 1 << 31, NULL]);
        let entry = random.below(33) as usize % 32;
        let cut = |bytes: &Guarded| Guarded::new(&bytes.bytes()[bytes.length().min(1)..]);
        match random.below(17) {
            0 => lent.geometry.block_size = number,
            1 => lent.geometry.block_count = number,
            2 => lent.lookahead = random.pick(&[0, 7, 8, 12, 64, 72, NULL]),
            3 => lent.image = cut(&lent.image),
            4 => lent.image = Guarded::new(&[lent.image.bytes(), &[0]].concat()),
            5 => lent.health = cut(&lent.health),
            6 => lent.health = Guarded::new(&vec![random.below(256) as u8; lent.health.length()]),
            7 => lent.window.start = number,
            8 => lent.window.next = number,
            9 => lent.window.size = number,
            10 => lent.window.ckpoint = number,
            11 => lent.table.count = random.below(40),
            12 => lent.table.count = number,
            13 => lent.table.files[entry].number = number,
            14 => lent.table.files[entry].head = number,
            15 => lent.table.files[entry].size = random.below(1000),
            _ => lent.image = Guarded::new(&random.bytes(lent.image.length())),
        }
        lent
    }

    pub fn guards_hold(&self) -> bool {
        [&self.image, &self.health, &self.buffer, &self.data]
            .iter()
            .all(|bytes| bytes.holds())
    }

    /// What a call can change, into a number for the whole run.
    pub fn digest(&self, to: &mut impl Hasher) {
        (
            &self.image,
            &self.buffer,
            self.window.map,
            self.window.start,
            self.window.next,
        )
            .hash(to);
        (self.window.size, self.window.ckpoint, self.table.count).hash(to);
        for entry in &self.table.files {
            (entry.number, entry.size, entry.head).hash(to);
        }
    }
}
