//! The form of the list.
//!
//! All numbers are 32-bit words, low byte first. The list starts with the place of the records of each kind and, from byte 32
//! on, their number. A record is the answer (0 or the refusal without its sign, and three values), then the question. What is
//! longer (cards, tables, windows, images, visited blocks) stands between the two, stored once, and a word names its place.

use oracle::{Oracle, Window};
use std::collections::HashMap;

/// The kinds in the order of their places; `IMAGE` goes through the records of `EXTEND` again.
pub const INDEX: usize = 0;
pub const FIND: usize = 1;
pub const VISIT: usize = 2;
pub const ALLOC: usize = 3;
pub const EXTEND: usize = 4;
pub const IMAGE: usize = 5;
pub const SEEK: usize = 6;
const KINDS: usize = 8;

pub type Answer = Result<[u32; 3], i32>;

/// The list as it grows: the records of each kind, and the pieces that their words name.
#[derive(Default)]
pub struct Answers {
    records: [Vec<Vec<u8>>; KINDS],
    pieces: Vec<u8>,
    places: HashMap<Vec<u8>, u32>,
}

pub fn bytes_of(words: &[u32]) -> Vec<u8> {
    words.iter().flat_map(|word| word.to_le_bytes()).collect()
}

impl Answers {
    pub fn record(&mut self, kind: usize, answer: Answer, question: &[u32]) {
        let (code, [first, second, third]) = match answer {
            Ok(values) => (0, values),
            Err(code) => (code.unsigned_abs(), [0; 3]),
        };
        let words = [&[code, first, second, third], question].concat();
        self.records[kind].push(bytes_of(&words));
    }

    /// The place of some bytes.
    pub fn piece(&mut self, bytes: &[u8]) -> u32 {
        let next = (8 * KINDS + self.pieces.len()) as u32;
        let place = *self.places.entry(bytes.to_vec()).or_insert(next);
        if place == next {
            self.pieces.extend_from_slice(bytes);
        }
        place
    }

    pub fn window(&mut self, window: Window) -> u32 {
        let map = self.piece(&window.map);
        let Window { start, next, .. } = window;
        self.piece(&bytes_of(&[start, next, window.size, window.ckpoint, map]))
    }

    /// The oracle's card and table as they stand.
    pub fn card(&mut self, oracle: &Oracle, lookahead: u32) -> u32 {
        let device = &oracle.device;
        let mut table = vec![oracle.files.len() as u32];
        table.extend(oracle.files.iter().flat_map(|&(head, size)| [size, head]));
        let words = [
            device.block_size,
            device.health.len() as u32,
            lookahead,
            self.piece(&device.image),
            device.image.len() as u32,
            self.piece(&device.health),
            self.piece(&bytes_of(&table)),
        ];
        self.piece(&bytes_of(&words))
    }

    pub fn bytes(self) -> Vec<u8> {
        let (mut places, mut counts) = ([0; KINDS], [0; KINDS]);
        let mut rows = Vec::new();
        for (kind, records) in self.records.iter().enumerate() {
            places[kind] = (8 * KINDS + self.pieces.len() + rows.len()) as u32;
            counts[kind] = records.len() as u32;
            rows.extend(records.concat());
        }
        (places[IMAGE], counts[IMAGE]) = (places[EXTEND], counts[EXTEND]);
        [bytes_of(&places), bytes_of(&counts), self.pieces, rows].concat()
    }
}
