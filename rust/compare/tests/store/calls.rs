//! The calls, each held against the plain files.

use crate::bench::Bench;
use tidmaruls::raw::{fresh, Table, FILE_MAX};

impl Bench<'_> {
    pub fn write(&mut self) {
        let number = self.number();
        let position = self.position(self.size_of(number));
        let length = self.length() as usize;
        let data = self.random.bytes(length);
        let block_size = self.card.geometry.block_size;
        let needs = self.plain.write_needs(block_size, number, position, length);
        if self.changes(needs, |card| card.write(number, position, &data)) {
            self.plain.write(number, position, &data);
        }
    }

    pub fn truncate(&mut self) {
        let number = self.number();
        let held = self.size_of(number);
        let size = self.position(held);
        let block_size = self.card.geometry.block_size;
        let needs = self.plain.truncate_needs(block_size, number, size);
        if self.changes(needs, |card| card.truncate(number, size)) {
            self.plain.truncate(number, size);
        }
    }

    pub fn read(&mut self) {
        let number = self.number();
        let position = self.position(self.size_of(number));
        let mut buffer = vec![0xC3; self.length() as usize];
        let read = self.card.read(number, position, &mut buffer);
        let stretch = self.card.stretch(number, position);
        let rest = self.plain.file(number).and_then(|bytes| match position {
            0..=FILE_MAX => Ok(bytes.get(position as usize..).unwrap_or(&[])),
            _ => Err(-22),
        });
        match rest {
            Err(code) => assert_eq!((read, stretch), (Err(code), Err(code))),
            Ok(rest) => {
                let length = rest.len().min(buffer.len());
                assert_eq!(read, Ok(length as u32));
                assert!(buffer[..length] == rest[..length]);
                assert!(buffer[length..].iter().all(|&byte| byte == 0xC3));
                let part = stretch.expect("as the read");
                assert!(rest.starts_with(part) && part.is_empty() == rest.is_empty());
            }
        }
    }

    /// A create or a remove, of numbers that are there or not.
    pub fn name(&mut self) {
        let before = self.card.table;
        let (ours, wanted) = if self.random.one_in(3) {
            let number = self.number();
            (self.card.table.remove(number), self.plain.remove(number))
        } else {
            let number = self.random.below(40) * self.random.pick(&[1, 1, 1, 1700]);
            (self.card.table.create(number), self.plain.create(number))
        };
        assert_eq!(ours, wanted);
        assert!(ours.is_ok() || self.card.table == before);
    }

    /// The window made fresh, emptied or checkpointed; the table saved and loaded.
    pub fn keep(&mut self) {
        let card = &mut self.card;
        match self.random.below(4) {
            0 => {
                let start = self.random.below(card.geometry.block_count);
                card.window = fresh(card.geometry, card.lookahead, start).expect("a start");
            }
            1 => assert_eq!(card.drop_window(), Ok(())),
            2 => assert_eq!(card.ckpoint(), Ok(())),
            _ => {
                let mut buffer = [0; 400];
                let length = card.table.save(&mut buffer).expect("room") as usize;
                card.table = Table::load(&buffer[..length]).expect("just saved");
            }
        }
    }
}
