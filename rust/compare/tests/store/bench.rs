//! Random calls on one card, all files looked at after each.

use compare::plain::{good_unlisted, is_fresh, is_window, passed_since, Plain};
use compare::Random;
use tidmaruls::raw::{check, Card, Refusal};

/// How the calls went.
#[derive(Default, Debug)]
pub struct Tally {
    pub calls: u64,
    pub done: u64,
    pub refused: u64,
    pub full_fresh: u64,
    pub full_held: u64,
}

/// A card, and the files that it should hold.
pub struct Bench<'a> {
    pub card: Card,
    pub plain: Plain,
    pub random: &'a mut Random,
    pub tally: &'a mut Tally,
}

impl Bench<'_> {
    /// Every file reads as its plain bytes, every list is sound, and table and window are in order.
    fn agree(&self) {
        let card = &self.card;
        let held = card.table.entries().iter().map(|entry| entry.number);
        assert!(held.eq(self.plain.files.keys().copied()));
        for (entry, bytes) in card.table.entries().iter().zip(self.plain.files.values()) {
            assert_eq!(card.table.size(entry.number), Ok(bytes.len() as u32));
            let sound = check(card.geometry, &card.image, entry.head, entry.size);
            assert_eq!(sound, Ok(None), "{:?}, {entry:?}", card.geometry);
            let mut read = vec![0x5A; bytes.len() + 1];
            let length = card.read(entry.number, 0, &mut read);
            assert_eq!(length, Ok(bytes.len() as u32));
            assert_eq!(read.pop(), Some(0x5A));
            assert!(read == *bytes, "{:?}, {entry:?}", card.geometry);
        }
        assert!(is_window(card), "{:?}", card.window);
    }

    /// A call that may need new blocks: refused before the card, out of room, or done.
    pub fn changes(
        &mut self,
        needs: Result<u32, Refusal>,
        call: impl FnOnce(&mut Card) -> Result<(), Refusal>,
    ) -> bool {
        let untouched = match needs {
            Ok(blocks) if blocks > 0 => None,
            _ => Some((self.card.image.clone(), self.card.window)),
        };
        let (table, window) = (self.card.table, self.card.window);
        let (fresh, free) = (is_fresh(&self.card), good_unlisted(&self.card));
        let answer = call(&mut self.card);
        if let Some((image, window)) = untouched {
            assert!(self.card.image == image && self.card.window == window);
            assert_eq!(answer, needs.map(|_| ()));
        }
        if needs.is_ok_and(|blocks| blocks > 0) {
            assert!(passed_since(&self.card, window), "{window:?}");
        }
        self.tally.done += answer.is_ok() as u64;
        self.tally.refused += answer.is_err() as u64;
        if let Err(code) = answer {
            assert_eq!(self.card.table, table);
            if let Ok(blocks) = needs {
                assert_eq!(code, -28);
                assert!(!fresh || blocks > free, "{blocks} needed, {free} free");
                self.tally.full_fresh += fresh as u64;
                self.tally.full_held += (blocks <= free) as u64;
            }
        } else {
            assert!(needs.is_ok_and(|blocks| blocks <= free));
        }
        answer.is_ok()
    }

    /// So many calls, all files looked at after each.
    pub fn run(mut self, calls: u32) {
        for _ in 0..calls {
            match self.random.below(20) {
                _ if self.plain.files.is_empty() => self.name(),
                0..=2 => self.name(),
                3..=5 => self.read(),
                6..=8 => self.truncate(),
                9..=11 => self.keep(),
                _ => self.write(),
            }
            self.tally.calls += 1;
            self.agree();
        }
    }
}
