//! Allocation against the oracle: tables of random lists, allocations and checkpoints to the end.
#![cfg(feature = "alloc")]

use compare::cards::{blank, geometry, table};

/// The rules' own values: ten free blocks and then -28; blocks 0, 1 and 4 listed.
#[test]
fn worked_values() {
    let mut card = blank(geometry(128, 10), 8, 0);
    for block in 0..10 {
        assert_eq!(card.alloc(), Ok(block));
    }
    assert_eq!(card.alloc(), Err(-28));
    let mut card = blank(geometry(128, 10), 8, 0);
    card.table = table(&[(0, 1, 0), (1, 1, 1), (2, 1, 4)]);
    assert_eq!((card.alloc(), card.alloc()), (Ok(2), Ok(3)));
    assert_eq!((card.window.next, card.window.ckpoint), (5, 5));
}

#[cfg(oracle)]
mod with_oracle {
    use compare::cards::{self, geometry, List};
    use compare::{both, Random};
    use oracle::Oracle;
    use tidmaruls::raw::{fresh, Card};

    /// The same card on both sides, and lists on it to make tables of.
    struct Bench {
        card: Card,
        oracle: Oracle,
        lists: Vec<List>,
        allocations: u64,
    }

    impl Bench {
        /// Up to 32 random lists over a random share of the blocks.
        fn new(block_count: u32, lookahead: u32, start: u32, random: &mut Random) -> Bench {
            let geometry = geometry(128, block_count);
            let mut card = cards::blank(geometry, lookahead, start);
            let made = fresh(geometry, lookahead, start).expect("a valid start");
            assert_eq!(made, card.window);
            let mut free = cards::shuffled(block_count, random);
            free.truncate(random.between(0, block_count) as usize);
            let mut lists = Vec::new();
            while lists.len() < 32 && !free.is_empty() {
                let most = (free.len() as u32).min(block_count / random.between(1, 40) + 1);
                let rest = free.split_off(random.between(1, most) as usize);
                let blocks = std::mem::replace(&mut free, rest);
                lists.push(cards::lay(&mut card.image, 128, blocks, random));
            }
            let mut bench = Bench {
                oracle: both::oracle_on(&card),
                card,
                lists,
                allocations: 0,
            };
            bench.choose_table(random);
            bench
        }

        /// A table of some of the lists, with empty files among them.
        fn choose_table(&mut self, random: &mut Random) {
            let mut files = Vec::new();
            for (number, list) in self.lists.iter().enumerate() {
                if random.one_in(5) {
                    continue;
                }
                let none = List::EMPTY;
                let list = if random.one_in(10) { &none } else { list };
                files.push((number as u32 * 3, list.size, list.head()));
            }
            self.card.table = cards::table(&files);
            self.oracle.files = files.iter().map(|file| (file.2, file.1)).collect();
        }

        fn agree(&self, what: &str) {
            both::same_window(&self.card, &self.oracle, what);
        }

        fn alloc(&mut self) -> bool {
            let ours = self.card.alloc();
            assert_eq!(ours, self.oracle.alloc());
            self.agree("alloc");
            self.allocations += 1;
            ours.is_ok()
        }

        fn ckpoint(&mut self) {
            assert_eq!(self.card.ckpoint(), Ok(()));
            self.oracle.ckpoint();
            self.agree("ckpoint");
        }

        /// Allocations to the end, with some checkpoints, drops and other tables in between; answers how many.
        fn run(mut self, random: &mut Random) -> u64 {
            let pause = self.card.geometry.block_count / 2 + 3;
            let mut left = random.below(6);
            loop {
                if left > 0 && random.one_in(pause) {
                    left -= 1;
                    match random.below(4) {
                        0 => self.choose_table(random),
                        1 => {
                            assert_eq!(self.card.drop_window(), Ok(()));
                            self.oracle.drop_window();
                            self.agree("drop");
                        }
                        _ => self.ckpoint(),
                    }
                }
                if self.alloc() {
                    continue;
                }
                if left == 0 {
                    return self.allocations;
                }
                left -= 1;
                self.ckpoint();
            }
        }
    }

    /// Small cards: every start, every lookahead.
    #[test]
    fn small_cards() {
        let mut random = Random::new(30);
        let mut allocations = 0;
        for block_count in 1..=20 {
            for start in 0..block_count {
                for lookahead in (8..=64).step_by(8) {
                    for _ in 0..3 {
                        let bench = Bench::new(block_count, lookahead, start, &mut random);
                        allocations += bench.run(&mut random);
                    }
                }
            }
        }
        println!("alloc: {allocations} on cards of 1 to 20 blocks");
    }

    fn on_random_cards(random: &mut Random, low: u32, high: u32) -> u64 {
        let block_count = random.between(low, high);
        let lookahead = cards::lookahead(random);
        let start = random.below(block_count);
        Bench::new(block_count, lookahead, start, random).run(random)
    }

    #[test]
    fn middling_cards() {
        let mut random = Random::new(31);
        let allocations: u64 = (0..600)
            .map(|_| on_random_cards(&mut random, 21, 3000))
            .sum();
        println!("alloc: {allocations} on cards of 21 to 3,000 blocks");
        assert!(allocations >= 300_000);
    }

    #[test]
    fn large_cards() {
        let mut random = Random::new(32);
        let mut allocations = on_random_cards(&mut random, 10_000, 65_536);
        allocations += on_random_cards(&mut random, 65_536, 65_536);
        println!("alloc: {allocations} on cards of 10,000 to 65,536 blocks");
    }
}

#[cfg(not(oracle))]
#[test]
fn alloc_as_the_oracle() {
    compare::skipped();
}
