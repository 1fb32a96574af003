//! One growth against the oracle: block, offset, window and the whole image, on good cards and with refused erases and programs.
#![cfg(feature = "extend")]

#[cfg(oracle)]
mod with_oracle {
    use compare::cards::{self, BLOCK_SIZES};
    use compare::{both, Random};
    use oracle::Oracle;
    use tidmaruls::raw::{Card, Geometry, NULL};

    /// The healths of a card's faulty blocks: none, refused erases, refused programs, either.
    const FAULTS: [&[u8]; 4] = [&[], &[1], &[2], &[1, 2]];

    /// The same card on both sides, the files that both list, and how many growths met a block that refused.
    struct Bench {
        card: Card,
        oracle: Oracle,
        files: Vec<(u32, u32)>,
        refused: u32,
    }

    impl Bench {
        fn new(geometry: Geometry, faults: &[u8], random: &mut Random) -> Bench {
            let block_count = geometry.block_count;
            let lookahead = cards::lookahead(random);
            let mut card = cards::blank(geometry, lookahead, random.below(block_count));
            card.image = cards::noise(card.image.len(), block_count, random);
            let share = random.between(2, 20);
            for health in &mut card.health {
                if !faults.is_empty() && random.one_in(share) {
                    *health = random.pick(faults);
                }
            }
            Bench {
                oracle: both::oracle_on(&card),
                card,
                files: vec![(NULL, 0); random.between(1, 8) as usize],
                refused: 0,
            }
        }

        fn list_files(&mut self) {
            let numbered = self.files.iter().zip(0..);
            let files: Vec<(u32, u32, u32)> = numbered
                .map(|(&(head, size), number)| (number, size, head))
                .collect();
            self.card.table = cards::table(&files);
            self.oracle.files.clone_from(&self.files);
        }

        fn ckpoint(&mut self) {
            assert_eq!(self.card.ckpoint(), Ok(()));
            self.oracle.ckpoint();
        }

        /// One growth of a file on both sides, compared.
        fn extend(&mut self, file: usize) -> Result<(u32, u32), i32> {
            let (head, size) = self.files[file];
            let erases = self.oracle.device.erases;
            let ours = self.card.extend(head, size);
            let theirs = self.oracle.extend(head, size);
            let tried = self.oracle.device.erases - erases;
            self.refused += (tried > theirs.is_ok() as u32) as u32;
            let about = (self.card.geometry, head, size);
            assert_eq!(ours, theirs, "{about:?}");
            both::same_window(&self.card, &self.oracle, about);
            assert!(self.card.image == self.oracle.device.image, "{about:?}");
            ours
        }

        /// Fills the new block from `offset`, to its end or not, and gives the file its longer list. The first block of a file may
        /// refuse that, as its growth programs nothing: it is left unlisted.
        fn fill(&mut self, file: usize, block: u32, offset: u32, random: &mut Random) {
            let geometry = self.card.geometry;
            let room = geometry.block_size - offset;
            let whole = random.one_in(2);
            let length = if whole { room } else { random.between(1, room) };
            let bytes = cards::noise(length as usize, geometry.block_count, random);
            let size = self.files[file].1;
            if !self.oracle.program(block, offset, &bytes) {
                assert_eq!((size, self.card.health[block as usize]), (0, 2));
                return;
            }
            let at = block as usize * geometry.block_size as usize + offset as usize;
            self.card.image[at..at + bytes.len()].copy_from_slice(&bytes);
            self.files[file] = (block, size + length);
        }

        /// So many growths; answers how many met a block that refused.
        fn run(mut self, calls: u32, random: &mut Random) -> u32 {
            for _ in 0..calls {
                let file = random.below(self.files.len() as u32) as usize;
                if random.one_in(2) {
                    self.ckpoint();
                }
                self.list_files();
                match self.extend(file) {
                    // now and then the new block is left unlisted
                    Ok(_) if random.one_in(8) => {}
                    Ok((block, offset)) => self.fill(file, block, offset, random),
                    Err(_) => {
                        self.files[file] = (NULL, 0);
                        self.ckpoint();
                    }
                }
            }
            self.refused
        }
    }

    /// So many growths on each of some cards of up to `most` bytes, for each kind of faults.
    fn on_cards(seed: u64, cards: u32, calls: u32, most: u32) {
        let mut random = Random::new(seed);
        for faults in FAULTS {
            let mut refused = 0;
            for _ in 0..cards {
                let block_size = random.pick(&BLOCK_SIZES);
                let high = (most / block_size).clamp(1, 2000);
                let low = if random.one_in(4) { 1 } else { high.min(10) };
                let geometry = cards::geometry(block_size, random.between(low, high));
                refused += Bench::new(geometry, faults, &mut random).run(calls, &mut random);
            }
            let growths = cards * calls;
            println!("extend: {growths} growths, cards of up to {most} bytes, faults {faults:?} met in {refused}");
            assert_eq!(refused > 0, !faults.is_empty());
        }
    }

    #[test]
    fn small_cards() {
        on_cards(40, 150, 200, 40_000);
    }

    #[test]
    fn large_cards() {
        on_cards(41, 20, 100, 16_777_216);
    }
}

#[cfg(not(oracle))]
#[test]
fn extend_as_the_oracle() {
    compare::skipped();
}
