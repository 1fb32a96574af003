//! Lookup, visit and list check, on lists grown by the oracle and on damaged copies of them.
#![cfg(feature = "lists")]

#[cfg(oracle)]
mod with_oracle {
    use compare::cards::{damage, geometry, List};
    use compare::{grown, layout, Random};
    use oracle::Oracle;
    use tidmaruls::raw::{find, visit, Found, Geometry};

    /// A card of the oracle's, and how much was compared on it.
    struct Bench {
        geometry: Geometry,
        oracle: Oracle,
        lookups: u64,
        untested: u64,
    }

    impl Bench {
        fn new(block_size: u32, block_count: u32) -> Bench {
            Bench {
                geometry: geometry(block_size, block_count),
                oracle: Oracle::new(block_size, block_count, 64, 0),
                lookups: 0,
                untested: 0,
            }
        }

        /// The same block, offset and hops; -84 where the oracle answers it, or hands back a number not below the count.
        fn lookup(&mut self, list: &List, position: u32) {
            let image = &self.oracle.device.image;
            let ours = find(self.geometry, image, list.head(), list.size, position);
            let theirs = self.oracle.find(list.head(), list.size, position);
            let wanted = match theirs {
                Ok(found) if found.block >= self.geometry.block_count => {
                    self.untested += 1;
                    Err(-84)
                }
                Ok(found) => Ok(Found {
                    block: found.block,
                    offset: found.offset,
                    hops: found.hops,
                }),
                Err(code) => Err(code),
            };
            assert_eq!(
                ours, wanted,
                "{:?}, {list:?}, position {position}",
                self.geometry
            );
            self.lookups += 1;
        }

        /// The oracle's visit up to the first number not below the count, which ours does not hand over.
        fn visit(&mut self, list: &List) {
            let image = &self.oracle.device.image;
            let ours = visit(self.geometry, image, list.head(), list.size);
            let (code, mut blocks) = self.oracle.traverse(list.head(), list.size);
            let count = self.geometry.block_count;
            let beyond = blocks.iter().position(|&block| block >= count);
            assert!(code == 0 || beyond.is_some());
            blocks.truncate(beyond.unwrap_or(blocks.len()));
            let wanted = if beyond.is_some() { -84 } else { 0 };
            assert_eq!(ours, (wanted, blocks), "{:?}, {list:?}", self.geometry);
        }

        /// The list check as the plain one; answers whether the list is sound.
        #[cfg(feature = "check")]
        fn check(&mut self, list: &List) -> bool {
            let image = &self.oracle.device.image;
            let wanted = compare::model::fault(self.geometry, image, list.head(), list.size);
            let ours = tidmaruls::raw::check(self.geometry, image, list.head(), list.size);
            assert_eq!(ours, Ok(wanted), "{:?}, {list:?}", self.geometry);
            wanted.is_none()
        }

        #[cfg(not(feature = "check"))]
        fn check(&mut self, _: &List) -> bool {
            true
        }

        /// A sound list: every position if it is small, else the borders of its blocks and random ones.
        fn sound(&mut self, list: &List, random: &mut Random) {
            let falling: Vec<u32> = list.blocks.iter().rev().copied().collect();
            let image = &self.oracle.device.image;
            let visited = visit(self.geometry, image, list.head(), list.size);
            assert_eq!(visited, (0, falling));
            assert!(self.check(list));
            self.visit(list);
            let size = list.size;
            if size <= 2500 {
                (0..size).for_each(|position| self.lookup(list, position));
                return;
            }
            let blocks = list.blocks.len() as u32;
            layout::borders(self.geometry.block_size, blocks, 1)
                .filter(|&position| position < size)
                .for_each(|position| self.lookup(list, position));
            (0..500).for_each(|_| self.lookup(list, random.below(size)));
        }

        /// Damaged copies; the card is as it was afterwards.
        fn damaged(&mut self, list: &List, copies: u32, random: &mut Random) {
            let whole = self.oracle.device.image.clone();
            for _ in 0..copies {
                damage(&mut self.oracle.device.image, self.geometry, list, random);
                self.check(list);
                self.visit(list);
                for _ in 0..60 {
                    let position = random.below(list.size);
                    self.lookup(list, position);
                }
                self.oracle.device.image.copy_from_slice(&whole);
            }
        }
    }

    /// One list of this size on a card of its own; answers lookups, and those where the oracle tested nothing.
    fn list_of(block_size: u32, size: u32, random: &mut Random) -> (u64, u64) {
        let needed = tidmaruls::raw::index(block_size, size - 1)
            .expect("a size")
            .index
            + 1;
        let count = needed + random.below(2 * needed + 4);
        let mut bench = Bench::new(block_size, count.min(16_777_216 / block_size));
        let list = grown::grow(&mut bench.oracle, size, random);
        bench.sound(&list, random);
        bench.damaged(&list, 6, random);
        (bench.lookups, bench.untested)
    }

    #[test]
    fn around_every_border() {
        let mut random = Random::new(10);
        let (mut lookups, mut untested) = (0, 0);
        for (block_size, blocks) in [(128, 40), (132, 40), (512, 20), (4096, 10)] {
            let sizes = (1..=blocks).map(|index| layout::start(block_size, index) as u32);
            for size in sizes.flat_map(|border| border - 2..=border + 2) {
                let (more, most) = list_of(block_size, size, &mut random);
                lookups += more;
                untested += most;
            }
        }
        println!("lists: {lookups} lookups around borders, {untested} of them a number that the oracle leaves untested");
        assert!(lookups >= 200_000 && untested > 0);
    }

    #[test]
    fn long_lists() {
        let mut random = Random::new(11);
        let mut lookups = 0;
        for block_size in [128, 132, 512, 4096] {
            for _ in 0..4 {
                let most = (block_size * 1500).min(3_000_000);
                let size = random.between(most / 4, most);
                lookups += list_of(block_size, size, &mut random).0;
            }
        }
        println!("lists: {lookups} lookups in long lists");
    }

    /// The rules' own counts: 8 to 0 one hop, 7 to 0 three, 7 to 1 four, 3 to 1 two.
    #[test]
    fn worked_hops() {
        let mut random = Random::new(12);
        let mut bench = Bench::new(128, 30);
        let list = grown::grow(&mut bench.oracle, 1000, &mut random);
        for (from, to, hops) in [(8, 0, 1), (7, 0, 3), (7, 1, 4), (3, 1, 2)] {
            let size = layout::start(128, from) as u32 + 1;
            let position = layout::start(128, to) as u32;
            let head = list.blocks[from as usize];
            let image = &bench.oracle.device.image;
            let found = find(bench.geometry, image, head, size, position).expect("sound");
            assert_eq!((found.block, found.hops), (list.blocks[to as usize], hops));
        }
    }
}

#[cfg(not(oracle))]
#[test]
fn lists_as_the_oracle() {
    compare::skipped();
}
