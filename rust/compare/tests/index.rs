//! Index and offset of a position, against the oracle and against the layout rule.
#![cfg(feature = "index")]

use compare::Random;

/// Block sizes below 128 are refused, whatever the position.
#[test]
fn small_blocks_are_refused() {
    let mut random = Random::new(2);
    for block_size in 0..128 {
        for position in [0, 1, 127, 128, u32::MAX, random.number(), random.number()] {
            assert_eq!(tidmaruls::raw::index(block_size, position), Err(-22));
        }
    }
}

#[cfg(oracle)]
mod with_oracle {
    use compare::{layout, Random};
    use oracle::Oracle;

    /// Compares each position; answers how many there were.
    fn compare(block_size: u32, positions: impl Iterator<Item = u32>) -> u64 {
        let mut oracle = Oracle::bare(block_size);
        let mut compared = 0;
        for position in positions {
            let place = tidmaruls::raw::index(block_size, position).expect("served");
            let (index, offset) = (place.index, place.offset);
            assert!(
                oracle.index(position) == (index, offset)
                    && layout::is_place(block_size, position, index, offset),
                "block size {block_size}, position {position}: {place:?}, oracle {:?}",
                oracle.index(position)
            );
            compared += 1;
        }
        compared
    }

    /// Borders of the first 4,096 blocks, and random positions.
    fn borders_and_random(block_size: u32, random: &mut Random) -> u64 {
        let positions = (0..2000).map(|_| random.number());
        compare(block_size, layout::borders(block_size, 4096, 8)) + compare(block_size, positions)
    }

    #[test]
    fn every_size_to_1024() {
        let mut random = Random::new(3);
        let pairs: u64 = (128..=1024)
            .map(|size| borders_and_random(size, &mut random))
            .sum();
        println!("index: {pairs} pairs, block sizes 128 to 1,024");
        assert!(pairs >= 10_000_000);
    }

    #[test]
    fn large_and_random_sizes() {
        let mut random = Random::new(4);
        let mut pairs: u64 = (7..32)
            .map(|power| borders_and_random(1 << power, &mut random))
            .sum();
        for _ in 0..500 {
            let size = random.number() >> random.below(25);
            pairs += borders_and_random(size.max(128), &mut random);
        }
        println!("index: {pairs} pairs, powers of two to 2^31 and random block sizes");
        assert!(pairs >= 10_000_000);
    }
}

#[cfg(not(oracle))]
#[test]
fn index_as_the_oracle() {
    compare::skipped();
}
