//! Write against the oracle's own write, from a fresh window and with room enough: the list and the whole image.
#![cfg(feature = "store")]

#[cfg(oracle)]
mod with_oracle {
    use compare::cards::{self, BLOCK_SIZES};
    use compare::plain::good_unlisted;
    use compare::{both, grown, layout, Random};
    use oracle::{File, Oracle};
    use tidmaruls::raw::{Card, Geometry};

    /// A card with some lists grown by the oracle as files 0, 1, .., a fresh window, and some blocks that refuse erase or program.
    fn grown_card(geometry: Geometry, random: &mut Random) -> (Card, Oracle) {
        let (block_size, block_count) = (geometry.block_size, geometry.block_count);
        let (lookahead, start) = (cards::lookahead(random), random.below(block_count));
        let mut card = cards::blank(geometry, lookahead, start);
        let mut oracle = Oracle::new(block_size, block_count, lookahead, start);
        let share = random.between(3, 30);
        for health in &mut oracle.device.health {
            *health = random.one_in(share) as u8;
        }
        let mut files = Vec::new();
        for number in 0..random.between(1, 4) {
            let most = block_count / 8 * (block_size - 8);
            let shift = random.below(8);
            let size = random.between(0, most >> shift);
            let list = grown::grow(&mut oracle, size, random);
            oracle.files.push((list.head(), size));
            files.push((number, size, list.head()));
        }
        card.table = cards::table(&files);
        card.image.copy_from_slice(&oracle.device.image);
        card.health.copy_from_slice(&oracle.device.health);
        // no list has a block that refuses its erase: either fault may stand there
        for health in card.health.iter_mut().filter(|health| **health == 1) {
            *health = random.pick(&[1, 2]);
        }
        let oracle = both::oracle_on(&card);
        (card, oracle)
    }

    /// One write on both sides; false where there may not be room.
    fn compare(card: &mut Card, oracle: &mut Oracle, random: &mut Random) -> bool {
        let geometry = card.geometry;
        let entry = card.table.files[random.below(card.table.count) as usize];
        let most = 4 * geometry.block_size;
        let past = random.below(most);
        let position = random.between(0, entry.size + past);
        let length = random.between(1, most);
        let last = (position + length).max(entry.size) - 1;
        let needed = layout::index(geometry.block_size, last) + 1;
        if needed > good_unlisted(card) {
            return false;
        }
        let data = random.bytes(length as usize);
        let mut file = File::open(entry.head, entry.size, position);
        assert_eq!(oracle.write(&mut file, &data), length as i32);
        assert_eq!(oracle.flush(&mut file), 0);
        assert_eq!(card.write(entry.number, position, &data), Ok(()));
        let written = card.table.files[entry.number as usize];
        let about = (geometry, entry, position, length);
        assert_eq!((written.head, written.size), (file.head(), file.size()));
        assert!(card.image == oracle.device.image, "{about:?}");
        true
    }

    #[test]
    fn as_the_oracle_writes() {
        let mut random = Random::new(80);
        let mut writes = 0;
        for turn in 0..3000 {
            let block_size = BLOCK_SIZES[turn % BLOCK_SIZES.len()];
            let high = (400_000 / block_size).clamp(12, 400);
            let geometry = cards::geometry(block_size, random.between(10, high));
            let (mut card, mut oracle) = grown_card(geometry, &mut random);
            writes += compare(&mut card, &mut oracle, &mut random) as u32;
        }
        println!("write: {writes} writes as the oracle's own");
        assert!(writes >= 2000);
    }
}

#[cfg(not(oracle))]
#[test]
fn write_as_the_oracle() {
    compare::skipped();
}
