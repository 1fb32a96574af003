//! Read and stretch against the oracle's own read.
#![cfg(feature = "read")]

#[cfg(oracle)]
mod with_oracle {
    use compare::cards::{self, BLOCK_SIZES};
    use compare::{both, grown, layout, Random};
    use oracle::{File, Oracle};
    use tidmaruls::raw::{find, Card};

    /// A card with one list grown by the oracle, as file 9.
    fn grown_card(block_size: u32, random: &mut Random) -> (Card, Oracle) {
        let blocks = random.between(1, (600_000 / block_size).clamp(2, 300));
        let size = random.between(1, blocks * (block_size - 8));
        let block_count = (blocks + random.between(2, 60)).min(16_777_216 / block_size);
        let mut oracle = Oracle::new(block_size, block_count, 64, 0);
        let list = grown::grow(&mut oracle, size, random);
        let mut card = cards::blank(cards::geometry(block_size, block_count), 8, 0);
        card.image.copy_from_slice(&oracle.device.image);
        card.table = cards::table(&[(9, size, list.head())]);
        (card, oracle)
    }

    fn compare(card: &Card, oracle: &mut Oracle, position: u32, length: u32) {
        let entry = card.table.files[0];
        let (mut ours, mut theirs) = (vec![0xA5; length as usize], vec![0xA5; length as usize]);
        let read = card.read(9, position, &mut ours);
        let mut file = File::open(entry.head, entry.size, position);
        let wanted = oracle.read(&mut file, &mut theirs);
        assert_eq!(read, Ok(wanted as u32));
        assert!(ours == theirs, "{entry:?}, position {position}");
        let stretch = card.stretch(9, position).expect("a sound list");
        let place = tidmaruls::raw::index(card.geometry.block_size, position).expect("served");
        let rest = entry.size.saturating_sub(position);
        let to_the_end = (card.geometry.block_size - place.offset).min(rest);
        assert_eq!(stretch.len() as u32, to_the_end);
        let both = stretch.len().min(ours.len());
        assert!(stretch[..both] == ours[..both]);
    }

    #[test]
    fn as_the_oracle_reads() {
        let mut random = Random::new(50);
        let mut reads = 0;
        for turn in 0..500 {
            let block_size = BLOCK_SIZES[turn % BLOCK_SIZES.len()];
            let (card, mut oracle) = grown_card(block_size, &mut random);
            let size = card.table.files[0].size;
            for _ in 0..100 {
                let position = random.below(size + size / 8 + 2);
                let length = random.below(size + 10) >> random.below(20);
                compare(&card, &mut oracle, position, length);
                reads += 1;
            }
            compare(&card, &mut oracle, 0, size + 1);
        }
        println!("read: {reads} reads and stretches");
    }

    /// A card of noise with one list in all of its blocks, in any order, as file 9; and the list.
    fn laid_card(block_size: u32, blocks: u32, random: &mut Random) -> (Card, cards::List) {
        let mut card = cards::blank(cards::geometry(block_size, blocks), 8, 0);
        let noise = cards::noise(card.image.len(), blocks, random);
        card.image.copy_from_slice(&noise);
        let order = cards::shuffled(blocks, random);
        let list = cards::lay(&mut card.image, block_size, order, random);
        card.table = cards::table(&[(9, list.size, list.head())]);
        (card, list)
    }

    /// Reads that begin and end around the borders of runs of 1,024 blocks, which are found together.
    #[test]
    fn runs_of_blocks() {
        let mut random = Random::new(51);
        let (card, _) = laid_card(128, 4_200, &mut random);
        let mut oracle = both::oracle_on(&card);
        let mut reads = 0;
        for first in [0, 1, 2, 1_022, 1_023, 1_024, 1_025, 2_047, 2_048] {
            for more in [
                0, 1, 2, 1_022, 1_023, 1_024, 1_025, 1_026, 2_047, 2_048, 2_049,
            ] {
                let position = layout::start(128, first) as u32 + random.below(100);
                let end = layout::start(128, first + more) as u32 + random.between(100, 110);
                compare(&card, &mut oracle, position, end - position);
                reads += 1;
            }
        }
        println!("read: {reads} reads around runs of blocks");
    }

    /// What lookups give, block by block: the bytes, or the first refusal.
    fn by_lookups(card: &Card, position: u32, length: u32) -> Result<Vec<u8>, i32> {
        let (entry, block_size) = (card.table.files[0], card.geometry.block_size);
        let (mut at, end) = (position, entry.size.min(position + length));
        let mut bytes = Vec::new();
        while at < end {
            let found = find(card.geometry, &card.image, entry.head, entry.size, at)?;
            let part = (block_size - found.offset).min(end - at);
            let place = (found.block * block_size + found.offset) as usize;
            bytes.extend_from_slice(&card.image[place..place + part as usize]);
            at += part;
        }
        Ok(bytes)
    }

    /// A damaged list is read as its blocks are looked up one by one, and on a refusal the buffer stays.
    #[test]
    fn damaged_lists_by_their_lookups() {
        let mut random = Random::new(52);
        let (mut given, mut refused) = (0, 0);
        for turn in 0..400 {
            let blocks = random.between(2, 2_600) >> random.below(9);
            let (mut card, list) = laid_card([128, 132][turn % 2], blocks.max(2), &mut random);
            for _ in 0..1 + turn % 6 {
                cards::damage(&mut card.image, card.geometry, &list, &mut random);
            }
            for _ in 0..25 {
                let position = random.below(list.size);
                let length = random.below(list.size + 10) >> random.below(12);
                let mut buffer = vec![0xA5; length as usize];
                let read = card.read(9, position, &mut buffer);
                match by_lookups(&card, position, length) {
                    Ok(bytes) => {
                        assert_eq!(read, Ok(bytes.len() as u32));
                        assert!(buffer.starts_with(&bytes));
                        assert!(buffer[bytes.len()..].iter().all(|&byte| byte == 0xA5));
                        given += 1;
                    }
                    Err(code) => {
                        assert_eq!(read, Err(code));
                        assert!(buffer.iter().all(|&byte| byte == 0xA5));
                        refused += 1;
                    }
                }
            }
        }
        assert!(given > 500 && refused > 500, "{given}, {refused}");
        println!("read: {given} reads of damaged lists given, {refused} refused");
    }
}

#[cfg(not(oracle))]
#[test]
fn read_as_the_oracle() {
    compare::skipped();
}
