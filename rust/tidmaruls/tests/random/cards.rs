//! What a small card holds: image, files and window, within the rules but for a few numbers.

use numbers::Random;
use tidmaruls::ffi::{Entry, Geometry, Table, Window};
use tidmaruls::{FILE_MAX, NULL};

/// Bytes of a card: erased, noise, or numbers that are mostly blocks of it.
pub fn image(length: usize, count: u32, random: &mut Random) -> Vec<u8> {
    let mut bytes = match random.below(4) {
        0 => vec![0xFF; length],
        1 => random.bytes(length),
        _ => Vec::new(),
    };
    while bytes.len() < length {
        let number = match random.below(30) {
            0 => random.number(),
            1 => count,
            _ => random.below(count),
        };
        bytes.extend_from_slice(&number.to_le_bytes());
    }
    bytes.truncate(length);
    bytes
}

/// A size that mostly fits the card; a very large one is rare, as a visit may well walk all of it.
pub fn size(length: u32, random: &mut Random) -> u32 {
    match random.below(400) {
        0 => random.number() >> 1,
        1 => FILE_MAX + random.below(2),
        2..=60 => 0,
        _ => random.below(length + length / 4 + 2),
    }
}

fn entry(number: u32, geometry: Geometry, random: &mut Random) -> Entry {
    let size = size(geometry.block_size * geometry.block_count, random).min(FILE_MAX);
    let head = match size {
        0 => NULL,
        _ if random.one_in(20) => geometry.block_count,
        _ => random.below(geometry.block_count),
    };
    Entry { number, size, head }
}

pub fn table(geometry: Geometry, random: &mut Random) -> Table {
    let mut table = Table::EMPTY;
    let most = random.pick(&[0, 0, 3, 31, 32]);
    let mut number = random.below(4);
    while table.count < most {
        table.files[table.count as usize] = entry(number, geometry, random);
        table.count += 1;
        number += 1 + random.below(2);
    }
    table
}

pub fn window(count: u32, lookahead: u32, random: &mut Random) -> Window {
    let mut window = Window {
        map: [0; 64],
        start: random.below(count),
        next: 0,
        size: 0,
        ckpoint: count,
    };
    if random.one_in(2) {
        window.size = random.below(count.min(8 * lookahead) + 1);
        window.next = random.below(window.size + 1);
        let least = window.size - window.next;
        window.ckpoint = least + random.below(count - least + 1);
        window.map.copy_from_slice(&random.bytes(64));
    }
    window
}
