//! Cards and bytes to work on.

use numbers::Random;
use tidmaruls::{Card, Geometry, Table};

pub const MIB: usize = 1 << 20;

/// A file's bytes: the same in every run, and not all alike.
pub fn bytes(length: usize) -> Vec<u8> {
    Random::new(0).bytes(length)
}

/// A card of this many bytes.
pub fn geometry(block_size: u32, length: usize) -> Geometry {
    Geometry::new(block_size, (length / block_size as usize) as u32).expect("a card that is served")
}

/// The bytes that a block of a list gives to pointers.
pub fn pointer_bytes(index: u32) -> usize {
    match index {
        0 => 0,
        _ => 4 * (index.trailing_zeros() as usize + 1),
    }
}

/// A card for a file of this length, with room to spare as far as cards go; and the length, less what a full card does not hold.
pub fn sized(block_size: u32, length: usize) -> (Geometry, usize) {
    let size = block_size as usize;
    let needed = (length + length / 8).div_ceil(size);
    let count = needed.min(65_536).min(16 * MIB / size);
    let pointers: usize = (0..count as u32).map(pointer_bytes).sum();
    let geometry = geometry(block_size, count * size);
    (geometry, length.min(geometry.image_length() - pointers))
}

/// An image with file 1, and its table.
pub fn written(geometry: Geometry, data: &[u8]) -> (Vec<u8>, Table) {
    let (mut image, health) = (geometry.blank_image(), geometry.good_health());
    let table = write(geometry, &mut image, &health, data, data.len());
    (image, table)
}

/// Writes file 1 into a card without files, in pieces of this length, each at the end; the table then.
pub fn write(
    geometry: Geometry,
    image: &mut [u8],
    health: &[u8],
    data: &[u8],
    length: usize,
) -> Table {
    let mut card = Card::new(geometry, image, health).expect("a card");
    card.create(1).expect("a free slot");
    for (place, piece) in data.chunks(length).enumerate() {
        let written = card.write(1, (place * length) as u32, piece);
        written.expect("room for the file");
    }
    *card.table()
}
