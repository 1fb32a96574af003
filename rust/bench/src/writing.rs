//! Writing beside the Rust's growth.

use crate::measure::{in_turn, once};
use crate::ratios::row;
use crate::work::write;
use oracle::{File, Oracle};
use tidmaruls::Geometry;

/// The Rust's growth with the same bytes programmed: all at once, or in pieces, each a growth of its own.
fn grown(mut oracle: Oracle, data: &[u8], piece: usize) -> Oracle {
    let (mut head, mut size) = (tidmaruls::NULL, 0);
    let mut rest = data;
    while !rest.is_empty() {
        if piece < data.len() {
            oracle.files = vec![(head, size)];
            oracle.ckpoint();
        }
        let (mut part, after) = rest.split_at(piece.min(rest.len()));
        while !part.is_empty() {
            let (block, offset) = oracle.extend(head, size).expect("room to grow");
            let room = (oracle.device.block_size - offset) as usize;
            let (now, later) = part.split_at(room.min(part.len()));
            assert!(oracle.program(block, offset, now));
            (head, size, part) = (block, size + now.len() as u32, later);
        }
        rest = after;
    }
    oracle.files = vec![(head, size)];
    oracle
}

fn holds(oracle: &mut Oracle, data: &[u8]) -> bool {
    let (head, size) = oracle.files[0];
    let mut read = vec![0; data.len()];
    oracle.read(&mut File::open(head, size, 0), &mut read) == size as i32 && read == data
}

/// Times of a file written into a fresh card in pieces of this length.
fn times(runs: usize, geometry: Geometry, data: &[u8], piece: usize) -> (f64, f64) {
    let health = geometry.good_health();
    let blank = || Oracle::new(geometry.block_size(), geometry.block_count(), 64, 0);
    assert!(holds(&mut grown(blank(), data, piece), data));
    let ours = |mut image: Vec<u8>| (write(geometry, &mut image, &health, data, piece), image);
    in_turn(
        runs,
        || once(|| geometry.blank_image(), ours),
        || once(blank, |oracle| grown(oracle, data, piece)),
    )
}

/// A write into a fresh card.
pub fn writes(runs: usize, geometry: Geometry, data: &[u8]) {
    let name = format!(
        "(c) write 4 MiB into a fresh card, B {}: lfs_ctz_extend",
        geometry.block_size()
    );
    row(&name, times(runs, geometry, data, data.len()), Some(1.1));
}

/// Appends of 64 bytes, most of which copy an incomplete block.
pub fn appends(runs: usize, geometry: Geometry, data: &[u8]) {
    let times = times(runs, geometry, data, 64);
    let each = (data.len() / 64) as f64;
    let name = format!(
        "(d) append 64 bytes, B {}, {} KiB card: lfs_ctz_extend",
        geometry.block_size(),
        geometry.image_length() / 1024
    );
    row(&name, (times.0 / each, times.1 / each), Some(0.5));
}
