//! The library beside the Rust, and beside a plain copy.

use crate::measure::{in_turn, once, shown, time};
use crate::work::{bytes, geometry, written, MIB};
use crate::writing::{appends, writes};
use numbers::Random;
use oracle::{File, Oracle};
use tidmaruls::{Geometry, List, View};

/// A row of the table; `target` is the ratio to stay within.
pub fn row(name: &str, times: (f64, f64), target: Option<f64>) {
    let ratio = times.0 / times.1;
    let verdict = match target {
        None => String::new(),
        Some(target) if ratio <= target => format!("{target:>6.1}   met"),
        Some(target) => format!("{target:>6.1}   MISSED"),
    };
    println!(
        "{name:<58} {:>10} {:>10} {ratio:>7.2} {verdict}",
        shown(times.0),
        shown(times.1)
    );
}

/// The oracle with this image.
fn oracle(geometry: Geometry, image: &[u8]) -> Oracle {
    let mut oracle = Oracle::new(geometry.block_size(), geometry.block_count(), 64, 0);
    oracle.device.image.copy_from_slice(image);
    oracle
}

/// One read of the whole file.
fn reads(runs: usize, geometry: Geometry, data: &[u8]) {
    let (image, table) = written(geometry, data);
    let view = View::new(geometry, &image, &table).expect("a card");
    let List { head, size } = table.list(1).expect("written");
    let mut oracle = oracle(geometry, &image);
    let (mut ours, mut theirs) = (vec![0; data.len()], vec![0; data.len()]);
    let times = in_turn(
        runs,
        || time(|| view.read(1, 0, &mut ours)),
        || {
            once(
                || File::open(head, size, 0),
                |mut file| oracle.read(&mut file, &mut theirs),
            )
        },
    );
    assert!(ours == data && theirs == data);
    let name = format!("(a) read 4 MiB at once, B {}", geometry.block_size());
    row(&format!("{name}: lfs_file_flushedread"), times, Some(1.0));
    let times = in_turn(
        runs,
        || time(|| view.read(1, 0, &mut ours)),
        || time(|| theirs.copy_from_slice(std::hint::black_box(data))),
    );
    row(&format!("{name}: copy_from_slice"), times, None);
}

/// 64 bytes by the Rust's find and a copy from its device.
fn find_and_copy(oracle: &mut Oracle, list: List, position: u32, to: &mut [u8]) {
    let mut done = 0;
    while done < to.len() {
        let found = oracle
            .find(list.head, list.size, position + done as u32)
            .expect("a sound list");
        let length = (to.len() - done).min((oracle.device.block_size - found.offset) as usize);
        let read = oracle
            .device
            .read(found.block, found.offset, &mut to[done..done + length]);
        assert!(read);
        done += length;
    }
}

/// The time of a read at each position.
fn at_each(positions: &[u32], mut read: impl FnMut(u32) -> [u8; 64]) -> f64 {
    let first = |&position| read(position)[0] as u64;
    time(|| positions.iter().map(first).sum::<u64>())
}

/// Reads of 64 bytes at random positions.
fn random_reads(runs: usize, geometry: Geometry, data: &[u8]) {
    let (image, table) = written(geometry, data);
    let view = View::new(geometry, &image, &table).expect("a card");
    let list = table.list(1).expect("written");
    let mut oracle = oracle(geometry, &image);
    let mut random = Random::new(1);
    let next = |_| random.below(data.len() as u32 - 64);
    let positions: Vec<u32> = (0..20_000).map(next).collect();
    let (mut ours, mut theirs) = ([0; 64], [0; 64]);
    let mut mine = |position| {
        view.read(1, position, &mut ours).expect("a sound list");
        ours
    };
    let mut other = |position| {
        find_and_copy(&mut oracle, list, position, &mut theirs);
        theirs
    };
    assert!(positions
        .iter()
        .all(|&position| mine(position) == other(position)));
    let times = in_turn(
        runs,
        || at_each(&positions, &mut mine),
        || at_each(&positions, &mut other),
    );
    let each = positions.len() as f64;
    let name = format!(
        "(b) read 64 bytes anywhere in 4 MiB, B {}: find and copy",
        geometry.block_size()
    );
    row(&name, (times.0 / each, times.1 / each), Some(2.0));
}

pub fn print(runs: usize) {
    println!(
        "{:<58} {:>10} {:>10} {:>7} {:>6}",
        "", "library", "other", "ratio", "target"
    );
    let data = bytes(4 * MIB);
    for block_size in [512, 4096] {
        reads(runs, geometry(block_size, 8 * MIB), &data);
    }
    for block_size in [512, 4096] {
        random_reads(runs, geometry(block_size, 8 * MIB), &data);
    }
    for block_size in [512, 4096] {
        writes(runs, geometry(block_size, 8 * MIB), &data);
    }
    // Every call that writes tests all health bytes, so an append also costs a little for each block of the card.
    for length in [MIB / 4, 8 * MIB] {
        for block_size in [512, 4096] {
            appends(runs, geometry(block_size, length), &data[..64 * 1024]);
        }
    }
    println!();
}
