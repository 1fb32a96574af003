//! Cost against size, beside the plainest program that touches the same bytes: growth that both show is the memory's.

use crate::measure::{in_turn, repeated};
use crate::plain::Plain;
use crate::work::{bytes, sized, write, written, MIB};
use std::cell::RefCell;
use tidmaruls::{Geometry, Table, View};

/// A card with file 1.
struct Filled {
    geometry: Geometry,
    data: Vec<u8>,
    image: Vec<u8>,
    table: Table,
}

impl Filled {
    fn new(block_size: u32, length: usize) -> Filled {
        let (geometry, length) = sized(block_size, length);
        let data = bytes(length);
        let (image, table) = written(geometry, &data);
        Filled {
            geometry,
            data,
            image,
            table,
        }
    }

    fn view(&self) -> View<'_> {
        View::new(self.geometry, &self.image, &self.table).expect("a card")
    }

    /// Times of a call and of the plain program; both are made often where the file is small, to outlast the clock's own time.
    fn beside<T, U>(&self, runs: usize, ours: impl Fn() -> T, plain: impl Fn() -> U) -> (f64, f64) {
        let times = 16 * MIB / self.data.len();
        in_turn(runs, || repeated(times, &ours), || repeated(times, &plain))
    }

    /// Both read into the same buffer.
    fn reads(&self, runs: usize, plain: &Plain) -> (f64, f64) {
        let (view, buffer) = (self.view(), RefCell::new(vec![0; self.data.len()]));
        let ours = || view.read(1, 0, &mut buffer.borrow_mut());
        assert_eq!(ours(), Ok(self.data.len()));
        assert!(buffer.replace(vec![0; self.data.len()]) == self.data);
        let other = || plain.read(&self.image, &mut buffer.borrow_mut());
        let times = self.beside(runs, ours, other);
        assert!(*buffer.borrow() == self.data);
        times
    }

    /// Both write into the same card, over what the other left.
    fn writes(&self, runs: usize, plain: &Plain) -> (f64, f64) {
        let health = self.geometry.good_health();
        let image = RefCell::new(self.image.clone());
        let (data, all) = (&self.data, self.data.len());
        let ours = || write(self.geometry, &mut image.borrow_mut(), &health, data, all);
        let other = || plain.write(&mut image.borrow_mut(), data);
        let times = self.beside(runs, ours, other);
        other();
        let mut read = vec![0; all];
        plain.read(&image.borrow(), &mut read);
        assert!(read == *data);
        ours();
        assert!(*image.borrow() == self.image);
        times
    }

    fn checks(&self, runs: usize, plain: &Plain) -> (f64, f64) {
        let view = self.view();
        let first = view.find(1, 0).expect("a sound list").expect("bytes");
        assert_eq!(view.check(1), Ok(None));
        assert_eq!(plain.chase(&self.image).0, first.block);
        self.beside(runs, || view.check(1), || plain.chase(&self.image))
    }
}

/// The library's time, the plain program's and their ratio, the times for one of so many bytes or blocks.
fn shown(times: (f64, f64), units: usize, decimals: usize) -> String {
    let (ours, plain) = (times.0 / units as f64, times.1 / units as f64);
    let ratio = ours / plain;
    format!("{ours:>11.decimals$} {plain:>7.decimals$} {ratio:>6.2}")
}

fn row(runs: usize, block_size: u32, length: usize) {
    let filled = Filled::new(block_size, length);
    let plain = Plain::of(filled.view());
    let (length, blocks) = (filled.data.len(), plain.blocks());
    println!(
        "{block_size:>6} {:>9} {blocks:>7}{}{}{}",
        format!("{} KiB", length / 1024),
        shown(filled.reads(runs, &plain), length, 3),
        shown(filled.writes(runs, &plain), length, 3),
        shown(filled.checks(runs, &plain), blocks, 1)
    );
}

pub fn print(runs: usize) {
    println!("(e) cost against size, beside the plainest program that touches the same bytes: a ratio that stays level says");
    println!("    that the growth is the memory's; rust/bench/counts prints the instructions, which no cache changes");
    println!(
        "{:>24}{:>26}{:>26}{:>26}",
        "", "read, ns/byte", "write, ns/byte", "check, ns/block"
    );
    let titles = format!("{:>11} {:>7} {:>6}", "library", "plain", "ratio");
    println!(
        "{:>6} {:>9} {:>7}{}",
        "B",
        "file",
        "blocks",
        titles.repeat(3)
    );
    for block_size in [512, 4096] {
        for length in [MIB / 16, MIB / 4, MIB, 4 * MIB, 16 * MIB] {
            row(runs, block_size, length);
        }
    }
}
