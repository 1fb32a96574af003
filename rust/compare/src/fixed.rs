//! The fixed list of the oracle's answers, kept in fixed/ so that it can be checked where there is no oracle.
//!
//! `cargo run -p compare --bin fixed` writes it anew.

use std::path::PathBuf;

/// A position and its place, as the oracle tells it.
#[derive(Clone, Copy, PartialEq, Eq, Debug)]
pub struct Row {
    pub block_size: u32,
    pub position: u32,
    pub index: u32,
    pub offset: u32,
}

/// Where the list of index rows is kept.
pub fn index_file() -> PathBuf {
    PathBuf::from(env!("CARGO_MANIFEST_DIR")).join("fixed/index.txt")
}

/// The rows of a text: four numbers a line; lines that start with # are for the reader.
pub fn parse(text: &str) -> Vec<Row> {
    let number = |word: &str| word.parse().expect("a 32-bit number");
    text.lines()
        .filter(|line| !line.starts_with('#'))
        .map(|line| line.split(' ').map(number).collect::<Vec<u32>>())
        .map(|row| Row {
            block_size: row[0],
            position: row[1],
            index: row[2],
            offset: row[3],
        })
        .collect()
}

/// The text of some rows, as `parse` reads it.
pub fn print(rows: &[Row]) -> String {
    let head = "# block size, position, index, offset: the oracle's answers\n".to_string();
    rows.iter().fold(head, |text, row| {
        text + &format!(
            "{} {} {} {}\n",
            row.block_size, row.position, row.index, row.offset
        )
    })
}

#[cfg(oracle)]
pub use made::index_rows;

#[cfg(oracle)]
mod made {
    use super::Row;
    use crate::{layout, Random};
    use oracle::Oracle;

    const SIZES: [u32; 16] = [
        128,
        129,
        132,
        255,
        256,
        500,
        512,
        1024,
        1100,
        4096,
        16384,
        65535,
        65536,
        1 << 20,
        1 << 31,
        u32::MAX,
    ];

    /// The oracle's answers: for each size both sides of the first borders, random positions and the last one.
    pub fn index_rows() -> Vec<Row> {
        let mut random = Random::new(1);
        let mut rows = Vec::new();
        for block_size in SIZES {
            let mut positions: Vec<u32> = layout::borders(block_size, 17, 1).collect();
            positions.extend((0..12).map(|_| random.number()));
            positions.push(u32::MAX);
            positions.sort();
            positions.dedup();
            let mut oracle = Oracle::bare(block_size);
            rows.extend(positions.into_iter().map(|position| {
                let (index, offset) = oracle.index(position);
                Row {
                    block_size,
                    position,
                    index,
                    offset,
                }
            }));
        }
        rows
    }
}
