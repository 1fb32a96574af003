//! How fast the library is beside the Rust that it follows: both run in one process, in turns, and the medians are compared.
//!
//! `cargo run --release -p bench [RUNS]`. The oracle's device is plain bytes without caches, as the library's card is.
//! `bench one CALL BLOCK_SIZE LENGTH` makes one call alone, for `counts`.

mod growth;
#[cfg_attr(not(oracle), allow(dead_code))]
mod measure;
mod one;
mod plain;
#[cfg(oracle)]
mod ratios;
#[cfg_attr(not(oracle), allow(dead_code))]
mod work;
#[cfg(oracle)]
mod writing;

use std::ops::RangeInclusive;

/// The number that a word says.
fn number(word: &str, what: &str, within: RangeInclusive<usize>) -> Result<usize, String> {
    let (least, most) = (within.start(), within.end());
    match word.parse() {
        Ok(number) if within.contains(&number) => Ok(number),
        _ => Err(format!(
            "`{word}` is no {what}: take a whole number from {least} to {most}."
        )),
    }
}

fn all(runs: usize) {
    println!("Medians of {runs} runs, each side in turn. Lower is faster; a ratio below 1 is in the library's favour.\n");
    #[cfg(oracle)]
    ratios::print(runs);
    #[cfg(not(oracle))]
    println!("oracle: not found at {}, ratios skipped\n", oracle::FOLDER);
    growth::print(runs);
}

/// Does what the words ask for, or says why not.
fn asked(words: &[&str]) -> Result<(), String> {
    match words {
        [] => all(15),
        ["one", call, block_size, length] => {
            let block_size = number(block_size, "block size", 128..=65_536)?;
            let length = number(length, "length", 1..=16 * work::MIB)?;
            one::make(call, block_size as u32, length)?;
        }
        ["one", ..] => return Err("`one` takes three words: name a call (read, write or check), a block size and a file's length in bytes.".into()),
        [runs] => all(number(runs, "number of runs", 1..=1_000_000)?),
        _ => return Err("Too many words: give the number of runs alone, or nothing for 15.".into()),
    }
    Ok(())
}

fn main() {
    let words: Vec<String> = std::env::args().skip(1).collect();
    let words: Vec<&str> = words.iter().map(String::as_str).collect();
    if let Err(why) = asked(&words) {
        eprintln!("bench: {why}");
        std::process::exit(2);
    }
}
