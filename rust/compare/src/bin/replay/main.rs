//! Writes the list that the program crates/replay goes through anew from the oracle; to another file where one is named.

#[cfg(oracle)]
mod answers;
#[cfg(oracle)]
mod questions;

#[cfg(oracle)]
fn list() -> Vec<u8> {
    let mut answers = answers::Answers::default();
    for row in compare::fixed::index_rows() {
        let answer = Ok([row.index, row.offset, 0]);
        answers.record(answers::INDEX, answer, &[row.block_size, row.position]);
    }
    let mut random = compare::Random::new(50);
    questions::lists(&mut answers, &mut random);
    questions::allocations(&mut answers, &mut random);
    questions::growths(&mut answers, &mut random);
    questions::seeks(&mut answers, &mut random);
    answers.bytes()
}

#[cfg(oracle)]
fn main() {
    let stored = concat!(
        env!("CARGO_MANIFEST_DIR"),
        "/../../crates/replay/data/answers"
    );
    let file = std::env::args().nth(1).unwrap_or(stored.to_string());
    let bytes = list();
    std::fs::write(&file, &bytes).expect("the list can be written");
    println!("{} bytes in {file}", bytes.len());
}

#[cfg(not(oracle))]
fn main() {
    compare::skipped();
}
