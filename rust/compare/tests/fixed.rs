//! The fixed list of the oracle's answers.
#![cfg(feature = "index")]

use compare::fixed;

fn rows() -> Vec<fixed::Row> {
    let text = std::fs::read_to_string(fixed::index_file()).expect("the fixed list is there");
    fixed::parse(&text)
}

/// The library answers each row as the oracle did; this needs no oracle.
#[test]
fn index_as_listed() {
    let rows = rows();
    assert!(rows.len() >= 300, "only {} rows", rows.len());
    for row in &rows {
        let place = tidmaruls::raw::index(row.block_size, row.position).expect("served");
        assert_eq!(
            (place.index, place.offset),
            (row.index, row.offset),
            "{row:?}"
        );
    }
    println!("index: {} rows of the fixed list", rows.len());
}

/// The list is what the oracle answers today.
#[cfg(oracle)]
#[test]
fn list_is_current() {
    assert_eq!(rows(), fixed::index_rows());
}

#[cfg(not(oracle))]
#[test]
fn list_is_current() {
    compare::skipped();
}
