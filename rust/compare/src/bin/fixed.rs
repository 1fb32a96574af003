//! Writes the fixed list anew from the oracle.

#[cfg(oracle)]
fn main() {
    use compare::fixed;
    let rows = fixed::index_rows();
    let file = fixed::index_file();
    std::fs::write(&file, fixed::print(&rows)).expect("the fixed list can be written");
    println!("{} rows in {}", rows.len(), file.display());
}

#[cfg(not(oracle))]
fn main() {
    compare::skipped();
}
