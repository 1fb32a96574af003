//! The list that crates/replay goes through is what the oracle answers today.
#![cfg(all(feature = "lists", feature = "seek", feature = "extend"))]

#[cfg(oracle)]
#[test]
fn list_is_current() {
    let made = concat!(env!("CARGO_TARGET_TMPDIR"), "/answers");
    let stored = concat!(
        env!("CARGO_MANIFEST_DIR"),
        "/../../crates/replay/data/answers"
    );
    let run = std::process::Command::new(env!("CARGO_BIN_EXE_replay"))
        .arg(made)
        .status();
    assert!(run.expect("the generator runs").success());
    let [made, stored] = [made, stored].map(|file| std::fs::read(file).expect("a list"));
    assert!(made == stored, "cargo run -p compare --bin replay");
    println!("replay: {} bytes of answers", made.len());
}

#[cfg(not(oracle))]
#[test]
fn list_is_current() {
    compare::skipped();
}
