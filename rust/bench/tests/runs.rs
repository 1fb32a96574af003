//! The bench runs to its end; what it measures is for a person to read.
#![cfg(feature = "full")]

use std::process::Command;

/// The status, and what was printed on either side.
fn bench(words: &[&str]) -> (Option<i32>, String, String) {
    let output = Command::new(env!("CARGO_BIN_EXE_bench"))
        .args(words)
        .output()
        .expect("the bench runs");
    let text = |bytes| String::from_utf8(bytes).expect("plain text");
    (
        output.status.code(),
        text(output.stdout),
        text(output.stderr),
    )
}

#[test]
fn to_the_end() {
    let (status, text, _) = bench(&["1"]);
    assert_eq!(status, Some(0), "{text}");
    assert!(text.contains("(e) cost against size"), "{text}");
}

#[test]
fn one_call() {
    for call in ["read", "write", "check"] {
        let (status, text, _) = bench(&["one", call, "512", "65536"]);
        assert_eq!(status, Some(0), "{text}");
        assert_eq!(text, "65536 bytes in 130 blocks\n");
    }
    // The largest card of such blocks has 65,536; a list of all of them stores 2 * 65,535 - 16 pointers.
    let (_, text, _) = bench(&["one", "check", "128", "16777216"]);
    assert_eq!(text, "7864392 bytes in 65536 blocks\n");
}

#[test]
fn wrong_words() {
    for (words, why) in [
        (
            &["0"][..],
            "`0` is no number of runs: take a whole number from 1 to",
        ),
        (&["1", "2"], "give the number of runs alone"),
        (
            &["one", "read", "512"],
            "name a call (read, write or check), a block size and a file's length",
        ),
        (
            &["one", "seek", "512", "65536"],
            "`seek` is no call: take read, write or check",
        ),
        (
            &["one", "read", "127", "65536"],
            "`127` is no block size: take a whole number from 128 to 65536",
        ),
        (
            &["one", "read", "512", "16777217"],
            "`16777217` is no length: take a whole number from 1 to 16777216",
        ),
    ] {
        let (status, text, error) = bench(words);
        assert_eq!((status, text.as_str()), (Some(2), ""), "{words:?}");
        assert!(error.contains(why), "{error}");
    }
}
