//! Wrong use: status 2, and a sentence that says what to do.

use crate::desk::Desk;
use std::fs::File;
use std::process::Stdio;

#[test]
fn wrong_words() {
    let desk = Desk::new("words");
    desk.write("file", b"bytes");
    desk.done("new unit --block-size 128 --block-count 10");
    let cases = [
        ("", "A command is missing: start with `card --help`"),
        ("nwe unit", "There is no command `nwe`: did you mean `new`?"),
        ("frobnicate", "use one of new, ls, put"),
        ("ls", "`card ls` needs DIR: add it."),
        (
            "put unit",
            "`card put` needs FILE-NUMBER and SOURCE: add it.",
        ),
        ("ls unit 3", "`card ls` does not know what to do with `3`"),
        ("ls unit --jsno", "did you mean --json?"),
        ("ls unit -x", "`card ls` has no option -x"),
        ("ls unit --json --json", "--json is given twice"),
        ("ls unit --json=yes", "--json takes no value"),
        ("new other", "`card new` needs --block-size"),
        ("new other --block-size", "--block-size needs a value"),
        (
            "new other --block-size 127 --block-count 1",
            "take blocks of 128 to 65536 bytes",
        ),
        (
            "new other --block-size 4096 --block-count 4097",
            "at most 16777216 bytes in all",
        ),
        (
            "new other --block-size x --block-count 1",
            "--block-size is `x`: write a whole number",
        ),
        (
            "new other --block-size 128 --block-count 4 --refuse-erase 4",
            "the blocks are 0 to 3",
        ),
        (
            "new other --block-size 128 --block-count 4 --refuse-erase 3-1",
            "lowest first",
        ),
        (
            "new unit --block-size 128 --block-count 4",
            "unit is there and not empty",
        ),
        (
            "new file --block-size 128 --block-count 4",
            "file is a file: name a new folder",
        ),
        ("ls nowhere", "There is no folder nowhere"),
        ("ls file", "file is a file: name the card's folder"),
        (
            "put unit 70000 file",
            "70000 is no file number: take one from 0 to 65535",
        ),
        ("put unit -3 file", "`card put` has no option -3"),
        ("put unit 3 nothing", "nothing cannot be read"),
        ("put unit 3 file --at 1 --append", "contradict each other"),
        (
            "put unit 3 file --at 2147483648",
            "2147483648 is no position",
        ),
        ("put unit 3 file --at 2147483647", "above the largest size"),
        ("put unit 3 file --start 10", "take a start below that"),
        ("get unit 3", "`card ls unit` shows the files"),
        ("get unit 3 --json", "name a TARGET"),
        ("rm unit 3", "There is no file 3"),
        ("truncate unit 3 1", "There is no file 3"),
        ("check unit 3", "There is no file 3"),
        ("find unit 3 0", "There is no file 3"),
        (
            "map unit --svg nowhere/map.svg",
            "nowhere/map.svg cannot be written",
        ),
    ];
    for (words, says) in cases {
        let (status, out, error) = desk.run(words);
        assert_eq!(status, 2, "{words}: {out}{error}");
        assert!(
            format!("{out}{error}").contains(says),
            "{words}: {out}{error}"
        );
        assert!(!error.contains("panicked"), "{words}: {error}");
    }
    assert!(desk.done("ls unit").contains("0 files in 0 of 10 blocks"));
    assert_eq!(desk.names(""), ["file", "unit"]);
}

#[test]
fn past_the_end() {
    let desk = Desk::new("past");
    desk.done("new unit --block-size 128 --block-count 10");
    desk.fed("put unit 3 -", b"bytes");
    desk.refused(
        "find unit 3 5",
        "Position 5 is past the end: the file has 5 bytes",
    );
    assert_eq!(desk.done("get unit 3 --at 5"), "");
    assert_eq!(desk.run("truncate unit 3 2147483648").0, 2);
    desk.refused(
        "truncate unit 3 2000",
        "It takes 17 new blocks, and 9 good ones are free",
    );
    desk.done("truncate unit 3 0");
    assert_eq!(desk.run("find unit 3 0").0, 2);
}

/// Help is there for every command, and tells of every option and of the exit status.
#[test]
fn help() {
    let desk = Desk::new("help");
    let all = desk.done("--help");
    assert_eq!(all, desk.done("help"));
    assert!(all.contains("exit status: 0 done; 1 the card is at fault; 2 "));
    for name in [
        "new", "ls", "put", "get", "rm", "truncate", "check", "map", "find",
    ] {
        assert!(all.contains(&format!("\n  {name:<9} ")), "{name}");
        let one = desk.done(&format!("help {name}"));
        assert_eq!(one, desk.done(&format!("{name} --help")));
        assert!(one.contains(&format!("usage: card {name} DIR")), "{one}");
        assert!(
            one.lines().chain(all.lines()).all(|line| line.len() <= 100),
            "{one}"
        );
    }
    assert!(desk.done("--version").starts_with("card "));
}

/// A full disk behind standard output or standard error is told of, or at least no crash.
#[test]
fn full_outputs() {
    let Ok(full) = File::options().write(true).open("/dev/full") else {
        return;
    };
    let desk = Desk::new("full");
    desk.done("new unit --block-size 128 --block-count 10");
    let same = || Stdio::from(full.try_clone().expect("open"));
    let out = desk
        .command("ls unit")
        .stdout(same())
        .output()
        .expect("runs");
    assert_eq!(out.status.code(), Some(2));
    let told = String::from_utf8_lossy(&out.stderr).into_owned();
    assert!(told.contains("Standard output cannot be written"), "{told}");
    let none = desk.command("ls nowhere").stderr(same()).output();
    assert_eq!(none.expect("runs").status.code(), Some(2));
}

/// A target that is a link keeps being one; its file gets the bytes.
#[cfg(unix)]
#[test]
fn linked_targets() {
    let desk = Desk::new("links");
    desk.done("new unit --block-size 128 --block-count 10");
    desk.fed("put unit 3 -", b"bytes");
    desk.write("real", b"old");
    std::os::unix::fs::symlink("real", desk.path("link")).expect("a link");
    desk.done("get unit 3 link");
    assert_eq!(desk.read("real"), b"bytes");
    assert!(desk.path("link").is_symlink());
    assert_eq!(desk.run("get unit 3 unit").0, 2);
}
