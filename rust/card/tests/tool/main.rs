//! The tool as a person runs it: real processes on real files.
#![cfg(feature = "full")]

mod damage;
mod desk;
mod usage;

use desk::Desk;

#[test]
fn a_round() {
    let desk = Desk::new("round");
    let stops: Vec<u8> = (0..3000_u32).map(|place| (place % 90 + 32) as u8).collect();
    desk.write("stops", &stops);
    desk.done(
        "new unit --block-size 512 --block-count 64 --refuse-erase 3,10-12 --refuse-program 20",
    );
    desk.done("put unit 3 stops");
    desk.done("put unit 200 stops --at 5000");
    desk.done("get unit 3 back");
    assert_eq!(desk.read("back"), stops);
    assert_eq!(desk.done("get unit 3 --at 2990").len(), 10);
    let ls = desk.done("ls unit");
    assert!(
        ls.contains("    3        3000       6           6\n"),
        "{ls}"
    );
    assert!(ls.contains("2 files in 22 of 64 blocks"), "{ls}");
    let check = desk.done("check unit");
    assert!(
        check.contains("file 3: sound, 3000 bytes in 6 blocks\n"),
        "{check}"
    );
    let map = desk.done("map unit");
    assert!(
        map.contains("    0  000!000111!!!1111111?111111......"),
        "{map}"
    );
    let found = desk.done("find unit 3 600");
    assert!(
        found.contains("offset 92 of block 1, which has index 1"),
        "{found}"
    );
    desk.done("truncate unit 3 10");
    assert_eq!(
        desk.done("get unit 3 --json back"),
        "{\"file\":3,\"position\":0,\"length\":10,\"target\":\"back\"}\n"
    );
    assert_eq!(desk.read("back"), stops[..10]);
    desk.done("rm unit 3");
    assert!(desk.done("ls unit").contains("1 file in 16 of 64"));
    assert_eq!(
        desk.done("get unit 200 --at 5000 --length 3000 back"),
        "Wrote 3000 bytes of file 200 to back.\n"
    );
    assert_eq!(desk.read("back"), stops);
}

/// What comes from standard input, at a position, at the end, in place of the old.
#[test]
fn puts() {
    let desk = Desk::new("puts");
    desk.done("new unit --block-size 128 --block-count 10");
    assert_eq!(desk.fed("put unit 1 -", b"first stop").0, 0);
    assert_eq!(desk.fed("put unit 1 - --append", b", second").0, 0);
    assert_eq!(desk.fed("put --at=0 unit 1 -", b"F").0, 0);
    assert_eq!(desk.done("get unit 1"), "First stop, second");
    assert_eq!(desk.fed("put unit 1 - --start 7", b"new").0, 0);
    assert_eq!(desk.done("get unit 1"), "new");
    assert!(desk.done("map unit").contains("    0  .......0.."));
    assert_eq!(desk.fed("put unit 1 -", b"").0, 0);
    assert_eq!(desk.done("ls unit --json"), "{\"block_size\":128,\"block_count\":10,\"files\":[{\"file\":1,\"size\":0,\"blocks\":0,\"head\":null}]}\n");
    assert_eq!(
        desk.done("get unit 1 -- -odd"),
        "Wrote 0 bytes of file 1 to -odd.\n"
    );
}

/// A new content takes none of the old one's blocks, in any number of files; and refusals change nothing.
#[test]
fn old_content_is_kept() {
    let desk = Desk::new("kept");
    desk.done("new unit --block-size 128 --block-count 40");
    for number in 0..32 {
        assert_eq!(
            desk.fed(&format!("put unit {number} -"), &[number as u8; 100])
                .0,
            0
        );
        assert_eq!(
            desk.fed(&format!("put unit {number} -"), &[number as u8; 90])
                .0,
            0
        );
    }
    for number in 0..32 {
        assert_eq!(
            desk.done(&format!("get unit {number}")).as_bytes(),
            [number as u8; 90]
        );
    }
    let (image, table) = (desk.read("unit/image"), desk.read("unit/table"));
    let (status, _, error) = desk.fed("put unit 5 -", &[1; 2000]);
    assert_eq!(status, 2);
    assert!(
        error.contains(
            "It takes 17 new blocks, and 8 good ones are free: remove or shorten a file first."
        ),
        "{error}"
    );
    assert_eq!(desk.fed("put unit 40 -", b"x").0, 2);
    desk.refused(
        "put unit 5 /dev/zero",
        "more bytes than the whole card, which has 5120",
    );
    assert_eq!(
        (desk.read("unit/image"), desk.read("unit/table")),
        (image, table)
    );
    assert_eq!(desk.names("unit"), ["geometry", "health", "image", "table"]);
}

#[test]
fn machines() {
    let desk = Desk::new("machines");
    assert_eq!(
        desk.done("new unit --json --block-size 128 --block-count 10 --refuse-erase 0"),
        "{\"card\":\"unit\",\"block_size\":128,\"block_count\":10,\"faulty\":1}\n"
    );
    assert_eq!(
        desk.fed("put unit 7 - --json", &[9; 300]).1,
        "{\"file\":7,\"size\":300}\n"
    );
    assert_eq!(
        desk.done("find unit 7 5 --json"),
        "{\"file\":7,\"position\":5,\"index\":0,\"block\":1,\"offset\":5,\"hops\":1}\n"
    );
    assert_eq!(
        desk.done("check unit --json"),
        "{\"sound\":true,\"files\":[{\"file\":7,\"size\":300,\"blocks\":3,\"sound\":true}],\"shared\":[]}\n"
    );
    assert_eq!(
        desk.done("map unit --json"),
        "{\"block_size\":128,\"block_count\":10,\"blocks\":[{\"first\":0,\"last\":0,\"is\":\"refuses-erase\"},\
         {\"first\":1,\"last\":3,\"is\":\"file\",\"file\":7},{\"first\":4,\"last\":9,\"is\":\"free\"}],\"sound\":true}\n"
    );
    let (status, out, _) = desk.run("rm unit 8 --json");
    assert_eq!(status, 2);
    assert!(
        out.starts_with("{\"status\":2,\"code\":-2,\"error\":\"unit, file 8: "),
        "{out}"
    );
    assert_eq!(
        desk.done("rm unit 7 --json"),
        "{\"file\":7,\"size\":null}\n"
    );
}

#[test]
fn pictures() {
    let desk = Desk::new("pictures");
    desk.done("new unit --block-size 128 --block-count 100 --refuse-program 99");
    desk.fed("put unit 7 -", &[9; 300]);
    assert_eq!(
        desk.done("map unit --svg map.svg"),
        "Drew unit: 100 blocks of 128 bytes to map.svg.\n"
    );
    let svg = String::from_utf8(desk.read("map.svg")).expect("text");
    assert!(svg.starts_with("<svg ") && svg.ends_with("</svg>\n"));
    assert!(svg.contains("<title>blocks 0 to 2: file 7</title>"));
    assert!(svg.contains("<title>block 99: refuses program</title>"));
    assert_eq!(
        svg.matches("<rect").count(),
        svg.matches("</rect>").count() + svg.matches("/>").count()
    );
    assert!(!desk.done("map unit").contains('\x1b'));
}
