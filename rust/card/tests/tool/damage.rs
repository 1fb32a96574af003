//! Damaged, cut and foreign files: the fault is named, status 1, and nothing is changed.

use crate::desk::Desk;

/// A card with file 3 in blocks 0 to 8 and file 5 in block 9.
fn card(name: &str) -> Desk {
    let desk = Desk::new(name);
    desk.done("new unit --block-size 128 --block-count 20");
    assert_eq!(desk.fed("put unit 3 -", &[7; 1000]).0, 0);
    assert_eq!(desk.fed("put unit 5 -", &[8; 100]).0, 0);
    assert!(desk.done("map unit").contains("    0  0000000001...."));
    desk
}

/// Stores a number as a pointer of a block.
fn store(desk: &Desk, block: usize, pointer: usize, number: u32) {
    let mut image = desk.read("unit/image");
    let at = 128 * block + 4 * pointer;
    image[at..at + 4].copy_from_slice(&number.to_le_bytes());
    desk.write("unit/image", &image);
}

fn fault(desk: &Desk, words: &str, says: &str) {
    let (status, out, error) = desk.run(words);
    assert_eq!(status, 1, "{words}: {out}{error}");
    assert!(
        format!("{out}{error}").contains(says),
        "{words}: {out}{error}"
    );
}

#[test]
fn off_the_card() {
    let desk = card("off");
    store(&desk, 6, 0, 20);
    let says = "file 3: AT FAULT at index 5, pointer 0. Pointer 0 of block 6 (index 6 of the list) should name the block of index 5, but reads 20: the card has blocks 0 to 19.";
    fault(&desk, "check unit", says);
    fault(&desk, "check unit 3", says);
    fault(
        &desk,
        "check unit --json",
        "\"fault\":\"beyond\",\"index\":5,\"pointer\":0,",
    );
    desk.done("check unit 5");
    fault(
        &desk,
        "get unit 3 back",
        "`card check unit` names the fault",
    );
    fault(
        &desk,
        "find unit 3 620",
        "names a block that the card does not have",
    );
    fault(&desk, "map unit", "The list of file 3 is at fault");
    fault(&desk, "map unit --json", "\"sound\":false");
    assert_eq!(desk.done("get unit 5").len(), 100);
    let image = desk.read("unit/image");
    assert_eq!(desk.fed("put unit 5 -", &[1; 100]).0, 1);
    assert_eq!(desk.read("unit/image"), image);
    desk.done("rm unit 3");
    assert_eq!(desk.fed("put unit 5 -", &[1; 100]).0, 0);
    desk.done("check unit");
}

#[test]
fn around_in_circles() {
    let desk = card("circles");
    store(&desk, 6, 0, 8);
    fault(
        &desk,
        "check unit",
        "at index 5, pointer 0. Pointer 0 of block 6 (index 6 of the list) should name the block of index 5, but reads 8: a block that the list has at a higher index.",
    );
    fault(&desk, "map unit", "The list of file 3 is at fault");
}

#[test]
fn a_further_pointer() {
    let desk = card("further");
    store(&desk, 4, 2, 1);
    fault(
        &desk,
        "check unit",
        "at index 4, pointer 2. Pointer 2 of block 4 (index 4 of the list) should name the block of index 0, which is block 0, but reads 1.",
    );
}

#[test]
fn a_shared_block() {
    let desk = card("shared");
    desk.write("unit/table", &[2, 3, 0xE8, 7, 8, 5, 100, 8]);
    let (status, out, _) = desk.run("check unit");
    assert_eq!(status, 1);
    assert!(
        out.contains("files 3 and 5: AT FAULT. Block 8: listed by file 3 and by file 5.\n"),
        "{out}"
    );
    desk.done("check unit 5");
}

#[test]
fn a_head_off_the_card() {
    let desk = card("head");
    desk.write("unit/table", &[1, 3, 0xE8, 7, 20]);
    fault(
        &desk,
        "check unit",
        "at index 8, pointer 0. The table's entry should name the block of index 8, but reads 20",
    );
}

/// Each file of the card cut, lengthened, spoiled or gone.
#[test]
fn files_that_do_not_fit() {
    let desk = card("fit");
    let cases: [(&str, &[u8], &str); 9] = [
        (
            "image",
            &[0; 1280],
            "unit/image has 1280 bytes, but the geometry needs 2560",
        ),
        ("image", &[], "unit/image has 0 bytes"),
        (
            "health",
            &[0; 21],
            "unit/health has more than 20 bytes, but the geometry needs 20",
        ),
        ("health", &[3; 20], "unit/health says 3 of block 0"),
        ("table", &[], "unit/table: These bytes are no saved table"),
        (
            "table",
            &[2, 3, 0xE8, 7, 8],
            "unit/table: These bytes are no saved table",
        ),
        ("table", &[33], "unit/table: These bytes are no saved table"),
        (
            "geometry",
            b"block-size 512",
            "unit/geometry does not have the two lines",
        ),
        (
            "geometry",
            b"block-size 64\nblock-count 20\n",
            "take blocks of 128 to 65536 bytes",
        ),
    ];
    for (name, bytes, says) in cases {
        let file = format!("unit/{name}");
        let before = desk.read(&file);
        desk.write(&file, bytes);
        for words in [
            "check unit",
            "ls unit",
            "get unit 3",
            "rm unit 3",
            "map unit",
            "find unit 3 0",
        ] {
            fault(&desk, words, says);
        }
        assert_eq!(desk.read(&file), bytes);
        desk.write(&file, &before);
    }
    desk.remove("unit/health");
    desk.refused("check unit", "unit has no file `health`, so it is no card");
}
