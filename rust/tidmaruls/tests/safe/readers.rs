//! Readers: the bytes of a file, however they are asked for, and seeks within its limits.

use super::geometry;
use std::io::{BufRead, Read, Seek, SeekFrom};
use tidmaruls::{Card, FileReader};

/// What a test does with a reader of file 5, which was written in two parts; and the file's bytes.
fn with_reader(test: impl Fn(FileReader, &[u8])) {
    let geometry = geometry();
    let (mut image, health) = (geometry.blank_image(), geometry.good_health());
    let mut card = Card::new(geometry, &mut image, &health).expect("a card");
    let bytes: Vec<u8> = (0..1500_u32).map(|place| (place * 7) as u8).collect();
    card.create(5).expect("room in the table");
    card.append(5, &bytes[..700]).expect("room on the card");
    card.append(5, &bytes[700..]).expect("room on the card");
    test(card.view().reader(5).expect("a file"), &bytes);
}

#[test]
fn whole_files() {
    with_reader(|mut reader, bytes| {
        let mut whole = Vec::new();
        reader.read_to_end(&mut whole).expect("a sound list");
        assert!(whole == bytes);
    });
}

#[test]
fn lent_parts() {
    with_reader(|mut reader, bytes| {
        let mut lent = Vec::new();
        loop {
            let part = reader.fill_buf().expect("a sound list").to_vec();
            if part.is_empty() {
                break;
            }
            reader.consume(part.len());
            lent.extend(part);
        }
        assert!(lent == bytes);
    });
}

#[test]
fn seeks() {
    with_reader(|mut reader, _| {
        for (to, lands) in [
            (SeekFrom::End(0), Some(1500)),
            (SeekFrom::Start(7), Some(7)),
            (SeekFrom::Current(-7), Some(0)),
            (SeekFrom::End(-1), Some(1499)),
            (SeekFrom::End(9), Some(1509)),
            (SeekFrom::Current(i64::MAX), None),
            (SeekFrom::Current(i64::MIN), None),
            (SeekFrom::Start(u64::MAX), None),
            (SeekFrom::Start(1 << 31), None),
        ] {
            assert_eq!(reader.seek(to).ok(), lands);
        }
        assert_eq!(reader.position(), 1509);
        assert_eq!(reader.read(&mut [0; 9]).ok(), Some(0));
    });
}
