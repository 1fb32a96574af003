//! Lists that are damaged, or none: the fault is named, and nothing is half read.

use super::{geometry, with_file};
use std::io::{BufRead, ErrorKind, Read, Seek, SeekFrom};
use tidmaruls::{Entry, Error, Fault, Image, List, Table, View, FILE_MAX};

/// The image and the table of a card with file 5, in whose last block pointer 0 names no block of the card.
fn damaged() -> (Vec<u8>, Table) {
    let geometry = geometry();
    let (mut image, health) = (geometry.blank_image(), geometry.good_health());
    let table = *with_file(geometry, &mut image, &health).table();
    let head = table.entries()[0].head as usize;
    image[128 * head] = 16;
    (image, table)
}

#[test]
fn views() {
    let (image, table) = damaged();
    let view = View::new(geometry(), &image, &table).expect("a card");
    assert_eq!(view.check(5), Ok(Some(Fault::Beyond { index: 1 })));
    let visit: Vec<_> = view.visit(5).expect("a file").collect();
    assert_eq!(visit.len(), 2);
    assert_eq!(visit[1], Err(Error::Damaged));
    let mut bytes = [7; 300];
    assert_eq!(view.read(5, 0, &mut bytes), Err(Error::Damaged));
    assert_eq!(bytes, [7; 300]);
    assert_eq!(view.stretch(5, 130), Err(Error::Damaged));
}

#[test]
fn readers() {
    let (image, table) = damaged();
    let view = View::new(geometry(), &image, &table).expect("a card");
    let mut reader = view.reader(5).expect("a file");
    assert_eq!(
        reader.read_to_end(&mut Vec::new()).map_err(|e| e.kind()),
        Err(ErrorKind::InvalidData)
    );
    assert_eq!(reader.seek(SeekFrom::Start(130)).ok(), Some(130));
    assert!(reader.fill_buf().is_err());
    reader.consume(5);
    assert_eq!(reader.position(), 130);
}

/// A file far larger than its card.
#[test]
fn large_file() {
    let (image, _) = damaged();
    let large = Entry {
        number: 1,
        size: FILE_MAX,
        head: 0,
    };
    let table = Table::from_entries(&[large]).expect("a table");
    let view = View::new(geometry(), &image, &table).expect("a card");
    assert_eq!(view.bytes(1), Err(Error::Damaged));
}

#[test]
fn lists_that_are_none() {
    let (image, _) = damaged();
    let image = Image::new(geometry(), &image).expect("a card");
    let beyond = List {
        head: 0,
        size: FILE_MAX + 1,
    };
    assert_eq!(image.check(beyond), Err(Error::Size(FILE_MAX + 1)));
    let headed = List { head: 3, size: 0 };
    assert_eq!(image.check(headed), Ok(Some(Fault::Headed)));
    assert_eq!(image.find(List::EMPTY, 9), Ok(None));
}
