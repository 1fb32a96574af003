//! The safe layer on bad input: an error that says what to do, never a panic, and all left as it came.
#![cfg(feature = "full")]

mod damage;
mod readers;
mod refusals;
mod tables;

use tidmaruls::{Card, Error, Geometry};

fn geometry() -> Geometry {
    Geometry::new(128, 16).expect("served")
}

/// A card with file 5.
fn with_file<'a>(geometry: Geometry, image: &'a mut [u8], health: &'a [u8]) -> Card<'a> {
    let mut card = Card::new(geometry, image, health).expect("a card");
    card.create(5).expect("room in the table");
    card.write(5, 0, &[9; 300]).expect("room on the card");
    card
}

/// Every message is a sentence.
#[test]
fn messages() {
    let errors = [
        Error::Window,
        Error::Table,
        Error::TableFull,
        Error::Seek,
        Error::NoRoom,
        Error::Damaged,
        Error::Saved,
        Error::NoFile(3),
        Error::Unknown(-99),
        Error::Health { block: 3, value: 9 },
    ];
    for error in errors {
        let text = error.to_string();
        assert!(text.ends_with('.') && text.contains(": "), "{text}");
        assert_eq!(std::io::Error::from(error).to_string(), text);
    }
}
