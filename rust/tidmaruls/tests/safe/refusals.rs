//! Values outside the rules: lengths, geometries, numbers, positions and sizes.

use super::{geometry, with_file};
use tidmaruls::{Card, Error, Geometry, Image, Table, View, FILE_MAX};

#[test]
fn lengths_are_checked() {
    let geometry = geometry();
    let (mut image, health) = (geometry.blank_image(), geometry.good_health());
    let table = Table::new();
    for given in [0, 2047, 2049] {
        let mut other = vec![0; given];
        let wrong = Error::ImageLength {
            needed: 2048,
            given,
        };
        assert_eq!(Image::new(geometry, &other).err(), Some(wrong));
        assert_eq!(View::new(geometry, &other, &table).err(), Some(wrong));
        assert_eq!(Card::new(geometry, &mut other, &health).err(), Some(wrong));
    }
    let short = Card::new(geometry, &mut image, &health[1..]).err();
    assert_eq!(
        short,
        Some(Error::HealthLength {
            needed: 16,
            given: 15
        })
    );
    let mut faulty = health.clone();
    faulty[7] = 3;
    let wrong = Card::new(geometry, &mut image, &faulty).err();
    assert_eq!(wrong, Some(Error::Health { block: 7, value: 3 }));
}

#[test]
fn geometries() {
    for (size, count) in [
        (127, 1),
        (65_537, 1),
        (128, 0),
        (128, 65_537),
        (4096, 4097),
        (u32::MAX, u32::MAX),
    ] {
        assert!(Geometry::new(size, count).is_err());
    }
    for (size, count) in [(128, 1), (65_536, 256), (128, 65_536), (256, 65_536)] {
        assert!(Geometry::new(size, count).is_ok());
    }
}

#[test]
fn refusals() {
    let geometry = geometry();
    let (mut image, health) = (geometry.blank_image(), geometry.good_health());
    let mut card = with_file(geometry, &mut image, &health);
    let (table, window) = (*card.table(), *card.window());
    let beyond = FILE_MAX + 1;
    assert_eq!(card.write(6, 0, &[1]), Err(Error::NoFile(6)));
    assert_eq!(card.write(65_536, 0, &[1]), Err(Error::FileNumber(65_536)));
    assert_eq!(card.write(5, beyond, &[1]), Err(Error::Position(beyond)));
    let (position, length) = (FILE_MAX, 2);
    assert_eq!(
        card.write(5, position, &[1, 2]),
        Err(Error::TooLarge { position, length })
    );
    assert_eq!(card.truncate(5, beyond), Err(Error::Size(beyond)));
    assert_eq!((*card.table(), *card.window()), (table, window));
    assert_eq!(card.truncate(5, 1 << 20), Err(Error::NoRoom));
    assert_eq!(*card.table(), table);
    let view = card.view();
    assert_eq!(view.read(5, beyond, &mut [0]), Err(Error::Position(beyond)));
    assert_eq!(
        view.find(5, 300).err(),
        Some(Error::PastEnd {
            position: 300,
            size: 300
        })
    );
    assert_eq!(view.bytes(5), Ok(vec![9; 300]));
    assert!(view.visit(6).is_err() && view.check(6).is_err() && view.reader(6).is_err());
}
