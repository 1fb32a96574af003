//! Entries that are no table, numbers that are no window, and a full table.

use super::geometry;
use tidmaruls::{Entry, Error, Table, Window, FILE_MAX, NULL};

#[test]
fn tables_and_windows() {
    let entry = |number, size, head| Entry { number, size, head };
    let wrong = [
        vec![entry(3, 0, 0)],
        vec![entry(3, 1, NULL)],
        vec![entry(3, 1, 65_536)],
        vec![entry(65_536, 0, NULL)],
        vec![entry(3, FILE_MAX + 1, 0)],
        vec![entry(3, 0, NULL), entry(3, 0, NULL)],
        (0..33).map(|number| entry(number, 0, NULL)).collect(),
    ];
    for entries in wrong {
        assert_eq!(Table::from_entries(&entries), Err(Error::Table));
    }
    let mut table = Table::new();
    (0..32).for_each(|number| table.create(number).expect("room"));
    assert_eq!(table.create(40), Err(Error::TableFull));
    assert_eq!(table.create(4), Err(Error::Exists(4)));
    assert_eq!(table.save(&mut [0; 10]), Err(Error::Buffer { given: 10 }));
    assert_eq!(table.seek(0, 0, -1, 0), Err(Error::Seek));
    assert_eq!(
        table.seek(0, FILE_MAX + 1, 0, 7),
        Err(Error::Position(FILE_MAX + 1))
    );
    assert_eq!(Table::load(&[]), Err(Error::Saved));
    let mut raw = Window::fresh(geometry(), 64, 3).expect("a start").to_raw();
    raw.size = 17;
    assert_eq!(Window::from_raw(geometry(), 64, raw), Err(Error::Window));
    assert_eq!(
        Window::from_raw(geometry(), 65, raw),
        Err(Error::Lookahead(65))
    );
}
