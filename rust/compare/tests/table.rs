//! The calls that see the table only, against plain files and against the saved form's own rules.
#![cfg(feature = "table")]

use compare::cards::table;
use compare::Random;
use std::collections::BTreeMap;
use tidmaruls::raw::Table;

/// The rules' own bytes.
const SAVED: [u8; 8] = [0x02, 0x03, 0xAC, 0x02, 0x07, 0xC8, 0x01, 0x00];

#[test]
fn worked_bytes() {
    let held = table(&[(3, 300, 7), (200, 0, tidmaruls::raw::NULL)]);
    let mut buffer = [0xEE; 10];
    assert_eq!(held.save(&mut buffer), Ok(8));
    assert_eq!(buffer[..8], SAVED);
    assert_eq!(buffer[8..], [0xEE; 2]);
    assert_eq!(Table::load(&SAVED), Ok(held));
    let mut short = [0xEE; 7];
    assert_eq!(held.save(&mut short), Err(-22));
    assert_eq!(short, [0xEE; 7]);
}

/// What is not in exact form.
#[test]
fn refused_forms() {
    let forms: [&[u8]; 12] = [
        &[],
        &[33],
        &[0, 0],
        &[0x80, 0],
        &[1, 3],
        &[1, 3, 0, 0],
        &[1, 3, 1],
        &[2, 3, 0, 3, 0],
        &[1, 0x80, 0x80, 4, 0],
        &[1, 3, 0x80, 0x80, 0x80, 0x80, 8, 1],
        &[1, 3, 1, 0x80, 0x80, 4],
        &[1, 3, 0xFF, 0xFF, 0xFF, 0xFF, 0xFF, 1, 1],
    ];
    for form in forms {
        assert_eq!(Table::load(form), Err(-84), "{form:?}");
    }
}

/// Tables that are none are refused by every call, and come back as they were.
#[test]
fn refused_tables() {
    let null = tidmaruls::raw::NULL;
    let mut tables = vec![
        table(&[(3, 0, 0)]),
        table(&[(3, 1, null)]),
        table(&[(3, 1, 65_536)]),
        table(&[(65_536, 1, 0)]),
        table(&[(3, tidmaruls::raw::FILE_MAX + 1, 0)]),
        table(&[(3, 0, null), (3, 0, null)]),
        table(&[(4, 0, null), (3, 0, null)]),
        Table::EMPTY,
    ];
    tables[7].count = 33;
    for held in tables {
        let mut changed = held;
        assert_eq!(changed.create(9), Err(-22));
        assert_eq!(changed.remove(3), Err(-22));
        assert_eq!(changed, held);
        assert_eq!(held.size(3), Err(-22));
        assert_eq!(held.save(&mut [0; 400]), Err(-22));
    }
}

fn random_table(random: &mut Random) -> Table {
    let mut number = 0;
    let files: Vec<(u32, u32, u32)> = (0..random.between(0, 32))
        .map(|_| {
            number += 1 + (random.below(2000) >> random.below(11));
            let size = random.number() >> random.between(1, 31);
            let empty = size == 0 || random.one_in(8);
            let head = random.below(65_536);
            if empty {
                (number, 0, tidmaruls::raw::NULL)
            } else {
                (number, size, head)
            }
        })
        .collect();
    table(&files)
}

/// Load undoes save; of any other bytes it refuses, or save gives them back.
#[test]
fn save_and_load() {
    let mut random = Random::new(60);
    let (mut accepted, mut refused) = (0, 0);
    for _ in 0..20_000 {
        let held = random_table(&mut random);
        let mut buffer = [0; 400];
        let length = held.save(&mut buffer).expect("room for any table") as usize;
        assert_eq!(Table::load(&buffer[..length]), Ok(held));
        let at = random.below(length as u32) as usize;
        buffer[at] ^= 1 << random.below(8);
        let length = length - random.one_in(4) as usize;
        let Ok(other) = Table::load(&buffer[..length]) else {
            refused += 1;
            continue;
        };
        let mut again = [0; 400];
        assert_eq!(other.save(&mut again), Ok(length as u32));
        assert_eq!(again[..length], buffer[..length]);
        accepted += 1;
    }
    println!("table: 20000 saved and loaded, {accepted} changed forms accepted, {refused} refused");
}

/// Create, remove and size as a plain map has them.
#[test]
fn as_a_plain_map() {
    let mut random = Random::new(61);
    let mut held = Table::EMPTY;
    let mut plain: BTreeMap<u32, u32> = BTreeMap::new();
    for _ in 0..200_000 {
        let number = match random.below(20) {
            0 => random.number(),
            1 => random.between(65_530, 65_540),
            _ => random.below(48),
        };
        let there = plain.contains_key(&number);
        let (beyond, full) = (number > 65_535, plain.len() == 32);
        let before = held;
        if random.one_in(2) {
            let wanted = match (beyond, there, full) {
                (true, _, _) => Err(-22),
                (_, true, _) => Err(-17),
                (_, _, true) => Err(-12),
                _ => Ok(()),
            };
            assert_eq!(held.create(number), wanted);
            wanted.is_ok().then(|| plain.insert(number, 0));
        } else if random.one_in(2) {
            let wanted = match (beyond, there) {
                (true, _) => Err(-22),
                (_, false) => Err(-2),
                _ => Ok(()),
            };
            assert_eq!(held.remove(number), wanted);
            wanted.is_ok().then(|| plain.remove(&number));
        } else {
            let wanted = plain.get(&number).copied();
            let refusal = if beyond { -22 } else { -2 };
            assert_eq!(held.size(number), wanted.ok_or(refusal));
            assert_eq!(held, before);
        }
        let entries: Vec<(u32, u32)> = held.entries().iter().map(|e| (e.number, e.size)).collect();
        assert_eq!(entries, plain.clone().into_iter().collect::<Vec<_>>());
    }
}
