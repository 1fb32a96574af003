//! Random bytes and numbers at every exported call: each ends, answers the same twice, and leaves lent memory as promised.
#![cfg_attr(not(feature = "full"), allow(dead_code, unused_imports, unused_macros))]

mod calls;
mod cards;
mod guarded;
mod lent;

use calls::{Call, Changes};
use lent::Lent;
use numbers::Random;
use std::collections::BTreeMap;
use std::hash::{DefaultHasher, Hash, Hasher};
use tidmaruls::ffi::Table;

const CODES: [i32; 8] = [0, -2, -12, -17, -22, -27, -28, -84];

/// How often each call answered each code.
type Tally = BTreeMap<(&'static str, i32), u32>;

/// A table as far as it is looked at, or all of it where its count is none.
fn looked_at(table: &Table) -> (u32, &[tidmaruls::Entry]) {
    (
        table.count,
        &table.files[..table.files.len().min(table.count as usize)],
    )
}

/// One call on two copies of what is lent; the copy that it changed, for the next call.
fn tried(call: &Call, lent: &Lent, digest: &mut impl Hasher) -> (i32, Lent) {
    let (mut first, mut second) = (lent.clone(), lent.clone());
    let answer = (call.run)(&mut first);
    let again = (call.run)(&mut second);
    let about = || format!("{}, code {}: {lent:?}", call.name, answer.code);
    assert!(answer == again && first == second, "{}", about());
    assert!(CODES.contains(&answer.code), "{}", about());
    assert!(first.guards_hold(), "{}", about());
    kept(call, answer.code, lent, &first, &about);
    let refused = answer.code != 0;
    if let Some(window) = answer.window {
        let stays = matches!(answer.code, -2 | -12 | -17 | -22 | -27) && call.given_window;
        assert!(!stays || window == lent.window, "{}", about());
        first.window = window;
    }
    if let Some(table) = answer.table {
        let stays = refused && call.given_table;
        assert!(!stays || table == lent.table, "{}", about());
        first.table = table;
    }
    assert!(
        !refused || answer.values.iter().all(|&value| value == 0),
        "{}",
        about()
    );
    (answer.code, &answer.values).hash(digest);
    first.digest(digest);
    (answer.code, first)
}

/// Lent memory changes only where the call says so, and not at all in a refusal that promises that.
fn kept(call: &Call, code: i32, before: &Lent, after: &Lent, about: &dyn Fn() -> String) {
    assert!(
        before.health == after.health && before.data == after.data,
        "{}",
        about()
    );
    let whole = matches!(code, -2 | -12 | -17 | -22 | -27);
    let image = call.changes == Changes::Image && !whole;
    let buffer = call.changes == Changes::Buffer && code == 0;
    assert!(image || before.image == after.image, "{}", about());
    assert!(buffer || before.buffer == after.buffer, "{}", about());
}

/// So many episodes of calls, each on what the last one left; answers how they went and one number for all of it.
fn run(seed: u64, episodes: u32) -> (Tally, u64) {
    let mut random = Random::new(seed);
    let mut digest = DefaultHasher::new();
    let mut tally = Tally::new();
    let calls = calls::all();
    for _ in 0..episodes {
        let mut lent = Lent::new(&mut random);
        for _ in 0..40 {
            lent.numbers(&mut random);
            let call = &calls[random.below(calls.len() as u32) as usize];
            let spoilt = random.one_in(5).then(|| lent.spoilt(&mut random));
            let (code, left) = tried(call, spoilt.as_ref().unwrap_or(&lent), &mut digest);
            *tally.entry((call.name, code)).or_default() += 1;
            if spoilt.is_none() && !random.one_in(8) {
                lent = left;
            }
        }
    }
    (tally, digest.finish())
}

#[test]
fn every_call() {
    let (tally, digest) = run(90, 2000);
    assert_eq!(run(90, 2000), (tally.clone(), digest));
    println!("random: all answers and memory together: {digest:016x}");
    for call in calls::all() {
        let codes: Vec<(i32, u32)> = tally
            .iter()
            .filter(|((name, _), _)| *name == call.name)
            .map(|((_, code), count)| (*code, *count))
            .collect();
        println!("random: {}: {codes:?}", call.name);
        for code in call.codes {
            assert!(
                tally.contains_key(&(call.name, *code)),
                "{} never answered {code}",
                call.name
            );
        }
    }
}

/// Slots past the count are not looked at.
#[test]
fn slots_past_the_count() {
    let mut random = Random::new(91);
    let calls = calls::all();
    for _ in 0..2000 {
        let mut lent = Lent::new(&mut random);
        lent.numbers(&mut random);
        let mut other = lent.clone();
        let count = other.table.files.len().min(other.table.count as usize);
        for entry in &mut other.table.files[count..] {
            entry.number = random.number();
            entry.size = random.number();
            entry.head = random.number();
        }
        for call in &calls {
            let (mut one, mut two) = (lent.clone(), other.clone());
            let (answer, same) = ((call.run)(&mut one), (call.run)(&mut two));
            assert_eq!(
                (answer.code, &answer.values),
                (same.code, &same.values),
                "{}: {lent:?}",
                call.name
            );
            let tables = answer.table.as_ref().zip(same.table.as_ref());
            assert!(
                tables.is_none_or(|(one, two)| looked_at(one) == looked_at(two)),
                "{}: {lent:?}",
                call.name
            );
            assert!(
                one.image == two.image && one.buffer == two.buffer,
                "{}: {lent:?}",
                call.name
            );
        }
    }
}
