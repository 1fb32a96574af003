//! Every exported call, on what is lent.

mod allocator;
mod contents;
mod lists;
mod tables;
mod writes;

use crate::lent::Lent;
use tidmaruls::ffi::{Table, Window};

/// A call's answer, whatever its struct.
#[derive(PartialEq, Debug)]
pub struct Answer {
    pub code: i32,
    pub values: Vec<u32>,
    pub window: Option<Window>,
    pub table: Option<Table>,
}

/// The lent memory that a call may change.
#[derive(Clone, Copy, PartialEq, Eq)]
pub enum Changes {
    Nothing,
    Image,
    Buffer,
}

/// An exported call, as it is tried.
#[derive(Clone, Copy)]
pub struct Call {
    pub name: &'static str,
    pub run: fn(&mut Lent) -> Answer,
    pub changes: Changes,
    /// Whether a window, or a table, is given and handed back.
    pub given_window: bool,
    pub given_table: bool,
    /// The codes that a long run must have seen.
    pub codes: &'static [i32],
}

/// The calls whose features are on.
pub fn all() -> Vec<Call> {
    [
        lists::CALLS,
        allocator::CALLS,
        tables::CALLS,
        contents::CALLS,
        writes::CALLS,
    ]
    .concat()
}

/// A call that changes nothing lent, and hands back no window or table that it was given.
const PLAIN: Call = Call {
    name: "",
    run: |_| values(0, &[]),
    changes: Changes::Nothing,
    given_window: false,
    given_table: false,
    codes: &[],
};

/// One of the calls that change the image: their first arguments are the same.
macro_rules! changed {
    ($l:ident, $call:ident($($further:expr),+)) => {
        unsafe {
            let (image, length) = ($l.image.start_mut(), $l.image.length());
            let (health, count) = ($l.health.start(), $l.health.length());
            tidmaruls::ffi::$call($l.geometry, $l.lookahead, image, length, health, count, $($further),+)
        }
    };
}
use changed;

/// An answer of numbers alone.
fn values(code: i32, values: &[u32]) -> Answer {
    Answer {
        code,
        values: values.to_vec(),
        window: None,
        table: None,
    }
}

fn windowed(code: i32, told: &[u32], window: Window) -> Answer {
    Answer {
        window: Some(window),
        ..values(code, told)
    }
}

fn tabled(code: i32, told: &[u32], table: Table) -> Answer {
    Answer {
        table: Some(table),
        ..values(code, told)
    }
}

/// A call that fills the front of the buffer; bytes past the length that it answers keep their values.
fn filled(l: &mut Lent, call: impl FnOnce(&mut Lent) -> (i32, u32)) -> Answer {
    let before = l.buffer.bytes().to_vec();
    let (code, length) = call(l);
    let past = length as usize;
    assert!(l.buffer.bytes()[past..] == before[past..]);
    values(code, &[length])
}
