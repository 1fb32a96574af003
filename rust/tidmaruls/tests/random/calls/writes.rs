//! Files changed: write and truncate.

use super::{changed, values, Answer, Call, Changes};
use tidmaruls::ffi;

pub const CALLS: &[Call] = &[
    #[cfg(feature = "write")]
    Call {
        name: "write",
        run: |l| {
            let (data, length) = (l.data.start(), l.data.length());
            stored(changed!(
                l,
                tid_write(l.window, l.table, l.number, l.position, data, length)
            ))
        },
        changes: Changes::Image,
        given_window: true,
        given_table: true,
        codes: &[0, -2, -22, -27, -28, -84],
    },
    #[cfg(feature = "truncate")]
    Call {
        name: "truncate",
        run: |l| {
            stored(changed!(
                l,
                tid_truncate(l.window, l.table, l.number, l.size)
            ))
        },
        changes: Changes::Image,
        given_window: true,
        given_table: true,
        codes: &[0, -2, -22, -28, -84],
    },
];

fn stored(told: ffi::Stored) -> Answer {
    Answer {
        window: Some(told.window),
        table: Some(told.table),
        ..values(told.code, &[])
    }
}
