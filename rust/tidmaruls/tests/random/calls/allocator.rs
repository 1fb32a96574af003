//! The lookahead window: fresh, checkpoint, drop, one allocation and one growth.

use super::{changed, windowed, Call, Changes, PLAIN};
use tidmaruls::ffi;

pub const CALLS: &[Call] = &[
    #[cfg(feature = "fresh")]
    Call {
        name: "fresh",
        run: |l| {
            let told = unsafe { ffi::tid_fresh(l.geometry, l.lookahead, l.head) };
            windowed(told.code, &[], told.window)
        },
        codes: &[0, -22],
        ..PLAIN
    },
    #[cfg(feature = "ckpoint")]
    Call {
        name: "ckpoint",
        run: |l| {
            let told = unsafe { ffi::tid_ckpoint(l.geometry, l.lookahead, l.window) };
            windowed(told.code, &[], told.window)
        },
        given_window: true,
        codes: &[0, -22],
        ..PLAIN
    },
    #[cfg(feature = "drop")]
    Call {
        name: "drop",
        run: |l| {
            let told = unsafe { ffi::tid_drop(l.geometry, l.lookahead, l.window) };
            windowed(told.code, &[], told.window)
        },
        given_window: true,
        codes: &[0, -22],
        ..PLAIN
    },
    #[cfg(feature = "alloc")]
    Call {
        name: "alloc",
        run: |l| {
            let (image, length) = (l.image.start(), l.image.length());
            let told = unsafe {
                ffi::tid_alloc(l.geometry, l.lookahead, image, length, l.table, l.window)
            };
            windowed(told.code, &[told.block], told.window)
        },
        given_window: true,
        codes: &[0, -22, -28, -84],
        ..PLAIN
    },
    #[cfg(feature = "extend")]
    Call {
        name: "extend",
        run: |l| {
            let told = changed!(l, tid_extend(l.table, l.window, l.head, l.size));
            windowed(told.code, &[told.block, told.offset], told.window)
        },
        changes: Changes::Image,
        given_window: true,
        codes: &[0, -22, -28, -84],
        ..PLAIN
    },
];
