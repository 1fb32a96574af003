//! Block lists: index of a position, lookup, visit, list check.

use super::{values, Call, PLAIN};
use tidmaruls::ffi;

pub const CALLS: &[Call] = &[
    #[cfg(feature = "index")]
    Call {
        name: "index",
        run: |lent| {
            let told = unsafe { ffi::tid_index(lent.geometry.block_size, lent.position) };
            values(told.code, &[told.index, told.offset])
        },
        codes: &[0, -22],
        ..PLAIN
    },
    #[cfg(feature = "find")]
    Call {
        name: "find",
        run: |l| {
            let (image, length) = (l.image.start(), l.image.length());
            let told =
                unsafe { ffi::tid_find(l.geometry, image, length, l.head, l.size, l.position) };
            values(told.code, &[told.block, told.offset, told.hops])
        },
        codes: &[0, -22, -84],
        ..PLAIN
    },
    #[cfg(feature = "visit")]
    Call {
        name: "visit",
        run: |l| {
            let told = unsafe { ffi::tid_visit(l.geometry, l.head, l.size) };
            let at = told.place;
            values(
                told.code,
                &[told.more, at.index, at.block, at.held, at.after],
            )
        },
        codes: &[0, -22],
        ..PLAIN
    },
    #[cfg(feature = "visit")]
    Call {
        name: "traverse",
        run: |l| {
            let (image, length) = (l.image.start(), l.image.length());
            let told = unsafe { ffi::tid_traverse(l.geometry, image, length, l.place) };
            let at = told.place;
            values(
                told.code,
                &[told.block, told.more, at.index, at.block, at.held, at.after],
            )
        },
        codes: &[0, -22, -84],
        ..PLAIN
    },
    #[cfg(feature = "check")]
    Call {
        name: "check",
        run: |l| {
            let (image, length) = (l.image.start(), l.image.length());
            let told = unsafe { ffi::tid_check(l.geometry, image, length, l.head, l.size) };
            values(told.code, &[told.kind, told.index, told.pointer])
        },
        codes: &[0, -22],
        ..PLAIN
    },
];
