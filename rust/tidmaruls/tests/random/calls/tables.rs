//! The file table: create, remove, size, seek, and its saved form.

use super::{filled, tabled, values, Call, Changes, PLAIN};
use tidmaruls::ffi;

pub const CALLS: &[Call] = &[
    #[cfg(feature = "create")]
    Call {
        name: "create",
        run: |l| {
            let told = unsafe { ffi::tid_create(l.table, l.number) };
            tabled(told.code, &[], told.table)
        },
        given_table: true,
        codes: &[0, -12, -17, -22],
        ..PLAIN
    },
    #[cfg(feature = "remove")]
    Call {
        name: "remove",
        run: |l| {
            let told = unsafe { ffi::tid_remove(l.table, l.number) };
            tabled(told.code, &[], told.table)
        },
        given_table: true,
        codes: &[0, -2, -22],
        ..PLAIN
    },
    #[cfg(feature = "size")]
    Call {
        name: "size",
        run: |l| {
            let told = unsafe { ffi::tid_size(l.table, l.number) };
            values(told.code, &[told.size])
        },
        codes: &[0, -2, -22],
        ..PLAIN
    },
    #[cfg(feature = "seek")]
    Call {
        name: "seek",
        run: |l| {
            let told = unsafe { ffi::tid_seek(l.table, l.number, l.position, l.offset, l.whence) };
            values(told.code, &[told.position])
        },
        codes: &[0, -2, -22],
        ..PLAIN
    },
    #[cfg(feature = "save")]
    Call {
        name: "save",
        run: |l| {
            filled(l, |l| {
                let (buffer, room) = (l.buffer.start_mut(), l.buffer.length());
                let told = unsafe { ffi::tid_save(l.table, buffer, room) };
                (told.code, told.length)
            })
        },
        changes: Changes::Buffer,
        codes: &[0, -22],
        ..PLAIN
    },
    #[cfg(feature = "load")]
    Call {
        name: "load",
        run: |l| {
            let told = unsafe { ffi::tid_load(l.data.start(), l.data.length()) };
            match told.code {
                0 => tabled(0, &[], told.table),
                code => values(code, &[told.table.count]),
            }
        },
        codes: &[0, -84],
        ..PLAIN
    },
];
