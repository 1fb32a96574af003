//! The bytes of a file: read, and the place of a stretch.

use super::{filled, values, Call, Changes, PLAIN};
use crate::lent::Lent;
use tidmaruls::ffi;

pub const CALLS: &[Call] = &[
    #[cfg(feature = "read")]
    Call {
        name: "read",
        run: |l| filled(l, read),
        changes: Changes::Buffer,
        codes: &[0, -2, -22, -84],
        ..PLAIN
    },
    #[cfg(feature = "stretch")]
    Call {
        name: "stretch",
        run: |l| {
            let (image, length) = (l.image.start(), l.image.length());
            let told = unsafe {
                ffi::tid_stretch(l.geometry, image, length, l.table, l.number, l.position)
            };
            assert!(
                told.place as usize + told.length as usize <= length,
                "in the image"
            );
            values(told.code, &[told.place, told.length])
        },
        codes: &[0, -2, -22, -84],
        ..PLAIN
    },
];

#[cfg(feature = "read")]
fn read(l: &mut Lent) -> (i32, u32) {
    let told = unsafe {
        ffi::tid_read(
            l.geometry,
            l.image.start(),
            l.image.length(),
            l.table,
            l.number,
            l.position,
            l.buffer.start_mut(),
            l.buffer.length(),
        )
    };
    (told.code, told.length)
}
