//! The calls on files, for the safe types and for `raw` alike: slices cross the border as pointer and length.

use crate::ffi::{self, Geometry, Table, Window};

/// What the calls that read a file see.
pub(crate) struct Seen<'a> {
    pub geometry: Geometry,
    pub image: &'a [u8],
    pub table: &'a Table,
}

impl Seen<'_> {
    #[cfg(feature = "read")]
    pub fn read(&self, number: u32, position: u32, to: &mut [u8]) -> ffi::Reading {
        unsafe {
            ffi::tid_read(
                self.geometry,
                self.image.as_ptr(),
                self.image.len(),
                *self.table,
                number,
                position,
                to.as_mut_ptr(),
                to.len(),
            )
        }
    }

    #[cfg(feature = "stretch")]
    pub fn stretch(&self, number: u32, position: u32) -> ffi::Stretch {
        let (image, length) = (self.image.as_ptr(), self.image.len());
        unsafe { ffi::tid_stretch(self.geometry, image, length, *self.table, number, position) }
    }
}

/// What the calls that change the image see, and the image that they are lent.
pub(crate) struct Lent<'a> {
    pub geometry: Geometry,
    pub lookahead: u32,
    pub image: &'a mut [u8],
    pub health: &'a [u8],
    pub window: &'a Window,
    pub table: &'a Table,
}

/// One of the calls that change the image: their first arguments are the same.
macro_rules! changed {
    ($lent:ident, $call:ident($($further:expr),+)) => {
        unsafe {
            ffi::$call(
                $lent.geometry,
                $lent.lookahead,
                $lent.image.as_mut_ptr(),
                $lent.image.len(),
                $lent.health.as_ptr(),
                $lent.health.len(),
                $($further),+
            )
        }
    };
}

impl Lent<'_> {
    #[cfg(feature = "extend")]
    pub fn extend(self, head: u32, size: u32) -> ffi::Extended {
        changed!(self, tid_extend(*self.table, *self.window, head, size))
    }

    #[cfg(feature = "write")]
    pub fn write(self, number: u32, position: u32, data: &[u8]) -> ffi::Stored {
        let (data, length) = (data.as_ptr(), data.len());
        changed!(
            self,
            tid_write(*self.window, *self.table, number, position, data, length)
        )
    }

    #[cfg(feature = "truncate")]
    pub fn truncate(self, number: u32, size: u32) -> ffi::Stored {
        changed!(self, tid_truncate(*self.window, *self.table, number, size))
    }
}
