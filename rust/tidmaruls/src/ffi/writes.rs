//! Files changed: write and truncate.

use super::{Geometry, Table, Window};

/// Window and table after a call that changes a file.
#[repr(C)]
#[derive(Clone, Copy, PartialEq, Eq, Debug)]
pub struct Stored {
    pub code: i32,
    pub window: Window,
    pub table: Table,
}

extern "C" {
    /// Writes bytes at a position of a file.
    pub fn tid_write(
        geometry: Geometry,
        lookahead: u32,
        image: *mut u8,
        image_length: usize,
        health: *const u8,
        health_length: usize,
        window: Window,
        table: Table,
        number: u32,
        position: u32,
        data: *const u8,
        data_length: usize,
    ) -> Stored;
    /// Gives a file another size.
    pub fn tid_truncate(
        geometry: Geometry,
        lookahead: u32,
        image: *mut u8,
        image_length: usize,
        health: *const u8,
        health_length: usize,
        window: Window,
        table: Table,
        number: u32,
        size: u32,
    ) -> Stored;
}
