//! One growth of a list.
//!
//! The block taken is erased; then an incomplete last block is copied to it, or else its pointers are programmed.

use super::{Geometry, Table, Window};

/// The new block of a list, and where its data goes on.
#[repr(C)]
#[derive(Clone, Copy, PartialEq, Eq, Debug)]
pub struct Extended {
    pub code: i32,
    pub block: u32,
    pub offset: u32,
    pub window: Window,
}

extern "C" {
    /// One growth of a list.
    pub fn tid_extend(
        geometry: Geometry,
        lookahead: u32,
        image: *mut u8,
        image_length: usize,
        health: *const u8,
        health_length: usize,
        table: Table,
        window: Window,
        head: u32,
        size: u32,
    ) -> Extended;
}
