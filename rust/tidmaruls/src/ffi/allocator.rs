//! The lookahead window: fresh, checkpoint, drop, and one allocation.

use super::{Geometry, Table, Window};

/// A window handed back.
#[repr(C)]
#[derive(Clone, Copy, PartialEq, Eq, Debug)]
pub struct Windowed {
    pub code: i32,
    pub window: Window,
}

extern "C" {
    /// A fresh window.
    pub fn tid_fresh(geometry: Geometry, lookahead: u32, start: u32) -> Windowed;
    /// The window with its checkpoint count set to the block count.
    pub fn tid_ckpoint(geometry: Geometry, lookahead: u32, window: Window) -> Windowed;
    /// The window emptied, its start kept.
    pub fn tid_drop(geometry: Geometry, lookahead: u32, window: Window) -> Windowed;
}

/// The block taken.
#[repr(C)]
#[derive(Clone, Copy, PartialEq, Eq, Debug)]
pub struct Allocated {
    pub code: i32,
    pub block: u32,
    pub window: Window,
}

extern "C" {
    /// One allocation.
    pub fn tid_alloc(
        geometry: Geometry,
        lookahead: u32,
        image: *const u8,
        image_length: usize,
        table: Table,
        window: Window,
    ) -> Allocated;
}
