//! The bytes of a file: read, and the place of a stretch.

use super::{Geometry, Table};

/// How many bytes were read.
#[repr(C)]
#[derive(Clone, Copy, PartialEq, Eq, Debug)]
pub struct Reading {
    pub code: i32,
    pub length: u32,
}

extern "C" {
    /// Reads bytes of a file.
    pub fn tid_read(
        geometry: Geometry,
        image: *const u8,
        image_length: usize,
        table: Table,
        number: u32,
        position: u32,
        buffer: *mut u8,
        buffer_length: usize,
    ) -> Reading;
}

/// A part of the image: its first byte and its length.
#[repr(C)]
#[derive(Clone, Copy, PartialEq, Eq, Debug)]
pub struct Stretch {
    pub code: i32,
    pub place: u32,
    pub length: u32,
}

extern "C" {
    /// The bytes from a position to the end of its block or file.
    pub fn tid_stretch(
        geometry: Geometry,
        image: *const u8,
        image_length: usize,
        table: Table,
        number: u32,
        position: u32,
    ) -> Stretch;
}
