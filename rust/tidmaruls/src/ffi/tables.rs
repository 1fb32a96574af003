//! The file table: create, remove, size, seek, and its saved form.

use super::Table;

/// A table handed back.
#[repr(C)]
#[derive(Clone, Copy, PartialEq, Eq, Debug)]
pub struct Tabled {
    pub code: i32,
    pub table: Table,
}

extern "C" {
    /// The table with one more, empty file.
    pub fn tid_create(table: Table, number: u32) -> Tabled;
    /// The table without a file.
    pub fn tid_remove(table: Table, number: u32) -> Tabled;
}

/// A file's size.
#[repr(C)]
#[derive(Clone, Copy, PartialEq, Eq, Debug)]
pub struct FileSize {
    pub code: i32,
    pub size: u32,
}

extern "C" {
    /// The size of a file.
    pub fn tid_size(table: Table, number: u32) -> FileSize;
}

/// A position.
#[repr(C)]
#[derive(Clone, Copy, PartialEq, Eq, Debug)]
pub struct Sought {
    pub code: i32,
    pub position: u32,
}

extern "C" {
    /// A new position in a file, from a held one.
    pub fn tid_seek(table: Table, number: u32, position: u32, offset: i32, whence: i32) -> Sought;
}

/// How many bytes a saved table took.
#[repr(C)]
#[derive(Clone, Copy, PartialEq, Eq, Debug)]
pub struct Saved {
    pub code: i32,
    pub length: u32,
}

extern "C" {
    /// Writes a table in its saved form.
    pub fn tid_save(table: Table, buffer: *mut u8, buffer_length: usize) -> Saved;
    /// The table of a saved form.
    pub fn tid_load(bytes: *const u8, bytes_length: usize) -> Tabled;
}
