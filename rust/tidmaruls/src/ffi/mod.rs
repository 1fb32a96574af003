//! The exported calls of the library as they cross the border: C's layout and calling convention.
//!
//! Structs go by value, `code` first in each answer: 0, or the refusal number. Bytes go as pointer and length.
//! No call asks anything of the values it is given; a pointer must be good for its length.

// The modules of the library; what several calls pass is here.
mod allocator;
mod contents;
mod growth;
mod lists;
mod tables;
mod writes;

pub use allocator::*;
pub use contents::*;
pub use growth::*;
pub use lists::*;
pub use tables::*;
pub use writes::*;

/// Block size and block count of a card.
#[repr(C)]
#[derive(Clone, Copy, PartialEq, Eq, Debug)]
pub struct Geometry {
    pub block_size: u32,
    pub block_count: u32,
}

/// The lookahead window.
#[repr(C)]
#[derive(Clone, Copy, PartialEq, Eq, Debug)]
pub struct Window {
    pub map: [u8; 64],
    pub start: u32,
    pub next: u32,
    pub size: u32,
    pub ckpoint: u32,
}

/// A file: its number, its size and the last block of its list.
#[repr(C)]
#[derive(Clone, Copy, PartialEq, Eq, Debug)]
pub struct Entry {
    pub number: u32,
    pub size: u32,
    pub head: u32,
}

/// The files, numbers rising; slots from `count` on are not looked at.
#[repr(C)]
#[derive(Clone, Copy, PartialEq, Eq, Debug)]
pub struct Table {
    pub files: [Entry; 32],
    pub count: u32,
}
