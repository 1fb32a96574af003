//! What goes in and out of the oracle.

use crate::file::{LfsCtz, LfsFile};

/// The lookahead window. The Rust's map has as many bytes as the lookahead; the rest here stays as it was set.
#[derive(Clone, Copy, PartialEq, Eq, Debug)]
pub struct Window {
    pub map: [u8; 64],
    pub start: u32,
    pub next: u32,
    pub size: u32,
    pub ckpoint: u32,
}

/// Where a lookup led, and how many pointers it read on the way.
#[derive(Clone, Copy, PartialEq, Eq, Debug)]
pub struct Found {
    pub block: u32,
    pub offset: u32,
    pub hops: u32,
}

/// An open file of the Rust, outside any directory; it keeps its block between calls.
pub struct File(pub(crate) LfsFile);

impl File {
    /// A file with this list, at this position, open for reading and writing.
    pub fn open(head: u32, size: u32, position: u32) -> File {
        // Numbers and null pointers: all zero is a value of each field.
        let mut file: LfsFile = unsafe { core::mem::zeroed() };
        file.ctz = LfsCtz { head, size };
        file.pos = position;
        file.flags = 3;
        File(file)
    }

    pub fn head(&self) -> u32 {
        self.0.ctz.head
    }

    pub fn size(&self) -> u32 {
        self.0.ctz.size
    }
}
