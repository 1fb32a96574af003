//! Block lists: index of a position, lookup, visit, list check. They need no table.

use super::Geometry;

/// A position's place.
#[repr(C)]
#[derive(Clone, Copy, PartialEq, Eq, Debug)]
pub struct Indexed {
    pub code: i32,
    pub index: u32,
    pub offset: u32,
}

extern "C" {
    /// Index and offset of a position, for every block size from 128.
    pub fn tid_index(block_size: u32, position: u32) -> Indexed;
}

/// Where a lookup led, and the number of pointers followed.
#[repr(C)]
#[derive(Clone, Copy, PartialEq, Eq, Debug)]
pub struct Found {
    pub code: i32,
    pub block: u32,
    pub offset: u32,
    pub hops: u32,
}

extern "C" {
    /// The block and offset of a position of a list.
    pub fn tid_find(
        geometry: Geometry,
        image: *const u8,
        image_length: usize,
        head: u32,
        size: u32,
        position: u32,
    ) -> Found;
}

/// A visit's place: the index to hand over next, its block, and the block below it where that is held (`held` not 0).
#[repr(C)]
#[derive(Clone, Copy, PartialEq, Eq, Debug)]
pub struct Visit {
    pub index: u32,
    pub block: u32,
    pub held: u32,
    pub after: u32,
}

/// How a visit begins: `more` is 1 where the list has blocks.
#[repr(C)]
#[derive(Clone, Copy, PartialEq, Eq, Debug)]
pub struct Begun {
    pub code: i32,
    pub more: u32,
    pub place: Visit,
}

/// The block handed over; `more` is 1 where indexes are left.
#[repr(C)]
#[derive(Clone, Copy, PartialEq, Eq, Debug)]
pub struct Step {
    pub code: i32,
    pub block: u32,
    pub more: u32,
    pub place: Visit,
}

extern "C" {
    /// The visit of a list, at its last index.
    pub fn tid_visit(geometry: Geometry, head: u32, size: u32) -> Begun;
    /// One step of a visit.
    pub fn tid_traverse(
        geometry: Geometry,
        image: *const u8,
        image_length: usize,
        place: Visit,
    ) -> Step;
}

/// Kind 0: sound; 1 number not below the block count, 2 number met before, 3 further pointer disagrees, 4 empty list with a head.
#[repr(C)]
#[derive(Clone, Copy, PartialEq, Eq, Debug)]
pub struct Checked {
    pub code: i32,
    pub kind: u32,
    pub index: u32,
    pub pointer: u32,
}

extern "C" {
    /// Whether a list is sound, or its first fault.
    pub fn tid_check(
        geometry: Geometry,
        image: *const u8,
        image_length: usize,
        head: u32,
        size: u32,
    ) -> Checked;
}
