//! Where a position lies in a block list.

use super::{ffi, Refusal};

/// Index of the block that holds a position, and the offset in it.
#[derive(Clone, Copy, PartialEq, Eq, Debug)]
pub struct Place {
    pub index: u32,
    pub offset: u32,
}

/// The place of a position, for every block size from 128; -22 below.
pub fn index(block_size: u32, position: u32) -> Result<Place, Refusal> {
    let told = unsafe { ffi::tid_index(block_size, position) };
    if told.code != 0 {
        return Err(told.code);
    }
    Ok(Place {
        index: told.index,
        offset: told.offset,
    })
}
