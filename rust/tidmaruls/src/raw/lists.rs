//! Lookup, visit and check of a list on a card.

use super::{ffi, Geometry, Refusal};

/// Where a lookup led: block and offset of a position, and how many pointers were followed.
#[cfg(feature = "find")]
#[derive(Clone, Copy, PartialEq, Eq, Debug)]
pub struct Found {
    pub block: u32,
    pub offset: u32,
    pub hops: u32,
}

/// The block and offset of a position of a list.
#[cfg(feature = "find")]
pub fn find(
    geometry: Geometry,
    image: &[u8],
    head: u32,
    size: u32,
    position: u32,
) -> Result<Found, Refusal> {
    let told =
        unsafe { ffi::tid_find(geometry, image.as_ptr(), image.len(), head, size, position) };
    super::refused(told.code)?;
    Ok(Found {
        block: told.block,
        offset: told.offset,
        hops: told.hops,
    })
}

/// The blocks that a visit hands over, last index first, and 0 or the refusal that ended it.
#[cfg(feature = "visit")]
pub fn visit(geometry: Geometry, image: &[u8], head: u32, size: u32) -> (Refusal, Vec<u32>) {
    let mut blocks = Vec::new();
    let begun = unsafe { ffi::tid_visit(geometry, head, size) };
    let (mut more, mut place) = (begun.more, begun.place);
    if begun.code != 0 {
        return (begun.code, blocks);
    }
    while more != 0 {
        let step = unsafe { ffi::tid_traverse(geometry, image.as_ptr(), image.len(), place) };
        if step.code != 0 {
            return (step.code, blocks);
        }
        blocks.push(step.block);
        (more, place) = (step.more, step.place);
    }
    (0, blocks)
}

/// The first fault of a list: its kind, with index and pointer number.
#[cfg(feature = "check")]
#[derive(Clone, Copy, PartialEq, Eq, Debug)]
pub enum Fault {
    /// A number not below the block count, where this index should be named.
    Beyond { index: u32 },
    /// A number met before, where this index should be named.
    Again { index: u32 },
    /// A further pointer that does not agree with the walk by pointer 0.
    Disagrees { index: u32, pointer: u32 },
    /// An empty list whose head is not null.
    Headed,
}

/// None for a sound list.
#[cfg(feature = "check")]
pub fn check(
    geometry: Geometry,
    image: &[u8],
    head: u32,
    size: u32,
) -> Result<Option<Fault>, Refusal> {
    let told = unsafe { ffi::tid_check(geometry, image.as_ptr(), image.len(), head, size) };
    super::refused(told.code)?;
    let (index, pointer) = (told.index, told.pointer);
    Ok(match told.kind {
        0 => None,
        1 => Some(Fault::Beyond { index }),
        2 => Some(Fault::Again { index }),
        3 => Some(Fault::Disagrees { index, pointer }),
        _ => Some(Fault::Headed),
    })
}
