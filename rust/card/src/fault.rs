//! Faults of lists in words: where the wrong number is stored, what it is, and what it should be.

use tidmaruls::{Fault, Image, List};

/// The number that a block stores as a pointer.
fn stored(image: &Image, block: u32, pointer: u32) -> Option<u32> {
    let at = 4 * pointer as usize;
    let bytes = image.block(block)?.get(at..at + 4)?;
    Some(u32::from_le_bytes(bytes.try_into().ok()?))
}

/// The block of an index by pointer 0 from the head, where the walk gets there.
fn block_of(image: &Image, list: List, index: u32) -> Option<u32> {
    let top = image
        .geometry()
        .place(list.size.checked_sub(1)?)
        .ok()?
        .index;
    let mut block = list.head;
    for _ in index..top {
        block = stored(image, block, 0)?;
    }
    (index <= top && block < image.geometry().block_count()).then_some(block)
}

/// Who names the block of an index on the walk by pointer 0, and the number named.
fn naming(image: &Image, list: List, index: u32) -> (String, u32) {
    match block_of(image, list, index + 1) {
        None => ("The table's entry".to_string(), list.head),
        Some(block) => (
            format!(
                "Pointer 0 of block {block} (index {} of the list)",
                index + 1
            ),
            stored(image, block, 0).unwrap_or_default(),
        ),
    }
}

/// A fault in words: where it is stored, what is there, and what should be.
pub fn in_words(image: &Image, list: List, fault: Fault) -> String {
    let last = image.geometry().block_count() - 1;
    match fault {
        Fault::Headed => format!(
            "The file has no bytes, but the table names block {} as its last.",
            list.head
        ),
        Fault::Beyond { index } => {
            let (place, number) = naming(image, list, index);
            format!("{place} should name the block of index {index}, but reads {number}: the card has blocks 0 to {last}.")
        }
        Fault::Again { index } => {
            let (place, number) = naming(image, list, index);
            format!("{place} should name the block of index {index}, but reads {number}: a block that the list has at a higher index.")
        }
        Fault::Disagrees { index, pointer } => {
            let below = index.saturating_sub(1 << pointer.min(31));
            let holder = block_of(image, list, index).unwrap_or_default();
            let should = block_of(image, list, below).unwrap_or_default();
            let reads = stored(image, holder, pointer).unwrap_or_default();
            format!(
                "Pointer {pointer} of block {holder} (index {index} of the list) should name the block of index {below}, which is block {should}, but reads {reads}."
            )
        }
    }
}

/// A fault as a machine reads it: kind, index, pointer.
pub fn kind(fault: Fault) -> (&'static str, u32, u32) {
    match fault {
        Fault::Beyond { index } => ("beyond", index, 0),
        Fault::Again { index } => ("again", index, 0),
        Fault::Disagrees { index, pointer } => ("disagrees", index, pointer),
        Fault::Headed => ("headed", 0, 0),
    }
}
