//! The layout rule in plain sums: where each block of a list starts.

/// Bytes of a block of this index that are pointers.
pub fn pointer_bytes(index: u32) -> u32 {
    if index == 0 {
        0
    } else {
        4 * (index.trailing_zeros() + 1)
    }
}

/// The first position of the block of this index: the data bytes of all blocks before it.
pub fn start(block_size: u32, index: u32) -> u64 {
    if index == 0 {
        return 0;
    }
    let data = block_size as u64 - 8;
    index as u64 * data + 4 * ((index - 1).count_ones() as u64 + 2)
}

/// The index of the block that a position lies in.
pub fn index(block_size: u32, position: u32) -> u32 {
    let most = position / (block_size - 8);
    let holds = |&index: &u32| start(block_size, index) <= position as u64;
    (0..=most).rev().find(holds).expect("index 0 starts at 0")
}

/// The positions up to `around` on either side of the borders of the first `blocks` blocks, as far as 32 bits go.
pub fn borders(block_size: u32, blocks: u32, around: u64) -> impl Iterator<Item = u32> {
    (0..blocks)
        .map(move |index| start(block_size, index))
        .take_while(|&first| first <= u32::MAX as u64)
        .flat_map(move |first| first.saturating_sub(around)..=first + around)
        .filter_map(|position| u32::try_from(position).ok())
}

/// Whether this is the place of a position by the layout rule: past the pointers, within the block, at the right sum.
pub fn is_place(block_size: u32, position: u32, index: u32, offset: u32) -> bool {
    let data = block_size as u64 - 8;
    let before = index as u64 * data + 4 * index.count_ones() as u64;
    before + offset as u64 == position as u64
        && pointer_bytes(index) <= offset
        && offset < block_size
}
