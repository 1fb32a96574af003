//! The differences that docs/DIFFERENCES.md lists, each on its smallest input: the Rust's answer and the library's, in this order.
#![cfg(all(feature = "extend", feature = "seek", feature = "store"))]

#[cfg(oracle)]
mod with_oracle {
    mod allocator;
    mod files;
    mod growth;
    mod limits;
    mod lists;

    use compare::both::oracle_on;
    use compare::cards::{blank, geometry};
    use oracle::{File, Found, Oracle};
    use tidmaruls::raw::Card;

    /// An erased card of good blocks of 128 bytes, without files, L 8, its window fresh at 0; with this change, on both sides.
    fn both(block_count: u32, change: impl Fn(&mut Card)) -> (Oracle, Card) {
        let mut card = blank(geometry(128, block_count), 8, 0);
        change(&mut card);
        (oracle_on(&card), card)
    }

    /// Block, offset and hops of a lookup.
    fn place(found: Found) -> (u32, u32, u32) {
        (found.block, found.offset, found.hops)
    }

    /// A write of the Rust to its first file, with its flush: 0 or the refusal, and the file's head and size afterwards.
    fn write(oracle: &mut Oracle, position: u32, data: &[u8]) -> (i32, u32, u32) {
        let (head, size) = oracle.files[0];
        let mut file = File::open(head, size, position);
        let mut code = oracle.write(&mut file, data);
        if code >= 0 {
            code = oracle.flush(&mut file);
        }
        (code, file.head(), file.size())
    }
}

#[cfg(not(oracle))]
#[test]
fn differences_as_listed() {
    compare::skipped();
}
