//! A card held whole, with its window and its table: the calls that read and change files.

#[allow(unused_imports)]
use super::{ffi, Geometry, Refusal, Table, Window};
use crate::border::{Lent, Seen};

/// All that a call on files works on. A refused call leaves it as the rules say.
#[derive(Clone, PartialEq, Eq, Debug)]
pub struct Card {
    pub geometry: Geometry,
    /// Bytes of the window's map that are used: 8 to 64, a multiple of 8.
    pub lookahead: u32,
    pub image: Vec<u8>,
    /// One byte a block: 0 good, 1 refuses erase, 2 refuses its first program.
    pub health: Vec<u8>,
    pub window: Window,
    pub table: Table,
}

/// A fresh window that starts at this block.
#[cfg(feature = "fresh")]
pub fn fresh(geometry: Geometry, lookahead: u32, start: u32) -> Result<Window, Refusal> {
    let told = unsafe { ffi::tid_fresh(geometry, lookahead, start) };
    super::refused(told.code).map(|_| told.window)
}

impl Card {
    /// Sets the window's checkpoint count to the block count.
    #[cfg(feature = "ckpoint")]
    pub fn ckpoint(&mut self) -> Result<(), Refusal> {
        let told = unsafe { ffi::tid_ckpoint(self.geometry, self.lookahead, self.window) };
        self.window = told.window;
        super::refused(told.code)
    }

    /// Empties the window; the next allocation scans.
    #[cfg(feature = "drop")]
    pub fn drop_window(&mut self) -> Result<(), Refusal> {
        let told = unsafe { ffi::tid_drop(self.geometry, self.lookahead, self.window) };
        self.window = told.window;
        super::refused(told.code)
    }

    /// Takes a block that no file uses.
    #[cfg(feature = "alloc")]
    pub fn alloc(&mut self) -> Result<u32, Refusal> {
        let told = unsafe {
            ffi::tid_alloc(
                self.geometry,
                self.lookahead,
                self.image.as_ptr(),
                self.image.len(),
                self.table,
                self.window,
            )
        };
        self.window = told.window;
        super::refused(told.code).map(|_| told.block)
    }

    /// Grows the list of this head and size by one block: the block and where its data goes on.
    #[cfg(feature = "extend")]
    pub fn extend(&mut self, head: u32, size: u32) -> Result<(u32, u32), Refusal> {
        let told = self.lent().extend(head, size);
        self.window = told.window;
        super::refused(told.code).map(|_| (told.block, told.offset))
    }

    /// Reads from a position to the end of `to` or of the file; answers how many bytes.
    #[cfg(feature = "read")]
    pub fn read(&self, number: u32, position: u32, to: &mut [u8]) -> Result<u32, Refusal> {
        let told = self.seen().read(number, position, to);
        super::refused(told.code).map(|_| told.length)
    }

    /// The bytes from a position to the end of its block or file, where they lie on the card.
    #[cfg(feature = "stretch")]
    pub fn stretch(&self, number: u32, position: u32) -> Result<&[u8], Refusal> {
        let told = self.seen().stretch(number, position);
        let place = told.place as usize;
        super::refused(told.code).map(|_| &self.image[place..place + told.length as usize])
    }

    #[cfg(feature = "write")]
    pub fn write(&mut self, number: u32, position: u32, data: &[u8]) -> Result<(), Refusal> {
        let told = self.lent().write(number, position, data);
        self.stored(told)
    }

    #[cfg(feature = "truncate")]
    pub fn truncate(&mut self, number: u32, size: u32) -> Result<(), Refusal> {
        let told = self.lent().truncate(number, size);
        self.stored(told)
    }
}

#[allow(dead_code)]
impl Card {
    /// Takes over the window and table that a call left.
    fn stored(&mut self, told: ffi::Stored) -> Result<(), Refusal> {
        self.window = told.window;
        self.table = told.table;
        super::refused(told.code)
    }

    /// As a call that reads takes it.
    fn seen(&self) -> Seen<'_> {
        Seen {
            geometry: self.geometry,
            image: &self.image,
            table: &self.table,
        }
    }

    /// As a call that changes the image takes it.
    fn lent(&mut self) -> Lent<'_> {
        Lent {
            geometry: self.geometry,
            lookahead: self.lookahead,
            image: &mut self.image,
            health: &self.health,
            window: &self.window,
            table: &self.table,
        }
    }
}
