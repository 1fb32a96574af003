//! The file table: calls that see the table only.

#[allow(unused_imports)]
use super::{ffi, Entry, Refusal, Table};

impl Table {
    /// A table without files.
    pub const EMPTY: Table = Table {
        files: [Entry {
            number: 0,
            size: 0,
            head: 0,
        }; 32],
        count: 0,
    };

    /// The files held, numbers rising.
    pub fn entries(&self) -> &[Entry] {
        &self.files[..self.count as usize]
    }

    /// Makes an empty file.
    #[cfg(feature = "create")]
    pub fn create(&mut self, number: u32) -> Result<(), Refusal> {
        let told = unsafe { ffi::tid_create(*self, number) };
        *self = told.table;
        super::refused(told.code)
    }

    #[cfg(feature = "remove")]
    pub fn remove(&mut self, number: u32) -> Result<(), Refusal> {
        let told = unsafe { ffi::tid_remove(*self, number) };
        *self = told.table;
        super::refused(told.code)
    }

    #[cfg(feature = "size")]
    pub fn size(&self, number: u32) -> Result<u32, Refusal> {
        let told = unsafe { ffi::tid_size(*self, number) };
        super::refused(told.code).map(|_| told.size)
    }

    /// The position `offset` away from the start (whence 0), the held position (1) or the end (2).
    #[cfg(feature = "seek")]
    pub fn seek(
        &self,
        number: u32,
        position: u32,
        offset: i32,
        whence: i32,
    ) -> Result<u32, Refusal> {
        let told = unsafe { ffi::tid_seek(*self, number, position, offset, whence) };
        super::refused(told.code).map(|_| told.position)
    }

    /// Writes the saved form to the front of `buffer`; answers its length.
    #[cfg(feature = "save")]
    pub fn save(&self, buffer: &mut [u8]) -> Result<u32, Refusal> {
        let told = unsafe { ffi::tid_save(*self, buffer.as_mut_ptr(), buffer.len()) };
        super::refused(told.code).map(|_| told.length)
    }

    /// The table whose saved form this is.
    #[cfg(feature = "load")]
    pub fn load(bytes: &[u8]) -> Result<Table, Refusal> {
        let told = unsafe { ffi::tid_load(bytes.as_ptr(), bytes.len()) };
        super::refused(told.code).map(|_| told.table)
    }
}
