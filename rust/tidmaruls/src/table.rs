//! The file table: which files there are.

use crate::{ffi, Entry, Error, List, FILES, FILE_MAX, NULL, NUMBER_MAX, SAVED_MAX};
use std::fmt;

/// At most 32 files, numbers rising; each has a size and a list.
#[derive(Clone, Copy, PartialEq, Eq)]
pub struct Table(ffi::Table);

impl Table {
    /// A table without files.
    pub fn new() -> Table {
        Table(ffi::Table::EMPTY)
    }

    /// The table of these entries, which must be in order.
    pub fn from_entries(entries: &[Entry]) -> Result<Table, Error> {
        let rising = entries.windows(2).all(|two| two[0].number < two[1].number);
        let headed = |entry: &Entry| match entry.size {
            0 => entry.head == NULL,
            _ => entry.head <= 65_535,
        };
        let within = |entry: &Entry| entry.number <= NUMBER_MAX && entry.size <= FILE_MAX;
        let good = |entry: &Entry| within(entry) && headed(entry);
        if entries.len() > FILES || !rising || !entries.iter().all(good) {
            return Err(Error::Table);
        }
        let mut table = ffi::Table::EMPTY;
        table.files[..entries.len()].copy_from_slice(entries);
        table.count = entries.len() as u32;
        Ok(Table(table))
    }

    /// The files, numbers rising.
    pub fn entries(&self) -> &[Entry] {
        &self.0.files[..FILES.min(self.0.count as usize)]
    }

    /// The entry of a file.
    pub fn get(&self, number: u32) -> Option<Entry> {
        let mut entries = self.entries().iter();
        entries.find(|entry| entry.number == number).copied()
    }

    /// The list of a file.
    pub fn list(&self, number: u32) -> Result<List, Error> {
        if number > NUMBER_MAX {
            return Err(Error::FileNumber(number));
        }
        let Entry { head, size, .. } = self.get(number).ok_or(Error::NoFile(number))?;
        Ok(List { head, size })
    }

    /// Makes an empty file.
    ///
    /// ```
    /// use tidmaruls::{Error, Table};
    ///
    /// let mut table = Table::new();
    /// table.create(200)?;
    /// assert_eq!(table.create(200), Err(Error::Exists(200)));
    /// assert_eq!(table.size(200)?, 0);
    /// table.remove(200)?;
    /// assert_eq!(table.size(200), Err(Error::NoFile(200)));
    /// # Ok::<(), Error>(())
    /// ```
    pub fn create(&mut self, number: u32) -> Result<(), Error> {
        let told = unsafe { ffi::tid_create(self.0, number) };
        self.0 = told.table;
        on_file(told.code, number, Error::Table)
    }

    /// Removes a file.
    pub fn remove(&mut self, number: u32) -> Result<(), Error> {
        let told = unsafe { ffi::tid_remove(self.0, number) };
        self.0 = told.table;
        on_file(told.code, number, Error::Table)
    }

    /// The size of a file.
    pub fn size(&self, number: u32) -> Result<u32, Error> {
        let told = unsafe { ffi::tid_size(self.0, number) };
        on_file(told.code, number, Error::Table).map(|()| told.size)
    }

    /// The position `offset` away from the start (whence 0), from `position` (1) or from the end (2) of a file.
    pub fn seek(&self, number: u32, position: u32, offset: i32, whence: i32) -> Result<u32, Error> {
        let told = unsafe { ffi::tid_seek(self.0, number, position, offset, whence) };
        let invalid = match position {
            0..=FILE_MAX => Error::Seek,
            _ => Error::Position(position),
        };
        on_file(told.code, number, invalid).map(|()| told.position)
    }

    /// Writes the saved form to the front of a buffer; answers its length. The rest of the buffer keeps its bytes.
    pub fn save(&self, buffer: &mut [u8]) -> Result<usize, Error> {
        let given = buffer.len();
        let told = unsafe { ffi::tid_save(self.0, buffer.as_mut_ptr(), given) };
        Error::told(told.code, Error::Buffer { given })?;
        Ok(told.length as usize)
    }

    /// The saved form.
    ///
    /// ```
    /// use tidmaruls::{Entry, Error, Table};
    ///
    /// let stops = Entry { number: 3, size: 300, head: 7 };
    /// let tracks = Entry { number: 200, size: 0, head: tidmaruls::NULL };
    /// let table = Table::from_entries(&[stops, tracks])?;
    /// let saved = table.to_bytes()?;
    /// assert_eq!(saved, [0x02, 0x03, 0xAC, 0x02, 0x07, 0xC8, 0x01, 0x00]);
    /// assert_eq!(Table::load(&saved)?, table);
    /// assert_eq!(Table::load(&saved[..7]), Err(Error::Saved));
    /// # Ok::<(), Error>(())
    /// ```
    pub fn to_bytes(&self) -> Result<Vec<u8>, Error> {
        let mut bytes = vec![0; SAVED_MAX];
        let length = self.save(&mut bytes)?;
        bytes.truncate(length);
        Ok(bytes)
    }

    /// The table whose saved form this is, and nothing else.
    pub fn load(bytes: &[u8]) -> Result<Table, Error> {
        let told = unsafe { ffi::tid_load(bytes.as_ptr(), bytes.len()) };
        match Error::told(told.code, Error::Saved) {
            Err(Error::Damaged) => Err(Error::Saved),
            other => other.map(|()| Table(told.table)),
        }
    }

    /// As it crosses the border.
    pub(crate) fn crossing(&self) -> &ffi::Table {
        &self.0
    }

    /// What a call handed back.
    pub(crate) fn crossed(table: ffi::Table) -> Table {
        Table(table)
    }
}

/// The error of a refusal number of a call on a file; `invalid` is what -22 means where the number is one.
pub(crate) fn on_file(code: i32, number: u32, invalid: Error) -> Result<(), Error> {
    match code {
        -2 => Err(Error::NoFile(number)),
        -17 => Err(Error::Exists(number)),
        -22 if number > NUMBER_MAX => Err(Error::FileNumber(number)),
        code => Error::told(code, invalid),
    }
}

impl Default for Table {
    fn default() -> Table {
        Table::new()
    }
}

impl TryFrom<&[Entry]> for Table {
    type Error = Error;

    fn try_from(entries: &[Entry]) -> Result<Table, Error> {
        Table::from_entries(entries)
    }
}

impl<'a> IntoIterator for &'a Table {
    type Item = &'a Entry;
    type IntoIter = std::slice::Iter<'a, Entry>;

    fn into_iter(self) -> Self::IntoIter {
        self.entries().iter()
    }
}

impl fmt::Debug for Table {
    fn fmt(&self, to: &mut fmt::Formatter<'_>) -> fmt::Result {
        to.debug_list().entries(self.entries()).finish()
    }
}
