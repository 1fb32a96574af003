//! A file as the standard library's readers.

use crate::{Error, View};
use std::io::{self, BufRead, Read, Seek, SeekFrom};

/// A file at a position. As a [`BufRead`] it lends the card's own bytes, a stretch at a time, without a copy.
///
/// ```
/// use std::io::{BufRead, Read, Seek, SeekFrom};
/// # use tidmaruls::{Card, Geometry};
/// # let geometry = Geometry::new(128, 10)?;
/// # let (mut image, health) = (geometry.blank_image(), geometry.good_health());
/// # let mut card = Card::new(geometry, &mut image, &health)?;
/// card.create(1)?;
/// card.write(1, 0, b"first stop\nsecond stop\n")?;
/// let mut reader = card.view().reader(1)?;
/// let mut line = String::new();
/// reader.read_line(&mut line)?;
/// assert_eq!(line, "first stop\n");
/// reader.seek(SeekFrom::End(-5))?;
/// line.clear();
/// reader.read_to_string(&mut line)?;
/// assert_eq!(line, "stop\n");
/// assert!(reader.seek(SeekFrom::Current(-24)).is_err());
/// # Ok::<(), Box<dyn std::error::Error>>(())
/// ```
#[derive(Clone, Debug)]
pub struct FileReader<'a> {
    view: View<'a>,
    number: u32,
    position: u32,
}

impl<'a> FileReader<'a> {
    pub(crate) fn new(view: View<'a>, number: u32) -> Result<FileReader<'a>, Error> {
        view.size(number)?;
        Ok(FileReader {
            view,
            number,
            position: 0,
        })
    }

    /// The file's number.
    pub fn number(&self) -> u32 {
        self.number
    }

    /// Where the next byte is read.
    pub fn position(&self) -> u32 {
        self.position
    }

    /// The bytes from the position to the end of its block or file; empty at or past the end.
    pub fn stretch(&self) -> Result<&'a [u8], Error> {
        self.view.stretch(self.number, self.position)
    }
}

impl Read for FileReader<'_> {
    fn read(&mut self, to: &mut [u8]) -> io::Result<usize> {
        let length = self.view.read(self.number, self.position, to)?;
        self.position += length as u32;
        Ok(length)
    }
}

impl BufRead for FileReader<'_> {
    fn fill_buf(&mut self) -> io::Result<&[u8]> {
        Ok(self.stretch()?)
    }

    fn consume(&mut self, amount: usize) {
        let left = self.stretch().map_or(0, |bytes| bytes.len());
        self.position += amount.min(left) as u32;
    }
}

impl Seek for FileReader<'_> {
    fn seek(&mut self, to: SeekFrom) -> io::Result<u64> {
        let (offset, whence) = match to {
            SeekFrom::Start(offset) => (i32::try_from(offset), 0),
            SeekFrom::Current(offset) => (i32::try_from(offset), 1),
            SeekFrom::End(offset) => (i32::try_from(offset), 2),
        };
        let offset = offset.map_err(|_| Error::Seek)?;
        let table = self.view.table();
        self.position = table.seek(self.number, self.position, offset, whence)?;
        Ok(self.position.into())
    }
}
