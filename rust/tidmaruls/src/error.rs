//! Why a call was refused.

use crate::{FILES, FILE_MAX, NUMBER_MAX, SAVED_MAX};
use std::fmt;
use std::io;

/// Why a call was refused. The message is a sentence that says what is wrong and what to do.
///
/// ```
/// use tidmaruls::{Error, Geometry};
///
/// let error = Geometry::new(100, 10).unwrap_err();
/// assert_eq!(error, Error::Geometry { block_size: 100, block_count: 10 });
/// assert_eq!(error.code(), -22);
/// assert!(error.to_string().contains("take blocks of 128 to 65536 bytes"));
/// ```
#[derive(Clone, Copy, PartialEq, Eq, Debug)]
#[non_exhaustive]
pub enum Error {
    /// A geometry that is not served.
    Geometry { block_size: u32, block_count: u32 },
    /// An image that does not have block size times block count bytes.
    ImageLength { needed: usize, given: usize },
    /// A health that does not have one byte a block.
    HealthLength { needed: usize, given: usize },
    /// A health byte above 2.
    Health { block: u32, value: u8 },
    /// A lookahead that is not 8 to 64 bytes in steps of 8.
    Lookahead(u32),
    /// A window's start that is not a block of the card.
    Start { start: u32, block_count: u32 },
    /// A window that is none of this card.
    Window,
    /// Entries that are no table.
    Table,
    /// A file number above the largest.
    FileNumber(u32),
    /// A file that is not there.
    NoFile(u32),
    /// A file that is there already.
    Exists(u32),
    /// No slot left in the table.
    TableFull,
    /// A position above the largest.
    Position(u32),
    /// A lookup at or past the end of a list.
    PastEnd { position: u32, size: u32 },
    /// A size above the largest.
    Size(u32),
    /// A seek that leads below 0 or above the largest position.
    Seek,
    /// A write that ends above the largest size.
    TooLarge { position: u32, length: usize },
    /// A buffer that the saved table does not fit into.
    Buffer { given: usize },
    /// No block left.
    NoRoom,
    /// A list that names a block which the card does not have.
    Damaged,
    /// Bytes that are no saved table.
    Saved,
    /// An answer that the rules do not have.
    Unknown(i32),
}

impl Error {
    /// The refusal number of the library's rules.
    pub fn code(&self) -> i32 {
        match self {
            Error::NoFile(_) => -2,
            Error::TableFull => -12,
            Error::Exists(_) => -17,
            Error::TooLarge { .. } => -27,
            Error::NoRoom => -28,
            Error::Damaged | Error::Saved => -84,
            Error::Unknown(code) => *code,
            _ => -22,
        }
    }

    /// The error of a refusal number; `invalid` is what -22 means there.
    #[allow(dead_code)]
    pub(crate) fn told(code: i32, invalid: Error) -> Result<(), Error> {
        match code {
            0 => Ok(()),
            -12 => Err(Error::TableFull),
            -22 => Err(invalid),
            -28 => Err(Error::NoRoom),
            -84 => Err(Error::Damaged),
            other => Err(Error::Unknown(other)),
        }
    }
}

impl fmt::Display for Error {
    fn fmt(&self, to: &mut fmt::Formatter<'_>) -> fmt::Result {
        macro_rules! say {
            ($sentence:literal) => {
                write!(to, $sentence)
            };
        }
        match *self {
            Error::Geometry { block_size, block_count } => say!("A card of {block_count} blocks of {block_size} bytes is not served: take blocks of 128 to 65536 bytes, 1 to 65536 of them, at most 16777216 bytes in all."),
            Error::ImageLength { needed, given } => say!("The image has {given} bytes, but the geometry needs {needed}: pass the whole image and nothing else."),
            Error::HealthLength { needed, given } => say!("The health has {given} bytes, but the card has {needed} blocks: pass one byte a block."),
            Error::Health { block, value } => say!("Block {block} has the health byte {value}: use 0 (good), 1 (refuses erase) or 2 (refuses program)."),
            Error::Lookahead(lookahead) => say!("A lookahead of {lookahead} bytes is not served: take 8 to 64, a multiple of 8."),
            Error::Start { start, block_count } => say!("The window cannot start at block {start}: the card has {block_count} blocks, so take a start below that."),
            Error::Window => say!("The window is none of this card: make a fresh one, or hand on the one that the last call left."),
            Error::Table => say!("These entries are no table: list at most {FILES} files, numbers rising up to {NUMBER_MAX}, sizes up to {FILE_MAX}, heads up to 65535, and the null head exactly where the size is 0."),
            Error::FileNumber(number) => say!("{number} is no file number: take one from 0 to {NUMBER_MAX}."),
            Error::NoFile(number) => say!("There is no file {number}: create it, or take a number that the table holds."),
            Error::Exists(number) => say!("File {number} is there already: write to it, or remove it first."),
            Error::TableFull => say!("The table holds {FILES} files and no more: remove one first."),
            Error::Position(position) => say!("{position} is no position: take one from 0 to {FILE_MAX}."),
            Error::PastEnd { position, size } => say!("Position {position} is past the end: the file has {size} bytes, so take a position below that."),
            Error::Size(size) => say!("{size} is no size: take one from 0 to {FILE_MAX}."),
            Error::Seek => say!("The seek leads to no position: stay from 0 to {FILE_MAX}."),
            Error::TooLarge { position, length } => say!("{length} bytes at position {position} end above the largest size, {FILE_MAX}: write less, or earlier in the file."),
            Error::Buffer { given } => say!("The saved table does not fit into {given} bytes: {SAVED_MAX} are enough for every table."),
            Error::NoRoom => say!("No block is left on the card: remove or shorten a file first."),
            Error::Damaged => say!("A list names a block that the card does not have: check the lists, and bring the file back from a copy."),
            Error::Saved => say!("These bytes are no saved table in its exact form: take them whole and unchanged from a save, or bring them back from a copy."),
            Error::Unknown(code) => say!("The library answered {code}, which its rules do not have: link the library that this crate belongs to."),
        }
    }
}

impl std::error::Error for Error {}

impl From<Error> for io::Error {
    fn from(error: Error) -> io::Error {
        let kind = match error {
            Error::NoFile(_) => io::ErrorKind::NotFound,
            Error::Exists(_) => io::ErrorKind::AlreadyExists,
            Error::NoRoom | Error::TableFull => io::ErrorKind::StorageFull,
            Error::Damaged | Error::Saved => io::ErrorKind::InvalidData,
            Error::Unknown(_) => io::ErrorKind::Other,
            _ => io::ErrorKind::InvalidInput,
        };
        io::Error::new(kind, error)
    }
}
