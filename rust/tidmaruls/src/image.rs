//! One list on a card: lookup and check. No table is needed.

#[allow(unused_imports)]
use crate::{raw, Error, Geometry, FILE_MAX, NULL};
use std::fmt;

/// The bytes of a card, to look at.
#[derive(Clone, Copy)]
pub struct Image<'a> {
    geometry: Geometry,
    bytes: &'a [u8],
}

/// A list: its last block and its size in bytes. The head of an empty list is [`NULL`].
#[derive(Clone, Copy, PartialEq, Eq, Hash, Debug)]
pub struct List {
    /// The last block.
    pub head: u32,
    /// The size in bytes.
    pub size: u32,
}

impl List {
    /// The list without bytes.
    pub const EMPTY: List = List {
        head: NULL,
        size: 0,
    };
}

impl<'a> Image<'a> {
    /// The image must have exactly block size times block count bytes.
    ///
    /// ```
    /// use tidmaruls::{Error, Geometry, Image, List};
    ///
    /// let geometry = Geometry::new(128, 2)?;
    /// let mut bytes = geometry.blank_image();
    /// bytes[128..132].copy_from_slice(&0_u32.to_le_bytes());
    /// let image = Image::new(geometry, &bytes)?;
    ///
    /// let list = List { head: 1, size: 200 };
    /// # #[cfg(feature = "check")]
    /// assert_eq!(image.check(list)?, None);
    /// # #[cfg(feature = "find")] {
    /// let found = image.find(list, 0)?.expect("a list with bytes");
    /// assert_eq!((found.block, found.offset, found.hops), (0, 0, 1));
    /// # }
    /// assert_eq!(Image::new(geometry, &bytes[1..]).err(), Some(Error::ImageLength { needed: 256, given: 255 }));
    /// # Ok::<(), tidmaruls::Error>(())
    /// ```
    pub fn new(geometry: Geometry, bytes: &'a [u8]) -> Result<Image<'a>, Error> {
        let (needed, given) = (geometry.image_length(), bytes.len());
        if needed != given {
            return Err(Error::ImageLength { needed, given });
        }
        Ok(Image { geometry, bytes })
    }

    /// An image whose length was checked.
    #[cfg(feature = "full")]
    pub(crate) fn of(geometry: Geometry, bytes: &'a [u8]) -> Image<'a> {
        Image { geometry, bytes }
    }

    /// The card's numbers.
    pub fn geometry(&self) -> Geometry {
        self.geometry
    }

    /// All bytes, block after block.
    pub fn bytes(&self) -> &'a [u8] {
        self.bytes
    }

    /// The bytes of one block.
    pub fn block(&self, number: u32) -> Option<&'a [u8]> {
        let size = self.geometry.block_size() as usize;
        let first = number as usize * size;
        self.bytes.get(first..first + size)
    }

    /// Where a position of a list lies, and how many pointers the lookup followed; `None` for an empty list.
    #[cfg(feature = "find")]
    pub fn find(&self, list: List, position: u32) -> Result<Option<raw::Found>, Error> {
        let List { head, size } = list;
        let invalid = match size {
            0..=FILE_MAX => Error::PastEnd { position, size },
            _ => Error::Size(size),
        };
        match raw::find(self.geometry.crossing(), self.bytes, head, size, position) {
            Ok(found) => Ok((size > 0).then_some(found)),
            Err(code) => Error::told(code, invalid).map(|()| None),
        }
    }

    /// The first fault of a list; `None` if it is sound.
    #[cfg(feature = "check")]
    pub fn check(&self, list: List) -> Result<Option<raw::Fault>, Error> {
        let List { head, size } = list;
        let checked = raw::check(self.geometry.crossing(), self.bytes, head, size);
        checked.or_else(|code| Error::told(code, Error::Size(size)).map(|()| None))
    }
}

impl fmt::Debug for Image<'_> {
    fn fmt(&self, to: &mut fmt::Formatter<'_>) -> fmt::Result {
        let mut shown = to.debug_struct("Image");
        shown.field("geometry", &self.geometry);
        shown.finish_non_exhaustive()
    }
}

#[cfg(feature = "check")]
impl fmt::Display for raw::Fault {
    fn fmt(&self, to: &mut fmt::Formatter<'_>) -> fmt::Result {
        match self {
            raw::Fault::Beyond { index } => write!(
                to,
                "the number that should name its block of index {index} is no block of the card"
            ),
            raw::Fault::Again { index } => write!(
                to,
                "the number that should name its block of index {index} names a block which the list has used already"
            ),
            raw::Fault::Disagrees { index, pointer } => write!(
                to,
                "pointer {pointer} of its block of index {index} does not name the block of index {}",
                index.saturating_sub(1_u32.checked_shl(*pointer).unwrap_or(u32::MAX))
            ),
            raw::Fault::Headed => write!(to, "it has no bytes, but names a block as its last"),
        }
    }
}
