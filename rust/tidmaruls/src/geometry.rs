//! A card's numbers.

use crate::{ffi, Error};

/// Block size and block count of a card, within the rules.
#[derive(Clone, Copy, PartialEq, Eq, Hash, Debug)]
pub struct Geometry {
    block_size: u32,
    block_count: u32,
}

/// Index of the block that holds a position, and the offset in it.
#[derive(Clone, Copy, PartialEq, Eq, Hash, Debug)]
pub struct Place {
    /// The block's place in its list, from 0.
    pub index: u32,
    /// The byte's place in the block.
    pub offset: u32,
}

impl Geometry {
    /// Blocks have 128 to 65,536 bytes, a card has 1 to 65,536 of them and at most 16,777,216 bytes.
    ///
    /// ```
    /// use tidmaruls::Geometry;
    ///
    /// assert_eq!(Geometry::new(512, 64)?.image_length(), 32_768);
    /// assert!(Geometry::new(65_536, 257).is_err());
    /// # Ok::<(), tidmaruls::Error>(())
    /// ```
    pub fn new(block_size: u32, block_count: u32) -> Result<Geometry, Error> {
        let served = (128..=65_536).contains(&block_size)
            && (1..=65_536).contains(&block_count)
            && block_size as u64 * block_count as u64 <= 16_777_216;
        if !served {
            return Err(Error::Geometry {
                block_size,
                block_count,
            });
        }
        Ok(Geometry {
            block_size,
            block_count,
        })
    }

    /// Bytes of a block.
    pub fn block_size(&self) -> u32 {
        self.block_size
    }

    /// Blocks of the card.
    pub fn block_count(&self) -> u32 {
        self.block_count
    }

    /// Bytes of the image.
    pub fn image_length(&self) -> usize {
        self.block_size as usize * self.block_count as usize
    }

    /// An image of erased blocks.
    pub fn blank_image(&self) -> Vec<u8> {
        vec![0xFF; self.image_length()]
    }

    /// The health of a card without faults.
    pub fn good_health(&self) -> Vec<u8> {
        vec![0; self.block_count as usize]
    }

    /// Where a position lies in a list of such blocks: the first block is all data, each further one starts with pointers.
    ///
    /// ```
    /// use tidmaruls::{Geometry, Place};
    ///
    /// let geometry = Geometry::new(128, 10)?;
    /// assert_eq!(geometry.place(127)?, Place { index: 0, offset: 127 });
    /// assert_eq!(geometry.place(128)?, Place { index: 1, offset: 4 });
    /// # Ok::<(), tidmaruls::Error>(())
    /// ```
    #[cfg(feature = "index")]
    pub fn place(&self, position: u32) -> Result<Place, Error> {
        let told = unsafe { ffi::tid_index(self.block_size, position) };
        let invalid = Error::Geometry {
            block_size: self.block_size,
            block_count: self.block_count,
        };
        Error::told(told.code, invalid)?;
        Ok(Place {
            index: told.index,
            offset: told.offset,
        })
    }

    /// How many blocks a list of this size has.
    #[cfg(feature = "index")]
    pub fn blocks(&self, size: u32) -> Result<u32, Error> {
        match size.checked_sub(1) {
            None => Ok(0),
            Some(last) => Ok(self.place(last)?.index + 1),
        }
    }

    /// As it crosses the border.
    #[allow(dead_code)]
    pub(crate) fn crossing(&self) -> ffi::Geometry {
        ffi::Geometry {
            block_size: self.block_size,
            block_count: self.block_count,
        }
    }
}
