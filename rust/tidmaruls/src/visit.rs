//! The visit of a list: its blocks, one by one.

use crate::{ffi, Error, Image, List};
use std::iter::FusedIterator;

impl<'a> Image<'a> {
    /// The blocks of a list, last index first, each index once.
    ///
    /// ```
    /// use tidmaruls::{Geometry, Image, List, Visited};
    ///
    /// let geometry = Geometry::new(128, 3)?;
    /// let mut bytes = geometry.blank_image();
    /// bytes[128..132].copy_from_slice(&2_u32.to_le_bytes());
    /// let image = Image::new(geometry, &bytes)?;
    /// let visit: Result<Vec<Visited>, _> = image.visit(List { head: 1, size: 129 })?.collect();
    /// assert_eq!(visit?, [Visited { index: 1, block: 1 }, Visited { index: 0, block: 2 }]);
    /// # Ok::<(), tidmaruls::Error>(())
    /// ```
    pub fn visit(&self, list: List) -> Result<Visit<'a>, Error> {
        let begun = unsafe { ffi::tid_visit(self.geometry().crossing(), list.head, list.size) };
        Error::told(begun.code, Error::Size(list.size))?;
        Ok(Visit {
            image: *self,
            place: (begun.more != 0).then_some(begun.place),
        })
    }
}

/// A block that a visit hands over, and its index in the list.
#[derive(Clone, Copy, PartialEq, Eq, Hash, Debug)]
pub struct Visited {
    /// The block's place in its list, from 0.
    pub index: u32,
    /// The block's number.
    pub block: u32,
}

/// The blocks of a list, last index first; it ends after index 0, or after the first error.
///
/// A damaged list may name a block twice: then more blocks can come than the card has.
#[derive(Clone, Debug)]
pub struct Visit<'a> {
    image: Image<'a>,
    place: Option<ffi::Visit>,
}

impl Iterator for Visit<'_> {
    type Item = Result<Visited, Error>;

    fn next(&mut self) -> Option<Self::Item> {
        let place = self.place.take()?;
        let geometry = self.image.geometry().crossing();
        let bytes = self.image.bytes();
        let step = unsafe { ffi::tid_traverse(geometry, bytes.as_ptr(), bytes.len(), place) };
        if let Err(error) = Error::told(step.code, Error::Unknown(step.code)) {
            return Some(Err(error));
        }
        self.place = (step.more != 0).then_some(step.place);
        Some(Ok(Visited {
            index: place.index,
            block: step.block,
        }))
    }

    fn size_hint(&self) -> (usize, Option<usize>) {
        match self.place {
            None => (0, Some(0)),
            Some(place) => (1, (place.index as usize).checked_add(1)),
        }
    }
}

impl FusedIterator for Visit<'_> {}
