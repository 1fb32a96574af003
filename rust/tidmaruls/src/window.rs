//! The lookahead window: where the allocator looks for free blocks.

use crate::{ffi, Error, Geometry};

/// A window of a card, with its lookahead.
///
/// A window belongs to the table and image that it was used on: a fresh one is always right, an old one only if nothing
/// but calls with it changed them since.
#[derive(Clone, Copy, PartialEq, Eq, Debug)]
pub struct Window {
    lookahead: u32,
    held: ffi::Window,
}

impl Window {
    /// The largest lookahead.
    pub const LOOKAHEAD: u32 = 64;

    /// A fresh window that starts to look at block `start`; lookahead is 8 to 64 bytes, a multiple of 8.
    ///
    /// ```
    /// use tidmaruls::{Error, Geometry, Window};
    ///
    /// let geometry = Geometry::new(128, 10)?;
    /// assert_eq!(Window::fresh(geometry, 8, 9)?.ckpoint(), 10);
    /// assert_eq!(Window::fresh(geometry, 8, 10), Err(Error::Start { start: 10, block_count: 10 }));
    /// assert_eq!(Window::fresh(geometry, 12, 0), Err(Error::Lookahead(12)));
    /// # Ok::<(), Error>(())
    /// ```
    pub fn fresh(geometry: Geometry, lookahead: u32, start: u32) -> Result<Window, Error> {
        served(lookahead)?;
        let told = unsafe { ffi::tid_fresh(geometry.crossing(), lookahead, start) };
        let block_count = geometry.block_count();
        Error::told(told.code, Error::Start { start, block_count })?;
        Ok(Window::crossed(lookahead, told.window))
    }

    /// A window of these values, kept from before.
    pub fn from_raw(
        geometry: Geometry,
        lookahead: u32,
        held: ffi::Window,
    ) -> Result<Window, Error> {
        served(lookahead)?;
        let count = geometry.block_count();
        let good = held.start < count
            && held.next <= held.size
            && held.size <= count.min(8 * lookahead)
            && held.size - held.next <= held.ckpoint
            && held.ckpoint <= count;
        if !good {
            return Err(Error::Window);
        }
        Ok(Window { lookahead, held })
    }

    /// Its values.
    pub fn to_raw(&self) -> ffi::Window {
        self.held
    }

    /// Bytes of the map that are used.
    pub fn lookahead(&self) -> u32 {
        self.lookahead
    }

    /// The block of the map's first bit.
    pub fn start(&self) -> u32 {
        self.held.start
    }

    /// The bit to look at next.
    pub fn next(&self) -> u32 {
        self.held.next
    }

    /// How many bits the last scan covers.
    pub fn size(&self) -> u32 {
        self.held.size
    }

    /// How many blocks may still be passed before the next checkpoint.
    pub fn ckpoint(&self) -> u32 {
        self.held.ckpoint
    }

    /// The window with its checkpoint count set to the block count.
    pub fn checkpointed(&self, geometry: Geometry) -> Result<Window, Error> {
        let told = unsafe { ffi::tid_ckpoint(geometry.crossing(), self.lookahead, self.held) };
        Error::told(told.code, Error::Window)?;
        Ok(Window::crossed(self.lookahead, told.window))
    }

    /// The window emptied: the next allocation scans.
    pub fn dropped(&self, geometry: Geometry) -> Result<Window, Error> {
        let told = unsafe { ffi::tid_drop(geometry.crossing(), self.lookahead, self.held) };
        Error::told(told.code, Error::Window)?;
        Ok(Window::crossed(self.lookahead, told.window))
    }

    /// As it crosses the border.
    pub(crate) fn crossing(&self) -> &ffi::Window {
        &self.held
    }

    /// What a call handed back.
    pub(crate) fn crossed(lookahead: u32, held: ffi::Window) -> Window {
        Window { lookahead, held }
    }
}

fn served(lookahead: u32) -> Result<(), Error> {
    match lookahead {
        8..=64 if lookahead % 8 == 0 => Ok(()),
        _ => Err(Error::Lookahead(lookahead)),
    }
}
