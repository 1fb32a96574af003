//! Files on a card, to read and to write.

use crate::border::Lent;
use crate::table::on_file;
use crate::{ffi, Error, Geometry, Image, Table, View, Window};
use std::fmt;

/// An image, its health, its table and its window: all that a call which writes works on.
///
/// A refused call hands the table back as it came, so every file still reads as before. The image is changed in place; keep
/// the table ([`Table::to_bytes`]) with it.
pub struct Card<'a> {
    geometry: Geometry,
    image: &'a mut [u8],
    health: &'a [u8],
    table: Table,
    window: Window,
}

impl<'a> Card<'a> {
    /// A card without files, its window fresh from block 0.
    ///
    /// ```
    /// use tidmaruls::{Card, Error, Geometry};
    ///
    /// let geometry = Geometry::new(128, 4)?;
    /// let mut image = geometry.blank_image();
    /// let mut health = geometry.good_health();
    /// health[0] = 1;
    /// let mut card = Card::new(geometry, &mut image, &health)?;
    /// card.create(3)?;
    /// card.write(3, 0, &[1; 372])?;
    /// assert_eq!(card.write(3, 372, &[1]), Err(Error::NoRoom));
    /// assert_eq!(card.view().bytes(3)?, [1; 372]);
    /// # Ok::<(), Error>(())
    /// ```
    pub fn new(
        geometry: Geometry,
        image: &'a mut [u8],
        health: &'a [u8],
    ) -> Result<Card<'a>, Error> {
        Card::open(geometry, image, health, Table::new())
    }

    /// A card with the files of a table, its window fresh from block 0.
    pub fn open(
        geometry: Geometry,
        image: &'a mut [u8],
        health: &'a [u8],
        table: Table,
    ) -> Result<Card<'a>, Error> {
        Image::new(geometry, image)?;
        let (needed, given) = (geometry.block_count() as usize, health.len());
        if needed != given {
            return Err(Error::HealthLength { needed, given });
        }
        if let Some(block) = health.iter().position(|&byte| byte > 2) {
            return Err(Error::Health {
                block: block as u32,
                value: health[block],
            });
        }
        let window = Window::fresh(geometry, Window::LOOKAHEAD, 0)?;
        Ok(Card {
            geometry,
            image,
            health,
            table,
            window,
        })
    }

    /// The card with another window: a fresh one, or the one that its last call left.
    pub fn with_window(mut self, window: Window) -> Result<Card<'a>, Error> {
        self.window = Window::from_raw(self.geometry, window.lookahead(), window.to_raw())?;
        Ok(self)
    }

    /// The card's numbers.
    pub fn geometry(&self) -> Geometry {
        self.geometry
    }

    /// The card, to read.
    pub fn view(&self) -> View<'_> {
        View::of(Image::of(self.geometry, self.image), &self.table)
    }

    /// The table as the last call left it.
    pub fn table(&self) -> &Table {
        &self.table
    }

    /// The window as the last call left it.
    pub fn window(&self) -> &Window {
        &self.window
    }

    /// Makes an empty file.
    pub fn create(&mut self, number: u32) -> Result<(), Error> {
        self.table.create(number)
    }

    /// Removes a file.
    pub fn remove(&mut self, number: u32) -> Result<(), Error> {
        self.table.remove(number)
    }

    /// Writes bytes at a position. A gap past the end becomes zeros; bytes past the data stay.
    pub fn write(&mut self, number: u32, position: u32, data: &[u8]) -> Result<(), Error> {
        let told = self.lent().write(number, position, data);
        let length = data.len();
        match told.code {
            -27 => Err(Error::TooLarge { position, length }),
            _ => self.stored(told, number, Error::Position(position)),
        }
    }

    /// Writes bytes at the end.
    pub fn append(&mut self, number: u32, data: &[u8]) -> Result<(), Error> {
        let end = self.table.size(number)?;
        self.write(number, end, data)
    }

    /// Gives a file another size: cuts it, or adds zeros.
    ///
    /// ```
    /// # use tidmaruls::{Card, Geometry};
    /// # let geometry = Geometry::new(128, 10)?;
    /// # let (mut image, health) = (geometry.blank_image(), geometry.good_health());
    /// # let mut card = Card::new(geometry, &mut image, &health)?;
    /// card.create(1)?;
    /// card.write(1, 0, b"stops")?;
    /// card.truncate(1, 3)?;
    /// card.truncate(1, 5)?;
    /// assert_eq!(card.view().bytes(1)?, b"sto\0\0");
    /// # Ok::<(), tidmaruls::Error>(())
    /// ```
    pub fn truncate(&mut self, number: u32, size: u32) -> Result<(), Error> {
        let told = self.lent().truncate(number, size);
        self.stored(told, number, Error::Size(size))
    }

    /// As a call that changes the image takes it.
    fn lent(&mut self) -> Lent<'_> {
        Lent {
            geometry: self.geometry.crossing(),
            lookahead: self.window.lookahead(),
            image: self.image,
            health: self.health,
            window: self.window.crossing(),
            table: self.table.crossing(),
        }
    }

    /// Takes over the window and table that a call left.
    fn stored(&mut self, told: ffi::Stored, number: u32, invalid: Error) -> Result<(), Error> {
        self.window = Window::crossed(self.window.lookahead(), told.window);
        self.table = Table::crossed(told.table);
        on_file(told.code, number, invalid)
    }
}

impl fmt::Debug for Card<'_> {
    fn fmt(&self, to: &mut fmt::Formatter<'_>) -> fmt::Result {
        let mut shown = to.debug_struct("Card");
        shown.field("geometry", &self.geometry);
        shown.field("table", &self.table);
        shown.field("window", &self.window);
        shown.finish_non_exhaustive()
    }
}
