//! Files on a card, to read.

use crate::border::Seen;
use crate::table::on_file;
use crate::{Error, Fault, FileReader, Found, Geometry, Image, Table, Visit};

/// An image and the table of its files: all that reading needs.
#[derive(Clone, Copy, Debug)]
pub struct View<'a> {
    image: Image<'a>,
    table: &'a Table,
}

impl<'a> View<'a> {
    /// The image must have exactly block size times block count bytes.
    pub fn new(geometry: Geometry, image: &'a [u8], table: &'a Table) -> Result<View<'a>, Error> {
        let image = Image::new(geometry, image)?;
        Ok(View { image, table })
    }

    /// A view of an image whose length was checked.
    pub(crate) fn of(image: Image<'a>, table: &'a Table) -> View<'a> {
        View { image, table }
    }

    /// The image, for lists without a table.
    pub fn image(&self) -> Image<'a> {
        self.image
    }

    /// The table.
    pub fn table(&self) -> &'a Table {
        self.table
    }

    /// The size of a file.
    pub fn size(&self, number: u32) -> Result<u32, Error> {
        self.table.size(number)
    }

    /// Reads from a position to the end of `to` or of the file; answers how many bytes. At or past the end that is 0.
    ///
    /// ```
    /// # use tidmaruls::{Card, Geometry};
    /// # let geometry = Geometry::new(128, 10)?;
    /// # let (mut image, health) = (geometry.blank_image(), geometry.good_health());
    /// # let mut card = Card::new(geometry, &mut image, &health)?;
    /// card.create(1)?;
    /// card.write(1, 0, b"stops")?;
    /// let mut bytes = [b'.'; 8];
    /// assert_eq!(card.view().read(1, 2, &mut bytes)?, 3);
    /// assert_eq!(&bytes, b"ops.....");
    /// # Ok::<(), tidmaruls::Error>(())
    /// ```
    pub fn read(&self, number: u32, position: u32, to: &mut [u8]) -> Result<usize, Error> {
        let told = self.seen().read(number, position, to);
        on_file(told.code, number, Error::Position(position))?;
        Ok(told.length as usize)
    }

    /// All bytes of a file.
    pub fn bytes(&self, number: u32) -> Result<Vec<u8>, Error> {
        let mut bytes = vec![0; self.held(number)?];
        let length = self.read(number, 0, &mut bytes)?;
        bytes.truncate(length);
        Ok(bytes)
    }

    /// A file's size; a size that the card has no bytes for is damage, and not worth a buffer.
    fn held(&self, number: u32) -> Result<usize, Error> {
        let size = self.size(number)? as usize;
        if size > self.image.bytes().len() {
            return Err(Error::Damaged);
        }
        Ok(size)
    }

    /// The bytes from a position to the end of its block or file, where they lie in the image; empty at or past the end.
    ///
    /// ```
    /// # use tidmaruls::{Card, Geometry};
    /// # let geometry = Geometry::new(128, 10)?;
    /// # let (mut image, health) = (geometry.blank_image(), geometry.good_health());
    /// # let mut card = Card::new(geometry, &mut image, &health)?;
    /// card.create(1)?;
    /// card.write(1, 0, &[5; 150])?;
    /// assert_eq!(card.view().stretch(1, 100)?, [5; 28]);
    /// assert_eq!(card.view().stretch(1, 128)?, [5; 22]);
    /// assert_eq!(card.view().stretch(1, 150)?, []);
    /// # Ok::<(), tidmaruls::Error>(())
    /// ```
    pub fn stretch(&self, number: u32, position: u32) -> Result<&'a [u8], Error> {
        let told = self.seen().stretch(number, position);
        on_file(told.code, number, Error::Position(position))?;
        let place = told.place as usize;
        let part = self.image.bytes().get(place..place + told.length as usize);
        part.ok_or(Error::Unknown(told.code))
    }

    /// As a call that reads takes it.
    fn seen(&self) -> Seen<'a> {
        Seen {
            geometry: self.image.geometry().crossing(),
            image: self.image.bytes(),
            table: self.table.crossing(),
        }
    }

    /// A reader of a file, at its start.
    pub fn reader(&self, number: u32) -> Result<FileReader<'a>, Error> {
        FileReader::new(*self, number)
    }

    /// The blocks of a file, last index first.
    pub fn visit(&self, number: u32) -> Result<Visit<'a>, Error> {
        self.image.visit(self.table.list(number)?)
    }

    /// The first fault of a file's list; `None` if it is sound.
    pub fn check(&self, number: u32) -> Result<Option<Fault>, Error> {
        self.image.check(self.table.list(number)?)
    }

    /// The block and offset of a position of a file, and the pointers followed; `None` for an empty file.
    pub fn find(&self, number: u32, position: u32) -> Result<Option<Found>, Error> {
        self.image.find(self.table.list(number)?, position)
    }
}
