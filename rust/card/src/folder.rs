//! A card as a folder: geometry, image, health, table.

use crate::replace::{replace, PIECE};
use crate::terminal::Progress;
use crate::trouble::Trouble;
use std::fs::{self, File};
use std::io::{self, ErrorKind, Read};
use std::path::{Path, PathBuf};
use tidmaruls::{Card, Geometry, Table, View, Window, SAVED_MAX};

/// The files of a folder, read and found to fit each other.
pub struct Folder {
    path: PathBuf,
    pub geometry: Geometry,
    pub image: Vec<u8>,
    pub health: Vec<u8>,
    pub table: Table,
}

/// A file's bytes, but no more than one past the most that make sense.
fn read(path: &Path, name: &str, most: usize) -> Result<Vec<u8>, Trouble> {
    let file = path.join(name);
    let shown = file.display();
    let trouble = |error: io::Error| {
        match error.kind() {
        ErrorKind::NotFound if !path.exists() => Trouble::io(format!(
            "There is no folder {}: name a card, or make one with `card new`.",
            path.display()
        )),
        ErrorKind::NotFound => Trouble::io(format!(
            "{} has no file `{name}`, so it is no card: name another folder, or bring the file back from a copy.",
            path.display()
        )),
        _ if path.is_file() => Trouble::io(format!("{} is a file: name the card's folder.", path.display())),
        _ => Trouble::io(format!("{shown} cannot be read ({error}): look at who may read it.")),
    }
    };
    let mut opened = File::open(&file).map_err(trouble)?;
    let total = opened.metadata().map_or(0, |about| about.len());
    let mut progress = Progress::new(format!("reading {name}"), total);
    let mut bytes = Vec::new();
    loop {
        let mut next = Read::take(&mut opened, PIECE as u64);
        let piece = next.read_to_end(&mut bytes).map_err(trouble)?;
        if piece == 0 || bytes.len() > most {
            return Ok(bytes);
        }
        progress.at(bytes.len() as u64);
    }
}

/// The numbers of the geometry file: two lines, `block-size BYTES` and `block-count COUNT`.
fn parsed(text: &[u8]) -> Option<(u32, u32)> {
    let mut lines = std::str::from_utf8(text).ok()?.lines();
    let block_size = lines.next()?.strip_prefix("block-size ")?.parse().ok()?;
    let block_count = lines.next()?.strip_prefix("block-count ")?.parse().ok()?;
    lines.next().is_none().then_some((block_size, block_count))
}

fn geometry(path: &Path) -> Result<Geometry, Trouble> {
    let bytes = read(path, "geometry", 100)?;
    let shown = path.join("geometry");
    let (block_size, block_count) = parsed(&bytes).ok_or_else(|| {
        Trouble::fault(format!(
            "{} does not have the two lines `block-size BYTES` and `block-count COUNT`: write them there, or bring the file back from a copy.",
            shown.display()
        ))
    })?;
    Geometry::new(block_size, block_count)
        .map_err(|error| Trouble::fault(format!("{}: {error}", shown.display())))
}

/// A file of the card that must have so many bytes.
fn exact(path: &Path, name: &str, needed: usize) -> Result<Vec<u8>, Trouble> {
    let bytes = read(path, name, needed)?;
    if bytes.len() != needed {
        let given = match bytes.len() {
            given if given > needed => format!("more than {needed}"),
            given => given.to_string(),
        };
        return Err(Trouble::fault(format!(
            "{} has {given} bytes, but the geometry needs {needed}: it was cut, lengthened, or is another card's; bring it back from a copy.",
            path.join(name).display()
        )));
    }
    Ok(bytes)
}

impl Folder {
    /// Reads a card.
    pub fn open(path: PathBuf) -> Result<Folder, Trouble> {
        let geometry = geometry(&path)?;
        let health = exact(&path, "health", geometry.block_count() as usize)?;
        if let Some(block) = health.iter().position(|&byte| byte > 2) {
            return Err(Trouble::fault(format!(
                "{} says {} of block {block}: a health byte is 0 (good), 1 (refuses erase) or 2 (refuses program); mend it.",
                path.join("health").display(),
                health[block]
            )));
        }
        let image = exact(&path, "image", geometry.image_length())?;
        let shown = path.join("table").display().to_string();
        let table = Table::load(&read(&path, "table", SAVED_MAX)?)
            .map_err(|error| Trouble::refused(&shown, error))?;
        Ok(Folder {
            path,
            geometry,
            image,
            health,
            table,
        })
    }

    /// Makes a card without files.
    pub fn make(path: PathBuf, geometry: Geometry, health: Vec<u8>) -> Result<Folder, Trouble> {
        let shown = path.display().to_string();
        if path.exists() && !path.is_dir() {
            return Err(Trouble::usage(format!(
                "{shown} is a file: name a new folder."
            )));
        }
        if path
            .read_dir()
            .is_ok_and(|mut entries| entries.next().is_some())
        {
            return Err(Trouble::usage(format!(
                "{shown} is there and not empty: name a new folder, or remove it first."
            )));
        }
        fs::create_dir_all(&path).map_err(|error| {
            Trouble::io(format!("{shown} cannot be made ({error}): look at the folder above it, and at who may write there."))
        })?;
        let text = format!(
            "block-size {}\nblock-count {}\n",
            geometry.block_size(),
            geometry.block_count()
        );
        replace(&path.join("geometry"), text.as_bytes())?;
        replace(&path.join("health"), &health)?;
        let folder = Folder {
            path,
            geometry,
            image: geometry.blank_image(),
            health,
            table: Table::new(),
        };
        folder.save()?;
        Ok(folder)
    }

    /// Writes image and table, the table last: until then the old files are whole.
    pub fn save(&self) -> Result<(), Trouble> {
        replace(&self.path.join("image"), &self.image)?;
        self.save_table()
    }

    /// Writes the table.
    pub fn save_table(&self) -> Result<(), Trouble> {
        let file = self.path.join("table");
        let bytes = self
            .table
            .to_bytes()
            .map_err(|error| Trouble::refused(&self.shown(), error))?;
        replace(&file, &bytes)
    }

    pub fn shown(&self) -> String {
        self.path.display().to_string()
    }

    pub fn view(&self) -> Result<View<'_>, Trouble> {
        View::new(self.geometry, &self.image, &self.table)
            .map_err(|error| Trouble::refused(&self.shown(), error))
    }

    /// Changes files, from a fresh window that starts at a block; the folder's own files stay until they are saved.
    ///
    /// No window is kept from run to run: one that is older than the table or the image could hand out a block in use,
    /// and a fresh one finds every free block.
    pub fn change(
        &mut self,
        start: u32,
        call: impl FnOnce(&mut Card) -> Result<(), tidmaruls::Error>,
    ) -> Result<(), tidmaruls::Error> {
        let window = Window::fresh(self.geometry, Window::LOOKAHEAD, start)?;
        let card = Card::open(self.geometry, &mut self.image, &self.health, self.table)?;
        let mut card = card.with_window(window)?;
        call(&mut card)?;
        self.table = *card.table();
        Ok(())
    }
}
