//! The commands that make cards, and list, cut and remove files; and what commands on files say.

use crate::arguments::Arguments;
use crate::folder::Folder;
use crate::json::Json;
use crate::output;
use crate::owners::Owners;
use crate::trouble::Trouble;
use tidmaruls::{Error, Geometry};

/// A count with its word, in the singular where it is one.
pub fn counted(count: u64, word: &str) -> String {
    let plural = if count == 1 { "" } else { "s" };
    format!("{count} {word}{plural}")
}

pub fn new(arguments: &Arguments) -> Result<bool, Trouble> {
    let (block_size, block_count) = (
        arguments.needed("--block-size")?,
        arguments.needed("--block-count")?,
    );
    let geometry = Geometry::new(block_size, block_count)
        .map_err(|error| Trouble::usage(error.to_string()))?;
    let mut health = geometry.good_health();
    for (option, value) in [("--refuse-erase", 1), ("--refuse-program", 2)] {
        for block in arguments.blocks(option, block_count)? {
            health[block as usize] = value;
        }
    }
    let faulty = health.iter().filter(|&&byte| byte != 0).count() as u64;
    let folder = Folder::make(arguments.folder(), geometry, health)?;
    if arguments.json {
        let mut object = Json::object();
        object
            .text("card", &folder.shown())
            .number("block_size", block_size);
        object
            .number("block_count", block_count)
            .number("faulty", faulty);
        output::line(&object.end())?;
    } else {
        output::line(&format!(
            "Made the card {}: {} of {block_size} bytes, {faulty} faulty, no files.",
            folder.shown(),
            counted(block_count.into(), "block")
        ))?;
    }
    Ok(false)
}

pub fn ls(arguments: &Arguments) -> Result<bool, Trouble> {
    let folder = Folder::open(arguments.folder())?;
    let (mut array, mut lines, mut used) = (Json::array(), String::new(), 0);
    for entry in &folder.table {
        let blocks = folder
            .geometry
            .blocks(entry.size)
            .map_err(|error| Trouble::refused(&folder.shown(), error))?;
        let head = match entry.size {
            0 => None,
            _ => Some(entry.head),
        };
        let mut object = Json::object();
        object
            .number("file", entry.number)
            .number("size", entry.size)
            .number("blocks", blocks);
        object.field(
            "head",
            &head.map_or("null".to_string(), |head| head.to_string()),
        );
        array.item(&object.end());
        let head = head.map_or("-".to_string(), |head| head.to_string());
        lines += &format!(
            "{:>5}  {:>10}  {:>6}  {head:>10}\n",
            entry.number, entry.size, blocks
        );
        used += blocks as u64;
    }
    let geometry = folder.geometry;
    if arguments.json {
        let mut object = Json::object();
        object
            .number("block_size", geometry.block_size())
            .number("block_count", geometry.block_count());
        object.field("files", &array.end());
        output::line(&object.end())?;
        return Ok(false);
    }
    let count = folder.table.entries().len() as u64;
    if count > 0 {
        lines.insert_str(0, " file        size  blocks  last block\n");
    }
    let (blocks, size) = (geometry.block_count(), geometry.block_size());
    output::text(&format!(
        "{lines}{} in {used} of {blocks} blocks of {size} bytes.\n",
        counted(count, "file")
    ))?;
    Ok(false)
}

/// What to say of a call that was refused, with what helps then.
pub fn refused(folder: &Folder, number: u32, error: Error) -> Trouble {
    let card = folder.shown();
    let trouble = Trouble::refused(&format!("{card}, file {number}"), error);
    match error {
        Error::NoFile(_) => trouble.with_hint(format!(
            "`card ls {card}` shows the files, `card put` makes one."
        )),
        Error::Damaged => trouble.with_hint(format!("`card check {card}` names the fault.")),
        _ => trouble,
    }
}

/// The same for a call that grows a file from a size to another: where room is short, how much is needed and there.
pub fn no_room(folder: &Folder, number: u32, grows: (u32, u64), error: Error) -> Trouble {
    if error != Error::NoRoom {
        return refused(folder, number, error);
    }
    let last = u32::try_from(grows.1.saturating_sub(1)).unwrap_or(u32::MAX);
    let index = |position| {
        folder
            .geometry
            .place(position)
            .map_or(0, |place| place.index as u64)
    };
    let needed = counted(index(last) - index(grows.0.min(last)) + 1, "new block");
    let free = folder
        .view()
        .map_or(0, |view| Owners::of(&view, &folder.health).free());
    Trouble::full(format!(
        "{}, file {number}: there is no room. It takes {needed}, and {free} good ones are free: remove or shorten a file first. Nothing was changed.",
        folder.shown()
    ))
}

/// Tells what became of a file.
pub fn told(
    arguments: &Arguments,
    folder: &Folder,
    number: u32,
    done: &str,
) -> Result<bool, Trouble> {
    let size = folder.table.get(number).map(|entry| entry.size);
    if arguments.json {
        let mut object = Json::object();
        object.number("file", number);
        object.field(
            "size",
            &size.map_or("null".to_string(), |size| size.to_string()),
        );
        output::line(&object.end())?;
    } else {
        let size = size.map_or(String::new(), |size| {
            format!("; it has {}", counted(size.into(), "byte"))
        });
        output::line(&format!("{done}{size}."))?;
    }
    Ok(false)
}

pub fn rm(arguments: &Arguments) -> Result<bool, Trouble> {
    let number = arguments.number(1, "FILE-NUMBER")?;
    let mut folder = Folder::open(arguments.folder())?;
    let removed = folder.table.remove(number);
    removed.map_err(|error| refused(&folder, number, error))?;
    folder.save_table()?;
    told(
        arguments,
        &folder,
        number,
        &format!("Removed file {number}"),
    )
}

pub fn truncate(arguments: &Arguments) -> Result<bool, Trouble> {
    let (number, size) = (
        arguments.number(1, "FILE-NUMBER")?,
        arguments.number(2, "SIZE")?,
    );
    let start = arguments.option_number("--start")?.unwrap_or(0);
    let mut folder = Folder::open(arguments.folder())?;
    let before = folder.table.get(number).map_or(0, |entry| entry.size);
    let changed = folder.change(start, |card| card.truncate(number, size));
    changed.map_err(|error| no_room(&folder, number, (before, size.into()), error))?;
    if size > before {
        folder.save()?;
    } else {
        folder.save_table()?;
    }
    told(
        arguments,
        &folder,
        number,
        &format!("Set the size of file {number}"),
    )
}
