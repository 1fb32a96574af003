//! The commands that bring bytes to a card and back: put and get.

use crate::arguments::Arguments;
use crate::files::{counted, no_room, refused, told};
use crate::folder::Folder;
use crate::json::Json;
use crate::output;
use crate::replace::replace;
use crate::terminal::Progress;
use crate::trouble::Trouble;
use std::fs::File;
use std::io::{self, IsTerminal, Read};
use std::path::Path;
use tidmaruls::{Error, Table, View, FILES, NUMBER_MAX};

/// The bytes to put: of a file, or of standard input; more than the card has bytes never fit.
fn source(name: &str, folder: &Folder) -> Result<Vec<u8>, Trouble> {
    let unread = |error| {
        Trouble::io(format!(
            "{name} cannot be read ({error}): name a file that can."
        ))
    };
    let mut from: Box<dyn Read> = match name {
        "-" => Box::new(io::stdin().lock()),
        _ => Box::new(File::open(name).map_err(unread)?),
    };
    if name == "-" && io::stdin().is_terminal() {
        output::complaint("card: reading from the terminal; end with Ctrl-D.");
    }
    let (most, mut bytes) = (folder.geometry.image_length(), Vec::new());
    let mut from = Read::take(&mut from, most as u64 + 1);
    from.read_to_end(&mut bytes).map_err(unread)?;
    if bytes.len() > most {
        return Err(Trouble::full(format!(
            "{name} has more bytes than the whole card, which has {most}: put less, or make a larger card. Nothing was changed."
        )));
    }
    Ok(bytes)
}

/// Gives a file these bytes as its whole content. They are written as a further file whose list the file then takes over, so
/// that no block of the old content is touched; only where the table has no slot for it are they written over the old.
fn content(folder: &mut Folder, start: u32, number: u32, bytes: &[u8]) -> Result<(), Error> {
    let mut numbers = 0..=NUMBER_MAX;
    let spare = numbers.find(|&spare| folder.table.get(spare).is_none());
    let (Some(spare), true) = (spare, folder.table.entries().len() < FILES) else {
        return folder.change(start, |card| {
            card.write(number, 0, bytes)?;
            card.truncate(number, bytes.len() as u32)
        });
    };
    folder.change(start, |card| {
        card.create(spare)?;
        card.write(spare, 0, bytes)
    })?;
    let written = folder.table.list(spare)?;
    folder.table.remove(spare)?;
    let mut entries = folder.table.entries().to_vec();
    for entry in entries.iter_mut().filter(|entry| entry.number == number) {
        (entry.size, entry.head) = (written.size, written.head);
    }
    folder.table = Table::from_entries(&entries)?;
    Ok(())
}

pub fn put(arguments: &Arguments) -> Result<bool, Trouble> {
    let number = arguments.number(1, "FILE-NUMBER")?;
    let start = arguments.option_number("--start")?.unwrap_or(0);
    let (at, append) = (arguments.option_number("--at")?, arguments.flag("--append"));
    if at.is_some() && append {
        return Err(Trouble::usage(
            "--at and --append contradict each other: give one of them.",
        ));
    }
    let mut folder = Folder::open(arguments.folder())?;
    let bytes = source(arguments.word(2).unwrap_or_default(), &folder)?;
    let there = folder.table.get(number);
    if there.is_none() {
        let created = folder.table.create(number);
        created.map_err(|error| refused(&folder, number, error))?;
    }
    let size = there.map_or(0, |entry| entry.size);
    let position = if append { Some(size) } else { at };
    let changed = match position {
        Some(position) => folder.change(start, |card| card.write(number, position, &bytes)),
        None => content(&mut folder, start, number, &bytes),
    };
    let length = bytes.len() as u64;
    let grows = match position {
        Some(position) => (
            position.min(size),
            (position as u64 + length).max(size.into()),
        ),
        None => (0, length),
    };
    changed.map_err(|error| no_room(&folder, number, grows, error))?;
    folder.save()?;
    let length = counted(length, "byte");
    let done = match there {
        None => format!("Made file {number} and put {length}"),
        Some(_) => format!("Put {length} into file {number}"),
    };
    told(arguments, &folder, number, &done)
}

/// The bytes of a file from a position on, stretch after stretch.
fn bytes(view: &View, number: u32, position: u32, length: u32) -> Result<Vec<u8>, Error> {
    let size = view.size(number)?;
    let total = size.saturating_sub(position).min(length);
    if total as usize > view.image().bytes().len() {
        return Err(Error::Damaged);
    }
    let mut progress = Progress::new("reading", total.into());
    let mut bytes: Vec<u8> = Vec::with_capacity(total as usize);
    let mut left = total as usize;
    loop {
        let stretch = view.stretch(number, position.saturating_add(bytes.len() as u32))?;
        let part = &stretch[..left.min(stretch.len())];
        if part.is_empty() {
            return Ok(bytes);
        }
        bytes.extend_from_slice(part);
        left -= part.len();
        progress.at(bytes.len() as u64);
    }
}

pub fn get(arguments: &Arguments) -> Result<bool, Trouble> {
    let number = arguments.number(1, "FILE-NUMBER")?;
    let position = arguments.option_number("--at")?.unwrap_or(0);
    let length = arguments.option_number("--length")?.unwrap_or(u32::MAX);
    let target = arguments.word(2).filter(|name| *name != "-");
    if arguments.json && target.is_none() {
        return Err(Trouble::usage(
            "With --json the bytes cannot go to standard output: name a TARGET.",
        ));
    }
    let folder = Folder::open(arguments.folder())?;
    let read = bytes(&folder.view()?, number, position, length);
    let read = read.map_err(|error| refused(&folder, number, error))?;
    let Some(target) = target else {
        return output::bytes(&read).map(|()| false);
    };
    replace(Path::new(target), &read)?;
    if arguments.json {
        let mut object = Json::object();
        object.number("file", number).number("position", position);
        object.number("length", read.len()).text("target", target);
        output::line(&object.end())?;
    } else {
        output::line(&format!(
            "Wrote {} of file {number} to {target}.",
            counted(read.len() as u64, "byte")
        ))?;
    }
    Ok(false)
}
