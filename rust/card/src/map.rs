//! The map of a card, drawn.

use crate::arguments::Arguments;
use crate::files::counted;
use crate::folder::Folder;
use crate::json::Json;
use crate::output;
use crate::owners::{Owner, Owners};
use crate::replace::replace;
use crate::svg;
use crate::terminal::{colours, painted};
use crate::trouble::Trouble;
use std::path::Path;

/// The letter of an owner in the text map.
fn letter(owner: Owner) -> char {
    match owner {
        Owner::Free => '.',
        Owner::RefusesErase => '!',
        Owner::RefusesProgram => '?',
        Owner::File(file) => char::from_digit(file as u32, 36).unwrap_or('#'),
    }
}

/// The terminal's colour of an owner.
fn colour(owner: Owner) -> &'static str {
    const FILES: [&str; 6] = ["30;42", "30;43", "30;44", "30;45", "30;46", "30;47"];
    match owner {
        Owner::Free => "90",
        Owner::RefusesErase | Owner::RefusesProgram => "1;37;41",
        Owner::File(file) => FILES[file % FILES.len()],
    }
}

const WIDTH: usize = 64;

/// The map, 64 blocks a row, each row after the number of its first block; then what the letters mean.
fn drawn(owners: &Owners, colours: bool) -> String {
    let mut text = String::new();
    for (first, last, owner) in owners.runs(WIDTH) {
        if first % WIDTH == 0 {
            let line = if first > 0 { "\n" } else { "" };
            text += &format!("{line}{first:>5}  ");
        }
        let letters: String = std::iter::repeat_n(letter(owner), last - first + 1).collect();
        text += &painted(&letters, colour(owner), colours);
    }
    text += "\n\n";
    let files = (0..owners.numbers.len()).map(Owner::File);
    let others = [Owner::Free, Owner::RefusesErase, Owner::RefusesProgram];
    for owner in files.chain(others) {
        let count = owners.count(owner);
        let empty = count == 0 && !matches!(owner, Owner::File(_) | Owner::Free);
        if !empty {
            let letter = painted(&letter(owner).to_string(), colour(owner), colours);
            text += &format!(
                "    {letter}  {}: {}\n",
                owners.name(owner),
                counted(count as u64, "block")
            );
        }
    }
    text
}

fn as_json(owners: &Owners) -> String {
    let mut array = Json::array();
    for (first, last, owner) in owners.runs(usize::MAX) {
        let mut object = Json::object();
        object.number("first", first).number("last", last);
        match owner {
            Owner::File(file) => object
                .text("is", "file")
                .number("file", owners.numbers[file]),
            owner => object.text("is", &owners.name(owner).replace(' ', "-")),
        };
        array.item(&object.end());
    }
    array.end()
}

/// What is wrong, in a line for each.
fn warnings(owners: &Owners) -> String {
    let cut = owners.cut.iter().map(|number| {
        format!("The list of file {number} is at fault; the map shows it as far as it could be followed.\n")
    });
    let shared = owners.shared.iter().map(|shared| {
        format!(
            "{} The map shows what is shared as the first's.\n",
            shared.told()
        )
    });
    cut.chain(shared).collect()
}

pub fn map(arguments: &Arguments) -> Result<bool, Trouble> {
    let folder = Folder::open(arguments.folder())?;
    let owners = Owners::of(&folder.view()?, &folder.health);
    let fault = !owners.cut.is_empty() || !owners.shared.is_empty();
    let geometry = folder.geometry;
    let title = format!(
        "{}: {} of {} bytes",
        folder.shown(),
        counted(geometry.block_count().into(), "block"),
        geometry.block_size()
    );
    let svg = arguments.option_text("--svg");
    if let Some(file) = svg {
        replace(Path::new(file), svg::drawn(&owners, &title).as_bytes())?;
    }
    if arguments.json {
        let mut object = Json::object();
        object
            .number("block_size", geometry.block_size())
            .number("block_count", geometry.block_count());
        object
            .field("blocks", &as_json(&owners))
            .field("sound", &(!fault).to_string());
        output::line(&object.end())?;
        return Ok(fault);
    }
    let body = match svg {
        Some(file) => format!("Drew {title} to {file}.\n"),
        None => format!("{title}\n\n{}", drawn(&owners, colours())),
    };
    let mut warnings = warnings(&owners);
    if fault {
        warnings += "`card check` names each fault.\n";
    }
    output::text(&format!("{body}{warnings}"))?;
    Ok(fault)
}
