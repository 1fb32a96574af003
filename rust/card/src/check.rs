//! The commands that look into lists: check and find.

use crate::arguments::Arguments;
use crate::fault::{in_words, kind};
use crate::files::{counted, refused};
use crate::folder::Folder;
use crate::json::Json;
use crate::output;
use crate::owners::Owners;
use crate::terminal::{colours, painted, Progress};
use crate::trouble::Trouble;
use tidmaruls::{Entry, List, View};

/// What the check found, for the person and for the machine.
#[derive(Default)]
struct Findings {
    lines: String,
    files: Vec<String>,
    shared: Vec<String>,
    faults: u64,
}

impl Findings {
    fn file(&mut self, view: &View, entry: &Entry, colours: bool) -> Result<(), Trouble> {
        let list = List {
            head: entry.head,
            size: entry.size,
        };
        let place = format!("file {}", entry.number);
        let refused = |error| Trouble::refused(&place, error);
        let fault = view.image().check(list).map_err(refused)?;
        let blocks = view
            .image()
            .geometry()
            .blocks(entry.size)
            .map_err(refused)?;
        let mut object = Json::object();
        object
            .number("file", entry.number)
            .number("size", entry.size);
        object
            .number("blocks", blocks)
            .field("sound", &fault.is_none().to_string());
        match fault {
            None => {
                let sound = painted("sound", "32", colours);
                let (size, blocks) = (
                    counted(entry.size.into(), "byte"),
                    counted(blocks.into(), "block"),
                );
                self.lines += &format!("{place}: {sound}, {size} in {blocks}\n");
            }
            Some(fault) => {
                let (kind, index, pointer) = kind(fault);
                let words = in_words(&view.image(), list, fault);
                let damaged = painted("AT FAULT", "1;31", colours);
                self.lines +=
                    &format!("{place}: {damaged} at index {index}, pointer {pointer}. {words}\n");
                object.text("fault", kind).number("index", index);
                object.number("pointer", pointer).text("text", &words);
                self.faults += 1;
            }
        }
        self.files.push(object.end());
        Ok(())
    }

    fn shared(&mut self, owners: &Owners, colours: bool) {
        for shared in &owners.shared {
            let damaged = painted("AT FAULT", "1;31", colours);
            let (first, second) = shared.files;
            self.lines += &format!("files {first} and {second}: {damaged}. {}\n", shared.told());
            let mut object = Json::object();
            object.field("files", &format!("[{first},{second}]"));
            object
                .number("block", shared.block)
                .number("count", shared.count);
            self.shared.push(object.end());
            self.faults += 1;
        }
    }

    fn json(&self) -> String {
        let array = |items: &[String]| format!("[{}]", items.join(","));
        let mut object = Json::object();
        object.field("sound", &(self.faults == 0).to_string());
        object
            .field("files", &array(&self.files))
            .field("shared", &array(&self.shared));
        object.end()
    }
}

pub fn check(arguments: &Arguments) -> Result<bool, Trouble> {
    let folder = Folder::open(arguments.folder())?;
    let view = folder.view()?;
    let entries = match arguments.word(1) {
        None => folder.table.entries().to_vec(),
        Some(_) => {
            let number = arguments.number(1, "FILE-NUMBER")?;
            let listed = folder.table.list(number);
            listed.map_err(|error| refused(&folder, number, error))?;
            folder.table.get(number).into_iter().collect()
        }
    };
    let colours = colours();
    let mut findings = Findings::default();
    let mut progress = Progress::new("checking", entries.len() as u64);
    for (place, entry) in entries.iter().enumerate() {
        findings.file(&view, entry, colours)?;
        progress.at(place as u64 + 1);
    }
    if arguments.word(1).is_none() {
        findings.shared(&Owners::of(&view, &folder.health), colours);
    }
    if arguments.json {
        output::line(&findings.json())?;
    } else {
        let lists = counted(entries.len() as u64, "list");
        let verdict = match findings.faults {
            0 => format!("Checked {lists}: no fault."),
            faults => format!("Checked {lists}: {}. Bring the files at fault back from a copy (card rm, card put).", counted(faults, "fault")),
        };
        output::text(&format!("{}{verdict}\n", findings.lines))?;
    }
    Ok(findings.faults > 0)
}

pub fn find(arguments: &Arguments) -> Result<bool, Trouble> {
    let (number, position) = (
        arguments.number(1, "FILE-NUMBER")?,
        arguments.number(2, "POSITION")?,
    );
    let folder = Folder::open(arguments.folder())?;
    let refused = |error| refused(&folder, number, error);
    let found = folder.view()?.find(number, position).map_err(refused)?;
    let Some(found) = found else {
        return Err(Trouble::usage(format!(
            "{}, file {number}: the file has no bytes, so there is no position to find: put some first.",
            folder.shown()
        )));
    };
    let index = folder.geometry.place(position).map_err(refused)?.index;
    if arguments.json {
        let mut object = Json::object();
        object
            .number("file", number)
            .number("position", position)
            .number("index", index);
        object
            .number("block", found.block)
            .number("offset", found.offset)
            .number("hops", found.hops);
        output::line(&object.end())?;
    } else {
        output::line(&format!(
            "Byte {position} of file {number} is at offset {} of block {}, which has index {index} in its list; {} followed from the last block.",
            found.offset,
            found.block,
            counted(found.hops.into(), "pointer")
        ))?;
    }
    Ok(false)
}
