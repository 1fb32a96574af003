//! Files written beside the old ones, which they then replace.

use crate::terminal::Progress;
use crate::trouble::Trouble;
use std::fs::{self, File, OpenOptions};
use std::io::{self, Write};
use std::path::Path;

/// What is read at a time, and written at a time.
pub const PIECE: usize = 1 << 20;

/// Writes a file beside the old one, then puts it in its place; what is there and no plain file is written to as it is.
pub fn replace(file: &Path, bytes: &[u8]) -> Result<(), Trouble> {
    let written = match fs::metadata(file) {
        Ok(about) if !about.is_file() => OpenOptions::new()
            .write(true)
            .open(file)
            .and_then(|mut opened| opened.write_all(bytes)),
        _ => placed(file, bytes),
    };
    written.map_err(|error| {
        Trouble::io(format!(
            "{} cannot be written ({error}): look at the folder, at who may write there and at the room left.",
            file.display()
        ))
    })
}

fn placed(file: &Path, bytes: &[u8]) -> io::Result<()> {
    let file = fs::canonicalize(file).unwrap_or(file.to_path_buf());
    let name = file.file_name().unwrap_or_default().to_string_lossy();
    let beside = file.with_file_name(format!(".{name}.{}.new", std::process::id()));
    let mut done = write(&beside, &name, bytes);
    if let (Ok(()), Ok(old)) = (&done, fs::metadata(&file)) {
        done = fs::set_permissions(&beside, old.permissions());
    }
    let done = done.and_then(|()| fs::rename(&beside, &file));
    if done.is_err() {
        let _ = fs::remove_file(&beside);
    }
    done
}

fn write(file: &Path, name: &str, bytes: &[u8]) -> io::Result<()> {
    let mut progress = Progress::new(format!("writing {name}"), bytes.len() as u64);
    let mut made = File::create(file)?;
    for (place, piece) in bytes.chunks(PIECE).enumerate() {
        made.write_all(piece)?;
        progress.at((place * PIECE + piece.len()) as u64);
    }
    made.sync_all()
}
