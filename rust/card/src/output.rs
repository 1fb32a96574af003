//! Standard output and standard error, whose readers may have gone.

use crate::trouble::Trouble;
use std::io::{self, ErrorKind, Write};

/// Writes bytes; a reader that wants no more is no error.
pub fn bytes(bytes: &[u8]) -> Result<(), Trouble> {
    let mut out = io::stdout().lock();
    match out.write_all(bytes).and_then(|()| out.flush()) {
        Err(error) if error.kind() != ErrorKind::BrokenPipe => Err(Trouble::io(format!(
            "Standard output cannot be written ({error}): send it elsewhere, or make room there."
        ))),
        _ => Ok(()),
    }
}

/// Writes text.
pub fn text(text: &str) -> Result<(), Trouble> {
    bytes(text.as_bytes())
}

/// Writes a line.
pub fn line(line: &str) -> Result<(), Trouble> {
    text(&format!("{line}\n"))
}

/// Writes a line to standard error; where that cannot be written nobody can be told.
pub fn complaint(line: &str) {
    let _ = writeln!(io::stderr(), "{line}");
}
