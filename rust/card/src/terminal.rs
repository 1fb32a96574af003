//! What only a terminal gets: colours, and a bar for work that takes over a second.

use std::env;
use std::io::{self, IsTerminal, Write};
use std::time::{Duration, Instant};

/// Whether standard output wants colours: a terminal, and no NO_COLOR.
pub fn colours() -> bool {
    let unwanted = env::var_os("NO_COLOR").is_some_and(|value| !value.is_empty());
    let dumb = env::var_os("TERM").is_some_and(|value| value == "dumb");
    io::stdout().is_terminal() && !unwanted && !dumb
}

/// A text in a colour of the terminal, as an SGR number list; plain where colours are off.
pub fn painted(text: &str, colour: &str, colours: bool) -> String {
    if colours {
        format!("\x1b[{colour}m{text}\x1b[0m")
    } else {
        text.to_string()
    }
}

/// A bar on the terminal of standard error, shown from the second second on.
pub struct Progress {
    label: String,
    total: u64,
    began: Instant,
    told: Option<Instant>,
    on: bool,
}

impl Progress {
    pub fn new(label: impl Into<String>, total: u64) -> Progress {
        Progress {
            label: label.into(),
            total,
            began: Instant::now(),
            told: None,
            on: io::stderr().is_terminal(),
        }
    }

    /// Tells how much is done.
    pub fn at(&mut self, done: u64) {
        let now = Instant::now();
        let early = now - self.began < Duration::from_secs(1);
        let fresh = self
            .told
            .is_some_and(|told| now - told < Duration::from_millis(100));
        if !self.on || early || fresh {
            return;
        }
        self.told = Some(now);
        let _ = write!(io::stderr(), "\r{}", bar(&self.label, done, self.total));
    }
}

impl Drop for Progress {
    fn drop(&mut self) {
        if self.told.is_some() {
            let _ = write!(io::stderr(), "\r\x1b[K");
        }
    }
}

/// The bar itself.
fn bar(label: &str, done: u64, total: u64) -> String {
    let share = (done.min(total) * 100).checked_div(total).unwrap_or(100);
    let full = share as usize / 4;
    format!(
        "{label} [{}{}] {share:3}%",
        "#".repeat(full),
        ".".repeat(25 - full)
    )
}

#[cfg(test)]
mod tests {
    use super::*;

    #[test]
    fn bars() {
        for (done, total, shown) in [
            (0, 8, "[.........................]   0%"),
            (4, 8, "[############.............]  50%"),
            (9, 8, "[#########################] 100%"),
            (0, 0, "[#########################] 100%"),
        ] {
            assert_eq!(bar("reading", done, total), format!("reading {shown}"));
        }
    }

    #[test]
    fn colours_only_where_wanted() {
        assert_eq!(painted("3", "31", true), "\x1b[31m3\x1b[0m");
        assert_eq!(painted("3", "31", false), "3");
    }
}
