//! What ends a command early: a sentence for the person, and the exit status.

use crate::json::Json;
use crate::output;
use std::process::ExitCode;

/// A fault of the card (status 1), or a wrong use or a file that cannot be read or written (status 2).
#[derive(Debug)]
pub struct Trouble {
    status: u8,
    code: Option<i32>,
    text: String,
    hint: Option<String>,
}

impl Trouble {
    fn new(status: u8, text: impl Into<String>) -> Trouble {
        Trouble {
            status,
            code: None,
            text: text.into(),
            hint: None,
        }
    }

    /// The command was used wrongly.
    pub fn usage(text: impl Into<String>) -> Trouble {
        Trouble::new(2, text)
    }

    /// A file or folder cannot be read or written.
    pub fn io(text: impl Into<String>) -> Trouble {
        Trouble::new(2, text)
    }

    /// The card is at fault.
    pub fn fault(text: impl Into<String>) -> Trouble {
        Trouble::new(1, text)
    }

    /// The card has no room for what was asked.
    pub fn full(text: impl Into<String>) -> Trouble {
        let mut trouble = Trouble::new(2, text);
        trouble.code = Some(tidmaruls::Error::NoRoom.code());
        trouble
    }

    /// The same, with the command's own lines to look at.
    pub fn with_hint(mut self, hint: impl Into<String>) -> Trouble {
        self.hint = Some(hint.into());
        self
    }

    /// The library's refusal of a call on this card, after a few words of where.
    pub fn refused(place: &str, error: tidmaruls::Error) -> Trouble {
        let status = if error.code() == -84 { 1 } else { 2 };
        let mut trouble = Trouble::new(status, format!("{place}: {error}"));
        trouble.code = Some(error.code());
        trouble
    }

    /// Tells the person, or the machine, and gives the exit status.
    pub fn tell(&self, json: bool) -> ExitCode {
        if json {
            let mut object = Json::object();
            object.number("status", self.status);
            if let Some(code) = self.code {
                object.number("code", code);
            }
            object.text("error", &self.text);
            if let Some(hint) = &self.hint {
                object.text("hint", hint);
            }
            let _ = output::line(&object.end());
        } else {
            output::complaint(&format!("card: {}", self.text));
            if let Some(hint) = &self.hint {
                output::complaint(hint);
            }
        }
        ExitCode::from(self.status)
    }
}
