//! JSON, written by hand.

use std::fmt::Display;

/// An object or an array that is being written.
pub struct Json {
    text: String,
    close: char,
    first: bool,
}

/// A text in quotes.
pub fn quoted(text: &str) -> String {
    let mut quoted = String::from("\"");
    for letter in text.chars() {
        match letter {
            '"' => quoted.push_str("\\\""),
            '\\' => quoted.push_str("\\\\"),
            '\n' => quoted.push_str("\\n"),
            '\r' => quoted.push_str("\\r"),
            '\t' => quoted.push_str("\\t"),
            letter if (letter as u32) < 0x20 => {
                quoted.push_str(&format!("\\u{:04x}", letter as u32))
            }
            letter => quoted.push(letter),
        }
    }
    quoted.push('"');
    quoted
}

impl Json {
    pub fn object() -> Json {
        Json {
            text: "{".to_string(),
            close: '}',
            first: true,
        }
    }

    pub fn array() -> Json {
        Json {
            text: "[".to_string(),
            close: ']',
            first: true,
        }
    }

    /// An item of an array, written already.
    pub fn item(&mut self, item: &str) -> &mut Json {
        if !self.first {
            self.text.push(',');
        }
        self.first = false;
        self.text.push_str(item);
        self
    }

    /// A field of an object, its value written already.
    pub fn field(&mut self, name: &str, value: &str) -> &mut Json {
        self.item(&format!("{}:{value}", quoted(name)))
    }

    pub fn number(&mut self, name: &str, value: impl Display) -> &mut Json {
        self.field(name, &value.to_string())
    }

    pub fn text(&mut self, name: &str, value: &str) -> &mut Json {
        self.field(name, &quoted(value))
    }

    pub fn end(mut self) -> String {
        self.text.push(self.close);
        self.text
    }
}
