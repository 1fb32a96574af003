//! The words of the command line.

use crate::commands::{self, Command};
use crate::trouble::Trouble;
use crate::unknown;
use std::path::PathBuf;

/// A command with its arguments and options, as many as it takes.
pub struct Arguments {
    pub command: String,
    given: Vec<String>,
    options: Vec<(String, String)>,
    flags: Vec<String>,
    pub json: bool,
}

/// A number, decimal or hexadecimal after 0x.
fn number(what: &str, word: &str) -> Result<u32, Trouble> {
    let parsed = match word.strip_prefix("0x") {
        Some(digits) => u32::from_str_radix(digits, 16),
        None => word.parse(),
    };
    parsed.map_err(|_| {
        Trouble::usage(format!(
            "{what} is `{word}`: write a whole number, such as 3 or 0x3."
        ))
    })
}

impl Arguments {
    pub fn parse(words: &[String]) -> Result<Arguments, Trouble> {
        let options_first = words.iter().position(|word| !word.starts_with('-'));
        let Some(place) = options_first else {
            let text = "A command is missing: start with `card --help`, or with `card new DIR --block-size 512 --block-count 64`.";
            return Err(Trouble::usage(text));
        };
        let name = &words[place];
        let command = commands::named(name).ok_or_else(|| unknown::command(name))?;
        let mut parsed = Arguments {
            command: name.clone(),
            given: Vec::new(),
            options: Vec::new(),
            flags: Vec::new(),
            json: false,
        };
        let mut rest = words[..place].iter().chain(&words[place + 1..]);
        while let Some(word) = rest.next() {
            if word == "--" {
                parsed.given.extend(rest.by_ref().cloned());
            } else if word.starts_with("--") || (word.starts_with('-') && word.len() > 1) {
                parsed.option(word, command, &mut rest)?;
            } else {
                parsed.given.push(word.clone());
            }
        }
        parsed.counted(command)
    }

    fn option<'a>(
        &mut self,
        word: &str,
        command: &Command,
        rest: &mut impl Iterator<Item = &'a String>,
    ) -> Result<(), Trouble> {
        let (name, joined) = match word.split_once('=') {
            Some((name, value)) => (name, Some(value.to_string())),
            None => (word, None),
        };
        let flag = name == "--json" || command.flags.contains(&name);
        if !flag && !command.options.contains(&name) {
            return Err(unknown::option(name, command));
        }
        if self
            .flags
            .iter()
            .chain(self.options.iter().map(|(name, _)| name))
            .any(|given| given == name)
        {
            return Err(Trouble::usage(format!(
                "{name} is given twice: give it once."
            )));
        }
        if flag && joined.is_some() {
            return Err(Trouble::usage(format!(
                "{name} takes no value: write {name} alone."
            )));
        }
        if flag {
            self.json |= name == "--json";
            self.flags.push(name.to_string());
            return Ok(());
        }
        let missing = || {
            Trouble::usage(format!("{name} needs a value: write it after it."))
                .with_hint(command.usage())
        };
        let value = joined
            .or_else(|| rest.next().cloned())
            .ok_or_else(missing)?;
        self.options.push((name.to_string(), value));
        Ok(())
    }

    fn counted(self, command: &Command) -> Result<Arguments, Trouble> {
        let count = self.given.len();
        if let Some(word) = self.given.get(command.most) {
            let text = format!(
                "`card {}` does not know what to do with `{word}`: leave it out.",
                command.name
            );
            return Err(Trouble::usage(text).with_hint(command.usage()));
        }
        if count < command.least {
            let names: Vec<&str> = command
                .arguments
                .split(' ')
                .take(command.least)
                .skip(count)
                .collect();
            let text = format!(
                "`card {}` needs {}: add it.",
                command.name,
                names.join(" and ")
            );
            return Err(Trouble::usage(text).with_hint(command.usage()));
        }
        Ok(self)
    }

    /// The card's folder.
    pub fn folder(&self) -> PathBuf {
        PathBuf::from(&self.given[0])
    }

    /// The argument at a place, where it is given.
    pub fn word(&self, place: usize) -> Option<&str> {
        self.given.get(place).map(String::as_str)
    }

    pub fn number(&self, place: usize, what: &str) -> Result<u32, Trouble> {
        number(what, self.word(place).unwrap_or_default())
    }

    pub fn flag(&self, name: &str) -> bool {
        self.flags.iter().any(|flag| flag == name)
    }

    pub fn option_text(&self, name: &str) -> Option<&str> {
        let mut options = self.options.iter();
        options
            .find(|(given, _)| given == name)
            .map(|(_, value)| value.as_str())
    }

    pub fn option_number(&self, name: &str) -> Result<Option<u32>, Trouble> {
        self.option_text(name)
            .map(|word| number(name, word))
            .transpose()
    }

    /// A number that must be given as an option.
    pub fn needed(&self, name: &str) -> Result<u32, Trouble> {
        let missing = || {
            Trouble::usage(format!(
                "`card {}` needs {name}: write it with a number after it.",
                self.command
            ))
        };
        let missing = || match commands::named(&self.command) {
            Some(command) => missing().with_hint(command.usage()),
            None => missing(),
        };
        self.option_number(name)?.ok_or_else(missing)
    }

    /// Blocks given as numbers and ranges, such as 3,5,10-12, all below the count.
    pub fn blocks(&self, name: &str, count: u32) -> Result<Vec<u32>, Trouble> {
        let mut blocks = Vec::new();
        for part in self
            .option_text(name)
            .into_iter()
            .flat_map(|text| text.split(','))
        {
            let (first, last) = part.split_once('-').unwrap_or((part, part));
            let (first, last) = (number(name, first)?, number(name, last)?);
            if first > last || last >= count {
                let text = format!("{name} names `{part}`, but the blocks are 0 to {}: name some of these, lowest first.", count - 1);
                return Err(Trouble::usage(text));
            }
            blocks.extend(first..=last);
        }
        Ok(blocks)
    }
}
