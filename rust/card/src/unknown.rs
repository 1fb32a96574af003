//! Words that are not known, and what may have been meant.

use crate::commands::{Command, COMMANDS};
use crate::trouble::Trouble;

/// The known name that is nearest to a word, where one is near.
fn near<'a>(word: &str, names: impl Iterator<Item = &'a str>) -> Option<&'a str> {
    let distance = |name: &str| {
        let (word, name): (Vec<char>, Vec<char>) = (word.chars().collect(), name.chars().collect());
        let mut row: Vec<usize> = (0..=name.len()).collect();
        for (i, a) in word.iter().enumerate() {
            let mut corner = row[0];
            row[0] = i + 1;
            for (j, b) in name.iter().enumerate() {
                let change = corner + (a != b) as usize;
                corner = row[j + 1];
                row[j + 1] = change.min(corner + 1).min(row[j] + 1);
            }
        }
        row[name.len()]
    };
    let nearest = names.map(|name| (distance(name), name)).min()?;
    (nearest.0 <= 2).then_some(nearest.1)
}

/// A command that is none.
pub fn command(word: &str) -> Trouble {
    let names = || COMMANDS.iter().map(|command| command.name);
    let text = match near(word, names()) {
        Some(name) => format!("There is no command `{word}`: did you mean `{name}`?"),
        None => format!(
            "There is no command `{word}`: use one of {}.",
            names().collect::<Vec<_>>().join(", ")
        ),
    };
    Trouble::usage(text).with_hint("`card --help` tells what each does.")
}

/// An option that the command does not have.
pub fn option(word: &str, command: &Command) -> Trouble {
    let names = || {
        command
            .options
            .iter()
            .chain(command.flags)
            .copied()
            .chain(["--json", "--help"])
    };
    let text = match near(word, names()) {
        Some(name) => format!(
            "`card {}` has no option {word}: did you mean {name}?",
            command.name
        ),
        None => format!(
            "`card {}` has no option {word}: it has {}.",
            command.name,
            names().collect::<Vec<_>>().join(", ")
        ),
    };
    Trouble::usage(text).with_hint(command.usage())
}
