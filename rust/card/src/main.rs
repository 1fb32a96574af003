//! `card`: makes, fills, reads, checks and draws cards of block lists, each a folder of plain files.

mod arguments;
mod check;
mod commands;
mod fault;
mod files;
mod folder;
mod help;
mod json;
mod map;
mod output;
mod owners;
mod replace;
mod svg;
mod terminal;
mod transfer;
mod trouble;
mod unknown;

use arguments::Arguments;
use std::process::ExitCode;
use trouble::Trouble;

/// Runs a command: true where it found a fault.
fn run(arguments: &Arguments) -> Result<bool, Trouble> {
    match arguments.command.as_str() {
        "new" => files::new(arguments),
        "ls" => files::ls(arguments),
        "put" => transfer::put(arguments),
        "get" => transfer::get(arguments),
        "rm" => files::rm(arguments),
        "truncate" => files::truncate(arguments),
        "check" => check::check(arguments),
        "map" => map::map(arguments),
        _ => check::find(arguments),
    }
}

fn main() -> ExitCode {
    let words: Vec<String> = match std::env::args_os()
        .skip(1)
        .map(|word| word.into_string())
        .collect()
    {
        Ok(words) => words,
        Err(_) => {
            return Trouble::usage(
                "An argument is not plain text (UTF-8): rename the file or folder.",
            )
            .tell(false)
        }
    };
    if let Some(text) = help::asked(&words) {
        return match output::text(&text) {
            Ok(()) => ExitCode::SUCCESS,
            Err(trouble) => trouble.tell(false),
        };
    }
    let json = words
        .iter()
        .take_while(|word| *word != "--")
        .any(|word| word == "--json");
    let done = Arguments::parse(&words).and_then(|arguments| run(&arguments));
    match done {
        Ok(fault) => ExitCode::from(fault as u8),
        Err(trouble) => trouble.tell(json),
    }
}
