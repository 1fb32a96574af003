//! The help texts: all that a person needs to use the tool.

use crate::commands::{named, COMMANDS};

fn overview() -> String {
    let lines: String = COMMANDS
        .iter()
        .map(|command| format!("  {:<9} {}\n", command.name, command.line))
        .collect();
    format!(
        "\
card: cards of block lists, to test units with

usage: card COMMAND DIR [ARGUMENTS] [OPTIONS]

{lines}
`card help COMMAND` tells more about one. With --json every command answers one line of JSON.

A first round:

  card new unit7 --block-size 512 --block-count 64
  card put unit7 3 stops.bin
  card check unit7
  card map unit7
  card get unit7 3 back.bin

DIR is a card: a folder with the files `geometry` (block size and block count, text), `image`
(the blocks), `health` (a byte a block: 0 good, 1 refuses erase, 2 refuses program) and `table`
(the saved file table). Files have numbers from 0 to 65535; a card holds at most 32. Numbers are
decimal, or hexadecimal after 0x.

A changed file of the card is written beside the old one and then takes its place, the table
last; what a cut leaves behind is a card with its old files. The allocator's window is not kept:
each run starts with a fresh one, which is right for every card, also one that was changed or
brought back by other means, and finds every free block.

exit status: 0 done; 1 the card is at fault; 2 wrong use, no room, or a file that cannot be read
or written
"
    )
}

/// The help that these words ask for.
pub fn asked(words: &[String]) -> Option<String> {
    let before = || words.iter().take_while(|word| *word != "--");
    let wants = |name: &str| before().any(|word| word == name);
    let first = words.first().map(String::as_str);
    if wants("--version") || first == Some("-V") {
        return Some(format!("card {}\n", env!("CARGO_PKG_VERSION")));
    }
    if first != Some("help") && !wants("--help") && !wants("-h") {
        return None;
    }
    Some(match before().find_map(|word| named(word)) {
        None => overview(),
        Some(command) => format!(
            "card {}: {}\n\n{}\n\n{}",
            command.name,
            command.line,
            command.usage(),
            command.more
        ),
    })
}
