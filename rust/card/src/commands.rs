//! The commands: how each is called, and what its help tells.

/// A command: name, arguments, options, what it does.
pub struct Command {
    pub name: &'static str,
    pub arguments: &'static str,
    /// How many arguments it takes at least and at most, the folder included.
    pub least: usize,
    pub most: usize,
    /// Options that take a value.
    pub options: &'static [&'static str],
    /// Options that take none, besides --json.
    pub flags: &'static [&'static str],
    pub line: &'static str,
    pub more: &'static str,
}

impl Command {
    /// How it is called, in a line.
    pub fn usage(&self) -> String {
        format!("usage: card {} {}", self.name, self.arguments)
    }
}

pub fn named(name: &str) -> Option<&'static Command> {
    COMMANDS.iter().find(|command| command.name == name)
}

pub const COMMANDS: [Command; 9] = [
    Command {
        name: "new",
        arguments: "DIR --block-size BYTES --block-count COUNT",
        least: 1,
        most: 1,
        options: &[
            "--block-size",
            "--block-count",
            "--refuse-erase",
            "--refuse-program",
        ],
        flags: &[],
        line: "makes a card without files in a new folder",
        more: "\
  --block-size BYTES      128 to 65536
  --block-count COUNT     1 to 65536; at most 16777216 bytes in all
  --refuse-erase BLOCKS   makes these blocks refuse to be erased, e.g. 3,5,10-12
  --refuse-program BLOCKS makes these blocks erase and then refuse to be programmed

DIR must not exist, or be an empty folder.

  card new unit7 --block-size 512 --block-count 64
",
    },
    Command {
        name: "ls",
        arguments: "DIR",
        least: 1,
        most: 1,
        options: &[],
        flags: &[],
        line: "lists the files: number, size, blocks, last block",
        more: "  card ls unit7\n",
    },
    Command {
        name: "put",
        arguments: "DIR FILE-NUMBER SOURCE",
        least: 3,
        most: 3,
        options: &["--at", "--start"],
        flags: &["--append"],
        line: "writes a file; makes it where it is not there",
        more: "\
The bytes come from the file SOURCE, or from standard input where SOURCE is -. They become the
whole content, unless one of these says otherwise:

  --at POSITION   writes them at this position and keeps the rest; a gap becomes zeros
  --append        writes them at the end
  --start BLOCK   looks for free blocks from this block on (otherwise from block 0)

New bytes always go to free blocks: the old content keeps its blocks until the new is written.

  card put unit7 3 stops.bin
",
    },
    Command {
        name: "get",
        arguments: "DIR FILE-NUMBER [TARGET]",
        least: 2,
        most: 3,
        options: &["--at", "--length"],
        flags: &[],
        line: "reads a file",
        more: "\
The bytes go to TARGET, or to standard output where TARGET is - or left out.

  --at POSITION   from this position on (otherwise from 0)
  --length BYTES  at most so many bytes (otherwise to the end)

  card get unit7 3 stops.bin
",
    },
    Command {
        name: "rm",
        arguments: "DIR FILE-NUMBER",
        least: 2,
        most: 2,
        options: &[],
        flags: &[],
        line: "removes a file",
        more: "  card rm unit7 3\n",
    },
    Command {
        name: "truncate",
        arguments: "DIR FILE-NUMBER SIZE",
        least: 3,
        most: 3,
        options: &["--start"],
        flags: &[],
        line: "cuts a file, or adds zeros to it",
        more: "\
  --start BLOCK   looks for free blocks from this block on (otherwise from block 0)

  card truncate unit7 3 1000
",
    },
    Command {
        name: "check",
        arguments: "DIR [FILE-NUMBER]",
        least: 1,
        most: 2,
        options: &[],
        flags: &[],
        line: "checks every list, or one, and names its first fault",
        more: "\
A list is sound if its blocks are on the card and all different, and its pointers agree. Without
FILE-NUMBER it is also a fault if two files share a block.

  card check unit7
",
    },
    Command {
        name: "map",
        arguments: "DIR",
        least: 1,
        most: 1,
        options: &["--svg"],
        flags: &[],
        line: "draws which block belongs to which file, is free, or is faulty",
        more: "\
  --svg FILE      draws it into this file, for a browser, and prints no map

  card map unit7 --svg unit7.svg
",
    },
    Command {
        name: "find",
        arguments: "DIR FILE-NUMBER POSITION",
        least: 3,
        most: 3,
        options: &[],
        flags: &[],
        line: "finds the block and offset of a byte, and the pointers followed",
        more: "  card find unit7 3 600\n",
    },
];
