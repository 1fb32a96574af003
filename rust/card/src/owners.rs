//! Which block belongs to which file, is free, or is faulty.

use crate::files::counted;
use crate::terminal::Progress;
use tidmaruls::View;

/// What a block is.
#[derive(Clone, Copy, PartialEq, Eq, Debug)]
pub enum Owner {
    Free,
    RefusesErase,
    RefusesProgram,
    /// The file at this place of the table.
    File(usize),
}

/// Two files, by number, that list the same blocks: the first such block, and how many there are.
pub struct Shared {
    pub files: (u32, u32),
    pub block: u32,
    pub count: u64,
}

impl Shared {
    /// In words, as a sentence.
    pub fn told(&self) -> String {
        let (first, second) = self.files;
        let more = match self.count {
            1 => String::new(),
            count => format!(" and {}", counted(count - 1, "further block")),
        };
        format!(
            "Block {}{more}: listed by file {first} and by file {second}.",
            self.block
        )
    }
}

/// The owner of each block, and where that is not clear.
pub struct Owners {
    pub blocks: Vec<Owner>,
    /// The files' numbers, as the table has them.
    pub numbers: Vec<u32>,
    /// Pairs of files that share blocks.
    pub shared: Vec<Shared>,
    /// Files whose list could not be followed to its end.
    pub cut: Vec<u32>,
}

impl Owners {
    /// Visits every list; one that leads off the card or around in circles is followed as far as it makes sense.
    pub fn of(view: &View, health: &[u8]) -> Owners {
        let health = health.iter().map(|health| match health {
            0 => Owner::Free,
            1 => Owner::RefusesErase,
            _ => Owner::RefusesProgram,
        });
        let numbers = view
            .table()
            .entries()
            .iter()
            .map(|entry| entry.number)
            .collect();
        let mut owners = Owners {
            blocks: health.collect(),
            numbers,
            shared: Vec::new(),
            cut: Vec::new(),
        };
        let mut progress = Progress::new("visiting", owners.numbers.len() as u64);
        for file in 0..owners.numbers.len() {
            owners.visit(view, file);
            progress.at(file as u64 + 1);
        }
        owners
    }

    fn visit(&mut self, view: &View, file: usize) {
        let number = self.numbers[file];
        let mut left = self.blocks.len();
        for step in view.visit(number).into_iter().flatten() {
            let block = match step {
                Ok(visited) if left > 0 => visited.block,
                _ => return self.cut.push(number),
            };
            left -= 1;
            match self.blocks[block as usize] {
                Owner::File(other) if other == file => return self.cut.push(number),
                Owner::File(other) => self.share(block, (self.numbers[other], number)),
                _ => self.blocks[block as usize] = Owner::File(file),
            }
        }
    }

    fn share(&mut self, block: u32, files: (u32, u32)) {
        match self.shared.iter_mut().find(|shared| shared.files == files) {
            Some(shared) => shared.count += 1,
            None => self.shared.push(Shared {
                files,
                block,
                count: 1,
            }),
        }
    }

    pub fn count(&self, owner: Owner) -> usize {
        self.blocks.iter().filter(|&&other| other == owner).count()
    }

    pub fn free(&self) -> usize {
        self.count(Owner::Free)
    }

    /// The blocks in runs of one owner: first block, last block, owner; no run crosses a multiple of `width`.
    pub fn runs(&self, width: usize) -> Vec<(usize, usize, Owner)> {
        let mut runs: Vec<(usize, usize, Owner)> = Vec::new();
        for (block, &owner) in self.blocks.iter().enumerate() {
            match runs.last_mut() {
                Some(run) if run.2 == owner && block % width != 0 => run.1 = block,
                _ => runs.push((block, block, owner)),
            }
        }
        runs
    }

    /// The owner in words.
    pub fn name(&self, owner: Owner) -> String {
        match owner {
            Owner::Free => "free".to_string(),
            Owner::RefusesErase => "refuses erase".to_string(),
            Owner::RefusesProgram => "refuses program".to_string(),
            Owner::File(file) => format!("file {}", self.numbers[file]),
        }
    }
}
