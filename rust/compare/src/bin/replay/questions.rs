//! What the oracle is asked: small cards, good, damaged and with blocks that refuse to be erased.

use crate::answers::{bytes_of, Answers, ALLOC, EXTEND, FIND, SEEK, VISIT};
use compare::cards::{self, geometry, List};
use compare::{grown, layout, Random};
use oracle::Oracle;
use tidmaruls::raw::{FILE_MAX, NULL};

/// One lookup; left out where the oracle hands back an untested number.
fn look_up(answers: &mut Answers, oracle: &mut Oracle, card: u32, list: (u32, u32), position: u32) {
    let (head, size) = list;
    let block_count = oracle.device.health.len() as u32;
    let found = oracle.find(head, size, position);
    if found.is_ok_and(|found| size > 0 && found.block >= block_count) {
        return;
    }
    let answer = found.map(|found| [found.block, found.offset, found.hops]);
    answers.record(FIND, answer, &[card, head, size, position]);
}

/// One visit; left out where it meets a number that is not below the count.
fn visit(answers: &mut Answers, oracle: &mut Oracle, card: u32, list: (u32, u32)) {
    let (head, size) = list;
    let block_count = oracle.device.health.len() as u32;
    let (code, blocks) = oracle.traverse(head, size);
    if code != 0 || blocks.iter().any(|&block| block >= block_count) {
        return;
    }
    let count = blocks.len() as u32;
    let blocks = answers.piece(&bytes_of(&blocks));
    answers.record(VISIT, Ok([count, 0, 0]), &[card, head, size, blocks]);
}

/// Lookups and visits of the empty list, of a list and of its beginnings.
fn ask(answers: &mut Answers, oracle: &mut Oracle, list: &List, random: &mut Random) {
    let block_size = oracle.device.block_size;
    let card = answers.card(oracle, 64);
    look_up(answers, oracle, card, (NULL, 0), random.number());
    visit(answers, oracle, card, (NULL, 0));
    for (top, &head) in (0..).zip(&list.blocks) {
        let low = layout::start(block_size, top) as u32;
        let high = layout::start(block_size, top + 1) as u32;
        let size = random.between(low + 1, high.min(list.size));
        let mut targets = vec![0, 1, top / 2];
        targets.extend((0..3).map(|_| random.between(0, top)));
        for target in targets.into_iter().filter(|&target| target <= top) {
            let start = layout::start(block_size, target) as u32;
            let position = start + random.below((size - start).min(block_size / 2));
            look_up(answers, oracle, card, (head, size), position);
        }
        visit(answers, oracle, card, (head, size));
    }
}

/// Lists grown by the oracle, and a damaged copy of each.
pub fn lists(answers: &mut Answers, random: &mut Random) {
    for (block_size, block_count, blocks) in [
        (128, 16, 16),
        (128, 16, 11),
        (128, 12, 9),
        (132, 15, 13),
        (256, 8, 8),
        (128, 40, 36),
    ] {
        let mut oracle = Oracle::new(block_size, block_count, 64, 0);
        let size = layout::start(block_size, blocks) as u32 - random.below(60);
        let list = grown::grow(&mut oracle, size, random);
        ask(answers, &mut oracle, &list, random);
        let geometry = geometry(block_size, block_count);
        cards::damage(&mut oracle.device.image, geometry, &list, random);
        ask(answers, &mut oracle, &list, random);
    }
}

fn allocate(answers: &mut Answers, oracle: &mut Oracle, lookahead: u32) {
    let card = answers.card(oracle, lookahead);
    let before = answers.window(oracle.window());
    let answer = oracle.alloc().map(|block| [block, 0, 0]);
    let after = answers.window(oracle.window());
    answers.record(ALLOC, answer, &[card, before, after]);
}

/// Allocations and checkpoints from a fresh window: the rules' own two cards, then lists of random blocks.
pub fn allocations(answers: &mut Answers, random: &mut Random) {
    for files in [vec![], vec![(0, 1), (1, 1), (4, 1)]] {
        let mut oracle = Oracle::new(128, 10, 8, 0);
        oracle.files = files;
        (0..11).for_each(|_| allocate(answers, &mut oracle, 8));
    }
    for (block_count, lookahead, calls) in [(7, 8, 20), (16, 8, 40), (15, 64, 40), (90, 8, 200)] {
        let mut oracle = Oracle::new(128, block_count, lookahead, random.below(block_count));
        let blocks = cards::shuffled(block_count, random);
        for run in blocks[..block_count as usize / 2].chunks(5) {
            let list = cards::lay(&mut oracle.device.image, 128, run.to_vec(), random);
            oracle.files.push((list.head(), list.size));
        }
        for _ in 0..calls {
            if random.one_in(20) {
                oracle.ckpoint();
            }
            allocate(answers, &mut oracle, lookahead);
        }
    }
}

/// One growth of a file, which is empty afterwards where it is refused.
fn extend(answers: &mut Answers, oracle: &mut Oracle, file: usize) -> Option<(u32, u32)> {
    let (head, size) = oracle.files[file];
    let card = answers.card(oracle, 8);
    let before = answers.window(oracle.window());
    let answer = oracle.extend(head, size);
    let after = answers.window(oracle.window());
    let image = answers.piece(&oracle.device.image);
    let told = answer.map(|(block, offset)| [block, offset, 0]);
    answers.record(EXTEND, told, &[card, before, after, head, size, image]);
    if answer.is_err() {
        oracle.files[file] = (NULL, 0);
        oracle.ckpoint();
    }
    answer.ok()
}

/// Growths on small cards, some of whose blocks may refuse to be erased: of one file in whole blocks, else of two, each new
/// block filled whole or in part.
pub fn growths(answers: &mut Answers, random: &mut Random) {
    for (block_count, refusing, parts) in
        [(10, 0, false), (10, 3, true), (12, 0, true), (8, 2, true)]
    {
        let mut oracle = Oracle::new(128, block_count, 8, random.below(block_count));
        oracle.device.image = cards::noise(128 * block_count as usize, block_count, random);
        for &block in &cards::shuffled(block_count, random)[..refusing] {
            oracle.device.health[block as usize] = 1;
        }
        oracle.files = vec![(NULL, 0), (NULL, 0)];
        for _ in 0..10 {
            let file = (parts && random.one_in(4)) as usize;
            let size = oracle.files[file].1;
            let Some((block, offset)) = extend(answers, &mut oracle, file) else {
                continue;
            };
            let room = 128 - offset;
            let in_part = parts && random.one_in(3);
            let length = if in_part {
                random.between(1, room)
            } else {
                room
            };
            let bytes = cards::noise(length as usize, block_count, random);
            assert!(oracle.program(block, offset, &bytes));
            oracle.files[file] = (block, size + length);
            if random.one_in(2) {
                oracle.ckpoint();
            }
        }
    }
}

/// Seeks at the limits and at random.
pub fn seeks(answers: &mut Answers, random: &mut Random) {
    let mut oracle = Oracle::bare(128);
    let limits = [0, 1, 128, 1 << 30, FILE_MAX - 1, FILE_MAX];
    for _ in 0..400 {
        let shift = random.between(1, 31);
        let mut sizes = || match random.one_in(2) {
            true => random.pick(&limits),
            false => random.number() >> shift,
        };
        let (size, position, limit) = (sizes(), sizes(), sizes() as i32);
        let offset = random.pick(&[limit, -limit, !limit]);
        let whence = random.pick(&[0, 0, 1, 1, 2, 2, 3, -1, i32::MIN, i32::MAX]);
        let theirs = oracle.seek(size, position, offset, whence);
        let answer = u32::try_from(theirs)
            .map(|to| [to, 0, 0])
            .map_err(|_| theirs);
        let question = [size, position, offset as u32, whence as u32];
        answers.record(SEEK, answer, &question);
    }
}
