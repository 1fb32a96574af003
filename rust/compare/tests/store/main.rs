//! Random calls on whole cards with faults, against files as plain bytes: every file after every call.
#![cfg(feature = "store")]

mod bench;
mod calls;
mod choices;

use bench::{Bench, Tally};
use compare::cards::{self, BLOCK_SIZES};
use compare::plain::Plain;
use compare::Random;
use tidmaruls::raw::{Card, Geometry};

/// A card with noise on it, some blocks faulty, and a fresh window.
fn card(geometry: Geometry, random: &mut Random) -> Card {
    let lookahead = cards::lookahead(random);
    let mut card = cards::blank(geometry, lookahead, random.below(geometry.block_count));
    card.image = cards::noise(card.image.len(), geometry.block_count, random);
    if !random.one_in(3) {
        let share = random.between(2, 30);
        for health in &mut card.health {
            *health = random.below(3) as u8 * random.one_in(share) as u8;
        }
    }
    card
}

/// Calls on cards of this many blocks and at most this many bytes.
fn on_cards(seed: u64, cards: u32, calls: u32, blocks: (u32, u32), most: u32) -> Tally {
    let mut random = Random::new(seed);
    let mut tally = Tally::default();
    for _ in 0..cards {
        let block_size = random.pick(&BLOCK_SIZES);
        let high = blocks.1.min((most / block_size).max(1));
        let geometry = cards::geometry(block_size, random.between(blocks.0.min(high), high));
        let bench = Bench {
            card: card(geometry, &mut random),
            plain: Plain::default(),
            random: &mut random,
            tally: &mut tally,
        };
        bench.run(calls);
    }
    println!("store: cards of {blocks:?} blocks, at most {most} bytes: {tally:?}");
    tally
}

#[test]
fn small_cards() {
    let tally = on_cards(70, 1000, 100, (1, 12), 1_000_000);
    assert!(tally.full_fresh > 0 && tally.full_held > 0);
}

#[test]
fn middling_cards() {
    on_cards(71, 100, 150, (13, 200), 100_000);
}

#[test]
fn large_cards() {
    on_cards(72, 15, 60, (100, 2000), 16_777_216);
}
