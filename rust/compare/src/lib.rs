//! What the comparisons share: positions at block borders, cards, plain models, the fixed list.

#[cfg(oracle)]
pub mod both;
pub mod cards;
pub mod fixed;
#[cfg(oracle)]
pub mod grown;
pub mod layout;
#[cfg(feature = "check")]
pub mod model;
#[cfg(feature = "store")]
pub mod plain;

pub use numbers::Random;

/// The line that a comparison prints where there is no oracle to compare with.
#[cfg(not(oracle))]
pub fn skipped() {
    println!(
        "oracle: not found at {}, comparison skipped",
        oracle::FOLDER
    );
}
