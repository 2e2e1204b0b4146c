//! What the trials of the boundary have in common: random inputs of every kind, and lent lists whose
//! every place is compared. tests/ asks the wrapper and the second implementation the same and
//! holds the answers, refusals and lists against each other.

pub mod charges;
pub mod lent;
pub mod sheets;

use second::dice::Dice;

/// The dice of a test, by its number and the seed that the environment variable SEED has, or 1.
pub fn dice(number: u64) -> Dice {
    let seed = std::env::var("SEED").map_or(1, |seed| seed.parse().expect("SEED is a number"));
    Dice::new(seed << 16 | number)
}

/// A refusal as both sides have it: its number, and its row if it has one.
pub type Refused = (u32, Option<u32>);

/// The wrapper's.
pub fn first<T>(answer: Result<T, gaskeys::Refusal>) -> Result<T, Refused> {
    answer.map_err(|refusal| (refusal.number(), refusal.row()))
}

/// The second implementation's.
pub fn other<T>(answer: Result<T, second::refusal::Refusal>) -> Result<T, Refused> {
    answer.map_err(|refusal| (refusal.number, refusal.row))
}
