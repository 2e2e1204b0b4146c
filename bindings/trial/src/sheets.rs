//! Sheet lists, accepted and refused.

use second::dice::Dice;
use second::sheet::PLACES;
use second::trials::sheets::{self, damage, random};

/// Accepted sheets: the built-in one, those at the ends of the step rule, and random ones.
pub fn accepted(dice: &mut Dice) -> Vec<Vec<u32>> {
    let random: Vec<Vec<u32>> = (0..6).map(|_| random(dice)).collect();
    [sheets::accepted(), random].concat()
}

/// A sheet to try a call with: mostly as it is, now and then damaged at one place or of another length.
pub fn drawn(dice: &mut Dice, sheets: &[Vec<u32>]) -> Vec<u32> {
    let mut list = dice.one_of(sheets);
    match dice.below(20) {
        0 => list.resize(dice.one_of(&[0, 1, 3, PLACES - 1, PLACES + 1, 2 * PLACES]), 7),
        1 => damage(dice, &mut list),
        _ => {}
    }
    list
}
