//! Document 01, "Temperature from heat": the same rule for gas heat and for ψ.
//!
//! The temperature is found by its definition, over thousandths of a kelvin; the looks are
//! found beside it by the halving rule, over whole kelvins. Neither is used for the other.

use crate::refusal::{refuse_if, Refusal};
use crate::table::{COLDEST, HOTTEST};

/// Places of looks that an answer has in a lent list.
pub const PLACES: usize = 11;

/// A temperature, the rest (target less the reading there) and the looks.
#[derive(Clone, Debug, PartialEq, Eq)]
pub struct Found {
    pub mk: i64,
    pub rest: i128,
    pub looks: Vec<u32>,
}

/// Answers a target, for a reading that rises with each mK; 8 or 9 outside the readings at the ends.
pub fn greatest(reading: impl Fn(i64) -> i128, target: i128) -> Result<Found, Refusal> {
    refuse_if(target < reading(COLDEST), 8)?;
    refuse_if(target > reading(HOTTEST), 9)?;
    let mk = greatest_at_most(&reading, target);
    let looks = looks(|kelvin| reading(1000 * kelvin), target);
    Ok(Found { mk, rest: target - reading(mk), looks })
}

/// The greatest mK whose reading is at most the target: the target is not below the coldest, and
/// what lies between the last mK known to pass and the first known to fail is bisected.
fn greatest_at_most(reading: &impl Fn(i64) -> i128, target: i128) -> i64 {
    let (mut passes, mut fails) = (COLDEST, HOTTEST + 1);
    while fails - passes > 1 {
        let middle = (passes + fails) / 2;
        if reading(middle) <= target {
            passes = middle;
        } else {
            fails = middle;
        }
    }
    passes
}

/// The halving rule: the whole kelvins looked at.
fn looks(reading: impl Fn(i64) -> i128, target: i128) -> Vec<u32> {
    let mut looks = Vec::new();
    let (mut low, mut high) = (200, 2000);
    if target == reading(high) {
        return looks;
    }
    while high - low != 1 {
        let middle = (low + high) / 2;
        looks.push(middle as u32);
        if reading(middle) <= target {
            low = middle;
        } else {
            high = middle;
        }
    }
    looks
}

/// Writes the looks into the first eleven places, 0 where unused; later places stay.
pub fn write_looks(found: &Found, places: &mut [u32]) {
    let looks = found.looks.iter().copied().chain(std::iter::repeat(0));
    places.iter_mut().zip(looks).take(PLACES).for_each(|(place, look)| *place = look);
}
