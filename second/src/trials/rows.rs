//! Every row of Table 1, and temperatures of ψ.

use crate::air;
use crate::answer::fields;
use crate::dice::Dice;
use crate::trials::EXTREMES;

/// ψ at a whole kelvin, as a target.
fn psi(kelvin: i64) -> i64 {
    air::psi(1000 * kelvin).expect("a kelvin of the table")
}

/// Heat and ψ at each of the temperatures.
fn readings(mks: impl Iterator<Item = i64>) -> Vec<String> {
    mks.flat_map(|mk| ["air-heat", "air-psi"].map(|word| fields(word, &[mk]))).collect()
}

/// Heat, ψ and Cp of all 1,801 rows.
pub fn every_row() -> Vec<String> {
    let row = |kelvin: i64| {
        [("air-heat", 1000), ("air-psi", 1000), ("air-cp", 1)]
            .map(|(word, unit)| fields(word, &[unit * kelvin]))
    };
    (200..=2000).flat_map(row).collect()
}

/// Readings beside the ends, 15 °C and zero.
pub fn edges() -> Vec<String> {
    let beside = |limit: i64| [limit - 1, limit, limit + 1];
    let mks = [&beside(200_000)[..], &beside(288_160), &beside(2_000_000), &EXTREMES].concat();
    let kelvins = [&beside(200)[..], &beside(2000), &[200_000], &EXTREMES].concat();
    let cps = kelvins.iter().map(|kelvin| fields("air-cp", &[*kelvin]));
    readings(mks.into_iter()).into_iter().chain(cps).collect()
}

/// Heat and ψ in each row one thousandth, a half, 999 thousandths and two random steps above its kelvin.
pub fn between(dice: &mut Dice) -> Vec<String> {
    let mut above = |kelvin: i64| {
        let random = [dice.from_to(2, 499), dice.from_to(501, 998)];
        [1, 500, 999, random[0], random[1]].map(|mk| 1000 * kelvin + mk)
    };
    readings((200..2000).flat_map(&mut above))
}

/// At, one under and one over ψ of every kelvin; every 379th ψ from below the lowest until past the
/// highest; at random, and far off.
pub fn inverses(dice: &mut Dice) -> Vec<String> {
    let beside = (200..=2000).flat_map(|kelvin| [-1, 0, 1].map(|off| psi(kelvin) + off));
    let apart = (psi(200) - 500 - dice.from_to(0, 378)..=psi(2000) + 379).step_by(379);
    let random: Vec<i64> = (0..5000).map(|_| dice.from_to(psi(200), psi(2000))).collect();
    let targets = beside.chain(apart).chain(random).chain(EXTREMES);
    targets.map(|target| fields("air-temperature", &[target])).collect()
}
