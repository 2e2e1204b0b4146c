//! Charges, temperatures and other numbers.

use second::dice::Dice;
use second::gas::Charge;

/// A number that no call may stumble over, or any at all.
pub fn wild(dice: &mut Dice) -> i64 {
    match dice.below(3) {
        0 => dice.one_of(&[0, -1, 1, i64::MIN, i64::MAX, i64::MIN + 1, 1 << 32, -(1 << 31)]),
        1 => dice.from_to(-2_000_000, 2_000_000),
        _ => dice.bits() as i64,
    }
}

/// A number from the first to the last, now and then an end, one beside it, or a wild one.
pub fn about(dice: &mut Dice, first: i64, last: i64) -> i64 {
    match dice.below(40) {
        0 => wild(dice),
        1 => dice.one_of(&[first - 1, last + 1]),
        2 | 3 => dice.one_of(&[first, last]),
        _ => dice.from_to(first, last),
    }
}

/// A charge that is mostly lean, small, large or at the limit; now and then one to refuse.
pub fn charge(dice: &mut Dice) -> Charge {
    let most = dice.one_of(&[3, 40, 4_000, 100_000]);
    let air = about(dice, 1, most);
    let oxygen = air.clamp(0, 100_000) * 23_186;
    let carbon = about(dice, 0, (oxygen / 32_000).min(50_000));
    let left = oxygen - carbon.clamp(0, 50_000) * 32_000;
    let hydrogen = about(dice, 0, (left / 8_000).clamp(0, 50_000));
    Charge { air, carbon, hydrogen }
}

pub fn temperature(dice: &mut Dice) -> i64 {
    about(dice, 200_000, 2_000_000)
}

/// The same charge for the wrapper.
pub fn wrapped(charge: Charge) -> gaskeys::Charge {
    let Charge { air, carbon, hydrogen } = charge;
    gaskeys::Charge { air, carbon, hydrogen }
}
