//! temperature and psi_inverse.

use gaskeys::Heat;
use second::air;
use second::dice::Dice;
use second::gas::{self, Charge, Gases};
use second::inverse::PLACES;
use trial::charges::{about, charge, temperature, wild, wrapped};
use trial::lent::{length, Lent};
use trial::{dice, first, other, sheets};

/// A target near the heat at some temperature, at or beside an end, or any at all.
fn target(dice: &mut Dice, charge: &Charge, sheet: &[u32]) -> i64 {
    let mk = temperature(dice);
    match (dice.below(20), Gases::of(sheet), gas::burn(charge)) {
        (1.., Ok(gases), Ok(_)) if air::in_range(mk).is_ok() => {
            let more = dice.one_of(&[-1, 0, 0, 1, 999, -999_999, 123_456_789]);
            gases.heat(charge, mk) as i64 + more
        }
        _ => wild(dice),
    }
}

#[test]
fn temperatures_of_heats_are_alike() {
    let mut dice = dice(911);
    let good = sheets::accepted(&mut dice);
    for _ in 0..60_000 {
        let sheet = sheets::drawn(&mut dice, &good);
        let charge = charge(&mut dice);
        let target = target(&mut dice, &charge, &sheet);
        let places = length(&mut dice, PLACES);
        let (mut one, mut two) = (Lent::of(places), Lent::of(places));
        let answer = gaskeys::temperature(wrapped(charge), Heat(target), &sheet, one.part());
        let expected = gas::temperature(&charge, target, &sheet, two.part());
        let expected = other(expected).map(|found| (found.mk, found.rest as i64));
        let answer = first(answer).map(|(t, rest)| (t.0, rest.0));
        assert_eq!(answer, expected, "{charge:?} {target} {places}");
        assert_eq!(one, two, "{charge:?} {target} {places}");
    }
}

#[test]
fn temperatures_of_psi_are_alike() {
    let mut dice = dice(912);
    for _ in 0..200_000 {
        let target = about(&mut dice, 95_264_000, 133_151_000);
        let places = length(&mut dice, PLACES);
        let (mut one, mut two) = (Lent::of(places), Lent::of(places));
        let answer = first(gaskeys::psi_inverse(target, one.part()));
        let expected = other(air::temperature(target, two.part()));
        let expected = expected.map(|found| (found.mk, found.rest as u64));
        assert_eq!(answer.map(|(t, rest)| (t.0, rest)), expected, "{target} {places}");
        assert_eq!(one, two, "{target} {places}");
    }
}
