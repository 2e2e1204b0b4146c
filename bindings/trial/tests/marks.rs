//! station and mark.

use gaskeys::{Millikelvin, State};
use second::dice::Dice;
use second::gas::{Charge, Gases};
use second::marking::{self, Typed};
use second::trials::halves;
use trial::charges::{about, charge, temperature, wrapped};
use trial::{dice, first, other, sheets};

/// The figures of both sides, bit by bit.
fn same_station(charge: Charge, mk: i64, sheet: &[u32]) {
    let at = State { charge: wrapped(charge), temperature: Millikelvin(mk) };
    let bits = |figures: [f64; 3]| figures.map(f64::to_bits);
    let answer = first(gaskeys::station(at, sheet));
    let answer = answer.map(|f| bits([f.millikelvin, f.content, f.mass]));
    let expected = other(marking::station(&charge, mk, sheet));
    let expected = expected.map(|f| bits([f.mk, f.specific_content, f.total_mass]));
    assert_eq!(answer, expected, "{charge:?} {mk}");
}

#[test]
fn stations_are_alike() {
    let mut dice = dice(931);
    let good = sheets::accepted(&mut dice);
    for _ in 0..20_000 {
        let sheet = sheets::drawn(&mut dice, &good);
        same_station(charge(&mut dice), temperature(&mut dice), &sheet);
    }
}

#[test]
fn stations_about_a_half_are_alike() {
    let mut dice = dice(933);
    for sheet in sheets::accepted(&mut dice) {
        let gases = Gases::of(&sheet).expect("an accepted sheet");
        for [air, carbon, hydrogen, mk] in halves::states(&mut dice, &gases) {
            same_station(Charge { air, carbon, hydrogen }, mk, &sheet);
        }
    }
}

/// A number near (key ± window) / scale by a few bit patterns, or any bit pattern.
fn number(dice: &mut Dice, scale: f64, key: i64, window: i64) -> f64 {
    let edge = dice.one_of(&[key.saturating_sub(window), key, key.saturating_add(window)]);
    let near = edge as f64 / scale;
    match dice.below(8) {
        0 => f64::from_bits(dice.bits()),
        1 => {
            dice.one_of(&[0.0, -0.0, f64::NAN, f64::INFINITY, f64::NEG_INFINITY, f64::MIN_POSITIVE])
        }
        2 => -near,
        _ => f64::from_bits(near.to_bits().wrapping_add(dice.from_to(-2, 2) as u64)),
    }
}

#[test]
fn marks_are_alike() {
    let mut dice = dice(932);
    let (mut counted, mut missed) = (0, 0);
    for _ in 0..1_000_000 {
        let most = dice.one_of(&[10, 2_000_000, 1_000_000_000_000]);
        let key = about(&mut dice, -most, most);
        let window = about(&mut dice, 0, 100_000);
        let scale = dice.one_of(&[1_000.0, 100_000.0]);
        let x = number(&mut dice, scale, key, window);
        let (one, two) = match (dice.below(50), scale == 1_000.0) {
            (0, _) => (gaskeys::Typed::Blank, Typed::Blank),
            (_, true) => (gaskeys::Typed::Kelvins(x), Typed::Kelvins(x)),
            (_, false) => (gaskeys::Typed::Content(x), Typed::Content(x)),
        };
        let answer = first(gaskeys::mark(one, key, window));
        assert_eq!(answer, other(marking::mark(two, key, window)), "{one:?} {key} {window}");
        counted += (answer == Ok(true)) as u32;
        missed += (answer == Ok(false)) as u32;
    }
    assert!(counted > 30_000 && missed > 30_000, "{counted} {missed}");
}
