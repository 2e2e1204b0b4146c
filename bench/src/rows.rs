//! The rows of the table.

use crate::calls::{Inputs, Walk};
use second::dice::Dice;
use second::gas::{Charge, Gases};
use second::sheet;

const INPUTS: usize = 1024;

/// Of a call that takes nanoseconds: so many that the processor does not learn which way each goes.
const SHORT_INPUTS: usize = 1 << 16;

/// Each row's name and its inputs, on the built-in sheet.
pub fn rows(list: &[u32]) -> Vec<(&'static str, Inputs)> {
    let mut dice = Dice::new(7);
    let dice = &mut dice;
    let gases = Gases::of(list).expect("the built-in sheet is accepted");
    vec![
        ("walk of 64 steps", Inputs::Walks(walks(dice, &gases, INPUTS, 64))),
        ("walk of 1 step", Inputs::Walks(walks(dice, &gases, INPUTS, 1))),
        ("temperature of a heat", Inputs::Heats(draw(INPUTS, || heat(dice, &gases)))),
        ("specific content", Inputs::Specifics(draw(INPUTS, || state(dice)))),
        ("station", Inputs::Stations(draw(INPUTS, || state(dice)))),
        ("sheet judged", Inputs::Sheet),
        ("sheet read", Inputs::Text(sheet::text(list).into_bytes())),
        ("sheet in pieces", Inputs::Pieces(sheet::text(list).into_bytes())),
        ("sheet written", Inputs::Written),
        ("psi inverse", Inputs::Psis(draw(INPUTS, || dice.from_to(95_264_000, 133_150_999)))),
        ("mark, short fractions", Inputs::Marks(draw(SHORT_INPUTS, || mark(dice, 3_600, 2.0)))),
        ("mark, long fractions", Inputs::Marks(draw(SHORT_INPUTS, || mark(dice, 1 << 53, 4.5e12)))),
    ]
}

fn draw<T>(count: usize, one: impl FnMut() -> T) -> Vec<T> {
    std::iter::repeat_with(one).take(count).collect()
}

pub fn lean(dice: &mut Dice) -> Charge {
    let air = dice.from_to(10, 4000);
    let carbon = dice.from_to(0, air * 23_186 / 96_000);
    let hydrogen = dice.from_to(0, (air * 23_186 - 32_000 * carbon) / 16_000);
    Charge { air, carbon, hydrogen }
}

/// A charge and a temperature.
fn state(dice: &mut Dice) -> (Charge, i64) {
    (lean(dice), dice.from_to(200_000, 2_000_000))
}

/// A charge, and one more than its heat at a random temperature.
pub fn heat(dice: &mut Dice, gases: &Gases) -> (Charge, i64) {
    let charge = lean(dice);
    (charge, gases.heat(&charge, dice.from_to(200_000, 1_999_999)) as i64 + 1)
}

/// Walks of so many steps with no fuel added, each to a random temperature.
pub fn walks(dice: &mut Dice, gases: &Gases, count: usize, steps: usize) -> Vec<Walk> {
    let mut walk = || {
        let (charge, start) = (lean(dice), dice.from_to(200_000, 1_999_999));
        let mut mk = start;
        let mut numbers = Vec::new();
        for _ in 0..steps {
            let to = dice.from_to(200_000, 1_999_999);
            let q = gases.heat(&charge, to) - gases.heat(&charge, mk) + 1;
            numbers.extend([0, 0, 0, q as i64]);
            mk = to;
        }
        (charge, start, numbers)
    };
    (0..count).map(|_| walk()).collect()
}

/// A number of kelvins, and a key that it meets or misses within a window of 100.
pub fn mark(dice: &mut Dice, most: i64, divisor: f64) -> (f64, i64) {
    let x = dice.from_to(0, most) as f64 / divisor;
    (x, (1000.0 * x) as i64 + dice.from_to(-200, 200))
}
