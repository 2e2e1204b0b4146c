//! Burning, heats, contents, stations and temperatures, over any sheet; specific contents at a half are in `halves`.

use crate::answer::fields;
use crate::dice::Dice;
use crate::gas::{Charge, Gases, FIFTEEN};
use crate::trials::{halves, EXTREMES};

/// Charges at the limits of the rules.
const CHARGES: [[i64; 3]; 9] = [
    [1, 0, 0],
    [1, 0, 2],
    [3, 1, 4],
    [4000, 0, 11_593],
    [16_000, 11_593, 0],
    [86_259, 50_000, 50_000],
    [100_000, 50_000, 50_000],
    [100_000, 0, 0],
    [32_000, 23_186, 0],
];

/// Requests over an accepted sheet.
pub fn requests(dice: &mut Dice, gases: &Gases) -> Vec<String> {
    let random: Vec<[i64; 3]> = (0..40).map(|_| lean_charge(dice)).collect();
    let mut requests = Vec::new();
    for charge in CHARGES.iter().chain(&random) {
        requests.extend(heats(dice, charge));
        requests.extend(temperatures(dice, gases, charge));
    }
    requests.extend(halves::requests(dice, gases));
    requests.extend(extremes());
    requests.extend(waiting());
    requests
}

/// A charge that burns, small or large, with any share of what it can burn.
pub fn lean_charge(dice: &mut Dice) -> [i64; 3] {
    let air = dice.from_to(1, 100_000) >> dice.below(12);
    let air = air.max(1);
    let carbon = dice.from_to(0, (23_186 * air / 32_000).min(50_000));
    let left = (23_186 * air - 32_000 * carbon) / 8000;
    [air, carbon, dice.from_to(0, left.min(50_000))]
}

fn charge(of: &[i64; 3]) -> Charge {
    Charge { air: of[0], carbon: of[1], hydrogen: of[2] }
}

/// Charges at random, at the last mole that is lean and one over, and outside the limits.
pub fn burning(dice: &mut Dice) -> Vec<String> {
    let mut charges: Vec<[i64; 3]> = CHARGES.to_vec();
    for _ in 0..300 {
        let [air, carbon, hydrogen] = lean_charge(dice);
        let last = (23_186 * air - 32_000 * carbon) / 8000;
        charges.extend([[air, carbon, hydrogen], [air, carbon, last], [air, carbon, last + 1]]);
    }
    for wrong in EXTREMES.into_iter().chain([2, 50_000, 50_001, 100_000, 100_001]) {
        charges.extend([[wrong, 1, 1], [9, wrong, 1], [9, 1, wrong], [wrong, wrong, wrong]]);
    }
    charges.iter().map(|charge| fields("burn", charge)).collect()
}

/// Each kind of reading of a charge, at the ends, about 15 °C and at random.
fn heats(dice: &mut Dice, [a, c, h]: &[i64; 3]) -> Vec<String> {
    let mut requests = Vec::new();
    for word in ["gas-heat", "content", "specific-content", "station"] {
        let random = dice.from_to(200_000, 2_000_000);
        let end = dice.one_of(&[200_000, 2_000_000]);
        for mk in [end, FIFTEEN + dice.from_to(-1, 1), random] {
            requests.push(fields(word, &[*a, *c, *h, mk]));
        }
    }
    requests
}

/// Targets at, one under and one over the heat of a whole kelvin and of a thousandth, beyond the
/// ends and at them, and eight between.
fn temperatures(dice: &mut Dice, gases: &Gases, of: &[i64; 3]) -> Vec<String> {
    let [a, c, h] = *of;
    let heat = |mk: i64| gases.heat(&charge(of), mk) as i64;
    let (coldest, hottest) = (heat(200_000), heat(2_000_000));
    let kelvin = heat(1000 * dice.from_to(201, 1999));
    let mk = heat(dice.from_to(200_001, 1_999_999));
    let mut targets = vec![coldest - 1, coldest, coldest + 1, hottest - 1, hottest, hottest + 1];
    targets.extend([kelvin, mk].iter().flat_map(|heat| [heat - 1, *heat, heat + 1]));
    targets.extend((0..8).map(|_| dice.from_to(coldest, hottest)));
    targets.iter().map(|target| fields("temperature", &[a, c, h, *target])).collect()
}

/// Extreme numbers for a charge, a temperature and a heat.
fn extremes() -> Vec<String> {
    let mut requests = Vec::new();
    for number in EXTREMES {
        for word in WITH_SHEET {
            requests.push(fields(word, &[3, 1, 4, number]));
            requests.push(fields(word, &[number, 0, 0, 300_000]));
        }
    }
    requests
}

/// The requests of a charge and one number that take a sheet.
const WITH_SHEET: [&str; 5] = ["gas-heat", "content", "specific-content", "station", "temperature"];

/// Each request that takes a sheet, with other refusals waiting behind the sheet's.
pub fn waiting() -> Vec<String> {
    let mut requests = vec![fields("walk", &[1, 1, 0, 0, 1]), fields("walk", &[1, 1, 0, 0])];
    for of in [[3, 1, 4, 300_000], [3, 1, 4, 0], [1, 1, 0, 0], [0, 1, 0, 0]] {
        requests.extend(WITH_SHEET.map(|word| fields(word, &of)));
    }
    requests
}
