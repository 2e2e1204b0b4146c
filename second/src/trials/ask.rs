//! `trial_ask`: every row of Table 1, both sides of every limit, and every request of `keys ask` over the built-in sheet, with typed
//! answers as decimals.

use crate::answer::fields;
use crate::dice::Dice;
use crate::gas::{Charge, Gases};
use crate::sheet;
use crate::trials::gas::lean_charge;
use crate::trials::walks::random_step;
use crate::trials::{limits, rows};
use crate::walk::State;

pub fn requests() -> Vec<String> {
    let mut dice = Dice::new(0xa5cc);
    let gases = Gases::of(&sheet::built_in()).expect("the built-in sheet is accepted");
    let mut requests = [rows::every_row(), rows::edges(), limits::requests()].concat();
    requests.push(fields("mark\tblank", &[0, 0]));
    for _ in 0..60 {
        requests.extend(of_air(&mut dice));
        requests.extend(of_a_charge(&mut dice, &gases));
        requests.extend((0..8).map(|_| decimal_mark(&mut dice)));
    }
    requests
}

fn of_air(dice: &mut Dice) -> [String; 4] {
    [
        fields("air-heat", &[dice.from_to(199_000, 2_001_000)]),
        fields("air-psi", &[dice.from_to(199_000, 2_001_000)]),
        fields("air-cp", &[dice.from_to(199, 2001)]),
        fields("air-temperature", &[dice.from_to(95_000_000, 134_000_000)]),
    ]
}

fn of_a_charge(dice: &mut Dice, gases: &Gases) -> Vec<String> {
    let [air, carbon, hydrogen] = lean_charge(dice);
    let now =
        State { charge: Charge { air, carbon, hydrogen }, mk: dice.from_to(200_000, 2_000_000) };
    let at = [air, carbon, hydrogen, now.mk];
    let target = gases.heat(&now.charge, now.mk) as i64 + dice.from_to(-1, 999_999);
    let words = ["gas-heat", "content", "specific-content", "station"];
    let mut requests: Vec<String> = words.iter().map(|word| fields(word, &at)).collect();
    requests.push(fields("burn", &at[..3]));
    requests.push(fields("temperature", &[air, carbon, hydrogen, target]));
    requests.push(fields("walk", &[at, random_step(dice, gases, &now)].concat()));
    requests
}

/// A decimal typed at the edge of its window, or a little beside it, with more digits than the key.
pub fn decimal_mark(dice: &mut Dice) -> String {
    let (kind, decimals) = dice.one_of(&[("kelvins", 3), ("content", 5)]);
    let key = dice.from_to(-1_000_000_000, 1_000_000_000) >> dice.below(30);
    let window = dice.from_to(0, 100_000) >> dice.below(18);
    let edge = dice.one_of(&[key, key - window, key + window]);
    let finer = dice.below(5) as u32;
    let digits = edge * 10i64.pow(finer) + dice.from_to(-1, 1);
    let typed = decimal(digits, decimals + finer as usize);
    fields(&format!("mark\t{kind}\t{typed}"), &[key, window])
}

/// A whole number with a point before its last digits: −25 with 3 is -0.025.
fn decimal(digits: i64, decimals: usize) -> String {
    let sign = if digits < 0 { "-" } else { "" };
    let size = format!("{:0>width$}", digits.unsigned_abs(), width = decimals + 1);
    let (whole, part) = size.split_at(size.len() - decimals);
    format!("{sign}{whole}.{part}")
}
