//! Walks of every length, many of them damaged.

use crate::answer::fields;
use crate::dice::Dice;
use crate::gas::{Charge, Gases};
use crate::inverse::PLACES;
use crate::trials::gas::lean_charge;
use crate::trials::EXTREMES;
use crate::walk::{step_heat, walk, Lent, Outcome, State};

const MOST: i128 = 1_000_000_000_000_000_000;

/// Lengths in the share that they are wanted.
const LENGTHS: [usize; 15] = [0, 1, 1, 1, 1, 1, 1, 2, 2, 2, 3, 3, 4, 5, 10];

/// A walk: A, c, h, mK and the numbers of its steps.
#[derive(Clone)]
pub struct Walk {
    start: [i64; 4],
    steps: Vec<i64>,
}

impl Walk {
    /// The request of `keys ask`.
    fn request(&self) -> String {
        fields("walk", &[&self.start[..], &self.steps].concat())
    }

    /// The question of `keys walk`: four numbers a line, so numbers over at the end are left out.
    pub fn question(&self) -> String {
        let lines = [&self.start[..]].into_iter().chain(self.steps.chunks_exact(4));
        let line =
            |of: &[i64]| of.iter().map(i64::to_string).collect::<Vec<String>>().join("\t") + "\n";
        lines.map(line).collect()
    }
}

/// So many good walks on an accepted sheet, each followed by one that is damaged; and long ones.
pub fn requests(dice: &mut Dice, list: &[u32], pairs: usize) -> Vec<String> {
    walks(dice, list, pairs).iter().map(Walk::request).collect()
}

pub fn walks(dice: &mut Dice, list: &[u32], pairs: usize) -> Vec<Walk> {
    let gases = Gases::of(list).expect("an accepted sheet");
    let mut walks = Vec::new();
    for length in LENGTHS.iter().cycle().take(pairs) {
        let good = random_walk(dice, list, &gases, *length);
        walks.push(damage(dice, &good));
        walks.push(good);
    }
    for length in [63, 64, 65] {
        walks.push(whole_walk(dice, list, &gases, length));
    }
    walks
}

/// A walk of that length, none of whose steps is refused.
fn whole_walk(dice: &mut Dice, list: &[u32], gases: &Gases, length: usize) -> Walk {
    let mut walk = random_walk(dice, list, gases, 0);
    let [air, carbon, hydrogen, mk] = walk.start;
    let mut now = State { charge: Charge { air, carbon, hydrogen }, mk };
    while walk.steps.len() < 4 * length {
        let step = random_step(dice, gases, &now);
        if let Some(next) = after(&now, list, &step) {
            walk.steps.extend(step);
            now = next;
        }
    }
    walk
}

/// A walk of that length, each step from where the steps before lead.
fn random_walk(dice: &mut Dice, list: &[u32], gases: &Gases, length: usize) -> Walk {
    let [air, carbon, hydrogen] = lean_charge(dice);
    let fresh = dice.below(2) == 0;
    let [carbon, hydrogen] = if fresh { [0, 0] } else { [carbon, hydrogen] };
    let mk = dice.from_to(200_000, 2_000_000);
    let mut walk = Walk { start: [air, carbon, hydrogen, mk], steps: Vec::new() };
    let mut now = State { charge: Charge { air, carbon, hydrogen }, mk };
    for _ in 0..length {
        let step = random_step(dice, gases, &now);
        walk.steps.extend(step);
        if let Some(next) = after(&now, list, &step) {
            now = next;
        }
    }
    walk
}

/// Where one step leads, if it is not refused.
fn after(now: &State, list: &[u32], step: &[i64]) -> Option<State> {
    let lent = Lent { temperatures: &mut [0], rests: &mut [0], looks: &mut [0; PLACES] };
    match walk(*now, list, step, lent) {
        Outcome::Done(_, last) => Some(last),
        _ => None,
    }
}

/// A step with fuel or without that leads close to a temperature drawn at random, if q can do it;
/// now and then to an end of the range, or with the last hydrogen that is lean or one over.
pub fn random_step(dice: &mut Dice, gases: &Gases, now: &State) -> [i64; 4] {
    let Charge { air, carbon, hydrogen } = now.charge;
    let left = 23_186 * air - 32_000 * carbon - 8000 * hydrogen;
    let more_carbon = dice.from_to(0, (left / 96_000).min(50_000 - carbon));
    let more_hydrogen = dice.from_to(0, (left / 24_000).min(50_000 - hydrogen));
    let last = (left / 8000).min(50_000 - hydrogen);
    let [more_carbon, more_hydrogen] = match dice.below(60) {
        0 => [0, last],
        1 => [0, last + 1],
        2..=14 => [more_carbon, more_hydrogen],
        15..=24 => [more_carbon, 0],
        _ => [0, 0],
    };
    let calorific = if more_carbon + more_hydrogen > 0 { dice.from_to(0, 5_000_000) } else { 0 };
    let new = Charge { air, carbon: carbon + more_carbon, hydrogen: hydrogen + more_hydrogen };
    let burnt = step_heat(&[more_carbon, more_hydrogen, calorific, 0]).expect("inside its range");
    let mk = match dice.below(60) {
        0 | 1 => dice.one_of(&[200_000, 2_000_000]),
        2 => 288_160,
        _ => dice.from_to(200_000, 2_000_000),
    };
    let held = gases.content(&now.charge, now.mk) + burnt;
    let q = gases.content(&new, mk) - held + dice.one_of(&[-1, 0, 0, 1, 999_999]);
    [more_carbon, more_hydrogen, calorific, q.clamp(-MOST, MOST) as i64]
}

/// The walk with one number spoilt, or with numbers missing at its end.
fn damage(dice: &mut Dice, good: &Walk) -> Walk {
    let mut bad = good.clone();
    let steps = good.steps.len() / 4;
    match dice.below(8) {
        0 if steps > 0 => bad.steps.truncate(good.steps.len() - dice.from_to(1, 3) as usize),
        1..=6 if steps > 0 => {
            let step = dice.one_of(&[0, steps / 2, steps - 1]);
            let which = dice.below(4) as usize;
            bad.steps[4 * step + which] = wrong_in_step(dice, which);
        }
        _ => {
            let which = dice.below(4) as usize;
            let limits = [[0, 100_001], [-1, 50_001], [-1, 50_001], [199_999, 2_000_001]][which];
            bad.start[which] = dice.one_of(&[&limits[..], &EXTREMES].concat());
        }
    }
    bad
}

/// A number that is, or may be, wrong at that place of a step.
fn wrong_in_step(dice: &mut Dice, which: usize) -> i64 {
    let most = MOST as i64;
    let wrong: &[i64] = match which {
        0 | 1 => &[-1, 500, 50_000, 50_001, i64::MIN, i64::MAX],
        2 => &[-1, 0, 5_000_000, 5_000_001, i64::MIN, i64::MAX],
        _ => &[0, most, most + 1, -most, -most - 1, i64::MIN, i64::MAX],
    };
    dice.one_of(wrong)
}
