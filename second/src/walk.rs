//! Document 01, "The walk", its refusals, and the printed walk.

use crate::air;
use crate::gas::{burn, fuel_mass, Charge, Gases};
use crate::inverse::{self, Found};
use crate::refusal::{refuse_if, Refusal};

/// The lists a walk is lent: temperature and rest per step, eleven looks per step.
pub struct Lent<'a> {
    pub temperatures: &'a mut [i64],
    pub rests: &'a mut [i64],
    pub looks: &'a mut [u32],
}

/// A charge at a temperature.
#[derive(Clone, Copy, Debug, PartialEq, Eq)]
pub struct State {
    pub charge: Charge,
    pub mk: i64,
}

#[derive(Clone, Copy, Debug, PartialEq, Eq)]
pub enum Outcome {
    /// Number of steps, the last charge and temperature.
    Done(usize, State),
    /// Steps done, the refused step's number, the charge and temperature before it.
    Stopped(usize, u32, State),
    /// The start is refused.
    Refused(Refusal),
}

/// Walks: 1, 3, 13, 10, start 4, 5, 6, then step by step.
pub fn walk(start: State, list: &[u32], steps: &[i64], lent: Lent) -> Outcome {
    match judge_start(&start, list, steps, &lent) {
        Err(refusal) => Outcome::Refused(refusal),
        Ok(gases) => walk_steps(start, &gases, steps, lent),
    }
}

fn judge_start(start: &State, list: &[u32], steps: &[i64], lent: &Lent) -> Result<Gases, Refusal> {
    let gases = Gases::of(list)?;
    refuse_if(steps.len() % 4 != 0 || steps.len() > 256, 13)?;
    let n = steps.len() / 4;
    let short = lent.temperatures.len() < n
        || lent.rests.len() < n
        || lent.looks.len() < inverse::PLACES * n;
    refuse_if(short, 10)?;
    burn(&start.charge)?;
    air::in_range(start.mk)?;
    Ok(gases)
}

fn walk_steps(start: State, gases: &Gases, steps: &[i64], lent: Lent) -> Outcome {
    let mut state = start;
    for (i, numbers) in steps.chunks(4).enumerate() {
        match step(&state, gases, numbers) {
            Err(refusal) => return Outcome::Stopped(i, refusal.number, state),
            Ok((charge, found)) => {
                lent.temperatures[i] = found.mk;
                lent.rests[i] = found.rest as i64;
                inverse::write_looks(&found, &mut lent.looks[inverse::PLACES * i..]);
                state = State { charge, mk: found.mk };
            }
        }
    }
    Outcome::Done(steps.len() / 4, state)
}

/// The charge after one step and what was found: 4, 7, 5, 8 or 9.
fn step(old: &State, gases: &Gases, numbers: &[i64]) -> Result<(Charge, Found), Refusal> {
    let (carbon, hydrogen) = (numbers[0], numbers[1]);
    let new = add_fuel(&old.charge, carbon, hydrogen)?;
    let step_heat = step_heat(numbers)?;
    new.lean()?;
    let target = gases.content(&old.charge, old.mk) + step_heat;
    let found = inverse::greatest(|mk| gases.content(&new, mk), target)?;
    Ok((new, found))
}

/// The charge with atoms added: 4 if they are negative or lead past the limit.
fn add_fuel(old: &Charge, carbon: i64, hydrogen: i64) -> Result<Charge, Refusal> {
    refuse_if(carbon < 0 || hydrogen < 0, 4)?;
    let new = Charge {
        air: old.air,
        carbon: old.carbon.saturating_add(carbon),
        hydrogen: old.hydrogen.saturating_add(hydrogen),
    };
    new.limits()?;
    Ok(new)
}

/// Added fuel mass × 1000 × calorific value + q: 7 if either is outside its range.
pub fn step_heat(numbers: &[i64]) -> Result<i128, Refusal> {
    let [carbon, hydrogen, calorific, q] = numbers else { panic!("a step is four numbers") };
    const MOST: i64 = 1_000_000_000_000_000_000;
    refuse_if(!(0..=5_000_000).contains(calorific) || !(-MOST..=MOST).contains(q), 7)?;
    Ok(fuel_mass(*carbon, *hydrogen) * 1000 * *calorific as i128 + *q as i128)
}

/// The printed walk: a header, a line for each step done, and the refusal if there is one.
pub fn printed(outcome: &Outcome, lent: &Lent) -> String {
    let mut page = String::from("step\tmK\trest\tlooks\n");
    let (done, number) = match outcome {
        Outcome::Done(n, _) => (*n, None),
        Outcome::Stopped(n, number, _) => (*n, Some(*number)),
        Outcome::Refused(refusal) => (0, Some(refusal.number)),
    };
    for i in 0..done {
        let (mk, rest) = (lent.temperatures[i], lent.rests[i]);
        page += &format!("{}\t{mk}\t{rest}\t{}\n", i + 1, step_looks(lent.looks, i).len());
    }
    if let Some(number) = number {
        page += &format!("refused\t{number}\n");
    }
    page
}

/// The looks of one step in the lent list, without the unused places.
pub fn step_looks(looks: &[u32], step: usize) -> Vec<u32> {
    let places = &looks[inverse::PLACES * step..inverse::PLACES * (step + 1)];
    places.iter().copied().filter(|look| *look != 0).collect()
}
