//! The walk. What it holds between steps is the charge, the temperature and the heats there and at 15 °C.

use super::air::PLACES;
use super::gas::{covered, find, heat_at, Charge};
use super::{sheet, Refused};

#[derive(Clone, Copy)]
pub struct Standing {
    pub charge: Charge,
    pub mk: i64,
    heat: i64,
    fifteen: i64,
}

/// The three lists that are written.
pub struct Lent<'a> {
    pub temperatures: &'a mut [i64],
    pub rests: &'a mut [i64],
    pub looks: &'a mut [u32],
}

/// 1, 3, 13, 10, 4, 5, 6; else the steps done, 0 or the number of a refused step, charge and mK.
pub fn walk(
    charge: Charge,
    mk: i64,
    list: &[u32],
    steps: &[i64],
    lent: Lent,
) -> Result<(u32, u32, Charge, i64), Refused> {
    sheet::judge(list)?;
    walk_judged(charge, mk, list, steps, lent)
}

/// The same over an accepted sheet.
pub fn walk_judged(
    charge: Charge,
    mk: i64,
    list: &[u32],
    steps: &[i64],
    lent: Lent,
) -> Result<(u32, u32, Charge, i64), Refused> {
    if steps.len() % 4 != 0 || steps.len() > 256 {
        return Err((13, 0));
    }
    let n = steps.len() / 4;
    if lent.temperatures.len() < n || lent.rests.len() < n || lent.looks.len() < PLACES * n {
        return Err((10, 0));
    }
    charge.admit()?;
    covered(mk)?;
    let gas = charge.masses();
    let (heat, fifteen) = (heat_at(gas, mk, list), heat_at(gas, 288_160, list));
    Ok(course(Standing { charge, mk, heat, fifteen }, list, steps, lent))
}

fn course(start: Standing, list: &[u32], steps: &[i64], lent: Lent) -> (u32, u32, Charge, i64) {
    let mut now = start;
    for (i, numbers) in steps.chunks_exact(4).enumerate() {
        match step(&now, numbers, &mut lent.looks[PLACES * i..], list) {
            Err(number) => return (i as u32, number, now.charge, now.mk),
            Ok((next, rest)) => {
                lent.temperatures[i] = next.mk;
                lent.rests[i] = rest;
                now = next;
            }
        }
    }
    ((steps.len() / 4) as u32, 0, now.charge, now.mk)
}

/// 4, 7, 5, 8 or 9.
fn step(
    old: &Standing,
    numbers: &[i64],
    looks: &mut [u32],
    list: &[u32],
) -> Result<(Standing, i64), u32> {
    let charge = Charge {
        air: old.charge.air,
        carbon: add(old.charge.carbon, numbers[0])?,
        hydrogen: add(old.charge.hydrogen, numbers[1])?,
    };
    const MOST: i64 = 1_000_000_000_000_000_000;
    if !(0..=5_000_000).contains(&numbers[2]) || !(-MOST..=MOST).contains(&numbers[3]) {
        return Err(7);
    }
    if !charge.lean() {
        return Err(5);
    }
    let gas = charge.masses();
    let fifteen = heat_at(gas, 288_160, list);
    let fuel = Charge { air: 0, carbon: numbers[0], hydrogen: numbers[1] }.fuel_mass();
    let brought = fuel * 1000 * numbers[2] + numbers[3];
    let target = old.heat - old.fifteen + brought + fifteen;
    let (mk, rest) = find(gas, target, looks, list)?;
    Ok((Standing { charge, mk, heat: target - rest, fifteen }, rest))
}

fn add(have: i64, more: i64) -> Result<i64, u32> {
    if !(0..=50_000).contains(&more) || have + more > 50_000 {
        return Err(4);
    }
    Ok(have + more)
}
