//! Gas heats, specific contents and the temperature of a heat, in 64 bits.

use super::air::PLACES;
use super::columns::HEAT;
use super::{sheet, Refused};

#[derive(Clone, Copy)]
pub struct Charge {
    pub air: i64,
    pub carbon: i64,
    pub hydrogen: i64,
}

/// The masses that take part in a gas heat.
#[derive(Clone, Copy)]
pub struct Masses {
    air: i64,
    used: i64,
    co2: i64,
    h2o: i64,
}

impl Charge {
    /// 4, 5.
    pub fn admit(self) -> Result<(), Refused> {
        let atoms = 0..=50_000;
        if !(1..=100_000).contains(&self.air)
            || !atoms.contains(&self.carbon)
            || !atoms.contains(&self.hydrogen)
        {
            return Err((4, 0));
        }
        if !self.lean() {
            return Err((5, 0));
        }
        Ok(())
    }

    pub fn lean(self) -> bool {
        self.masses().used <= 23_186 * self.air
    }

    pub fn masses(self) -> Masses {
        Masses {
            air: 100_000 * self.air,
            used: 32_000 * self.carbon + 8_000 * self.hydrogen,
            co2: 44_011 * self.carbon,
            h2o: 9_008 * self.hydrogen,
        }
    }

    pub fn fuel_mass(self) -> i64 {
        12_011 * self.carbon + 1_008 * self.hydrogen
    }

    pub fn total_mass(self) -> i64 {
        100_000 * self.air + self.fuel_mass()
    }
}

pub fn covered(mk: i64) -> Result<(), Refused> {
    if (200_000..=2_000_000).contains(&mk) {
        Ok(())
    } else {
        Err((6, 0))
    }
}

pub fn at_kelvin(gas: Masses, kelvin: i64, sheet: &[u32]) -> i64 {
    let row = (kelvin - 200) as usize;
    let gases = &sheet[3 * row..3 * row + 3];
    let of = |figure: u32| 1000 * figure as i64;
    gas.air * of(HEAT[row]) + gas.co2 * of(gases[1]) + gas.h2o * of(gases[2])
        - gas.used * of(gases[0])
}

pub fn heat_at(gas: Masses, mk: i64, sheet: &[u32]) -> i64 {
    if mk == 2_000_000 {
        return at_kelvin(gas, 2000, sheet);
    }
    let here = at_kelvin(gas, mk / 1000, sheet);
    let next = at_kelvin(gas, mk / 1000 + 1, sheet);
    here + mk % 1000 * ((next - here) / 1000)
}

/// 1, 3, 4, 5, 6; else content above 15 °C over total mass, to the nearest whole number, a tie to the even one.
pub fn specific_content(charge: Charge, mk: i64, list: &[u32]) -> Result<i64, Refused> {
    sheet::judge(list)?;
    charge.admit()?;
    covered(mk)?;
    let gas = charge.masses();
    let content = heat_at(gas, mk, list) - heat_at(gas, 288_160, list);
    Ok(nearest(content, charge.total_mass()))
}

/// One further from zero than `/` gives where more than half is left, or half and the quotient is odd.
fn nearest(content: i64, mass: i64) -> i64 {
    let (whole, rest) = (content / mass, content % mass);
    let further = 2 * rest.abs() + (whole & 1) > mass;
    whole + if further { rest.signum() } else { 0 }
}

/// The temperature of a heat and the rest; the looks go into the first eleven places: 8 or 9.
pub fn find(gas: Masses, target: i64, looks: &mut [u32], sheet: &[u32]) -> Result<(i64, i64), u32> {
    let first = at_kelvin(gas, 200, sheet);
    if target < first {
        return Err(8);
    }
    let last = at_kelvin(gas, 2000, sheet);
    if target > last {
        return Err(9);
    }
    looks[..PLACES].fill(0);
    if target == last {
        return Ok((2_000_000, 0));
    }
    let (low, under, over) = halve(gas, target, (first, last), looks, sheet);
    let (slope, more) = ((over - under) as u64 / 1000, (target - under) as u64);
    Ok((1000 * low + (more / slope) as i64, (more % slope) as i64))
}

/// The halving rule from 200 and 2,000, with the heats at the ends: the lower end and the two heats.
fn halve(
    gas: Masses,
    target: i64,
    ends: (i64, i64),
    looks: &mut [u32],
    sheet: &[u32],
) -> (i64, i64, i64) {
    let (mut low, mut high, mut at) = (200, 2000, 0);
    let (mut under, mut over) = ends;
    while high > low + 1 {
        let middle = (low + high) / 2;
        looks[at] = middle as u32;
        at += 1;
        let heat = at_kelvin(gas, middle, sheet);
        if heat <= target {
            (low, under) = (middle, heat);
        } else {
            (high, over) = (middle, heat);
        }
    }
    (low, under, over)
}

/// 1, 3, 10, 4, 5, 8 or 9.
pub fn temperature(
    charge: Charge,
    target: i64,
    list: &[u32],
    looks: &mut [u32],
) -> Result<(i64, i64), Refused> {
    sheet::judge(list)?;
    if looks.len() < PLACES {
        return Err((10, 0));
    }
    charge.admit()?;
    find(charge.masses(), target, looks, list).map_err(|number| (number, 0))
}
