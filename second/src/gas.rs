//! Document 01, "Burning" and "Temperature from heat". Document 02, request 2: how a specific content is rounded.
//!
//! Masses are in mg, a gas heat in mg times 0.00001 C.H.U./lb, both as wide integers.

use crate::air::{self, between};
use crate::inverse::{self, Found};
use crate::refusal::{refuse_if, Refusal};
use crate::sheet;
use crate::table::table;

/// 15 °C.
pub const FIFTEEN: i64 = 288_160;

/// A parts of air, moles of carbon, moles of hydrogen atoms.
#[derive(Clone, Copy, Debug, PartialEq, Eq)]
pub struct Charge {
    pub air: i64,
    pub carbon: i64,
    pub hydrogen: i64,
}

#[derive(Clone, Copy, Debug, PartialEq, Eq)]
pub struct Products {
    pub co2: i128,
    pub h2o: i128,
    pub o2: i128,
    pub n2: i128,
    pub ar: i128,
}

/// Fuel mass of some carbon and hydrogen.
pub fn fuel_mass(carbon: i64, hydrogen: i64) -> i128 {
    12011 * carbon as i128 + 1008 * hydrogen as i128
}

impl Charge {
    /// Refusal 4: a number outside its limit.
    pub fn limits(&self) -> Result<(), Refusal> {
        let atoms = 0..=50_000;
        let inside = (1..=100_000).contains(&self.air)
            && atoms.contains(&self.carbon)
            && atoms.contains(&self.hydrogen);
        refuse_if(!inside, 4)
    }

    /// Refusal 5: more oxygen used than the air holds.
    pub fn lean(&self) -> Result<(), Refusal> {
        refuse_if(self.oxygen_used() > 23186 * self.air as i128, 5)
    }

    pub fn oxygen_used(&self) -> i128 {
        32000 * self.carbon as i128 + 8000 * self.hydrogen as i128
    }

    pub fn total_mass(&self) -> i128 {
        100_000 * self.air as i128 + fuel_mass(self.carbon, self.hydrogen)
    }

    pub fn products(&self) -> Products {
        Products {
            co2: 44011 * self.carbon as i128,
            h2o: 9008 * self.hydrogen as i128,
            o2: 23186 * self.air as i128 - self.oxygen_used(),
            n2: 75463 * self.air as i128,
            ar: 1351 * self.air as i128,
        }
    }
}

/// The three gases of an accepted sheet as columns, read between kelvins as air is.
pub struct Gases {
    o2: Vec<i64>,
    co2: Vec<i64>,
    h2o: Vec<i64>,
}

impl Gases {
    /// Judges the list first: 1, 3.
    pub fn of(list: &[u32]) -> Result<Gases, Refusal> {
        sheet::judge(list)?;
        let column = |which: usize| list.iter().skip(which).step_by(3).map(|v| *v as i64).collect();
        Ok(Gases { o2: column(0), co2: column(1), h2o: column(2) })
    }

    /// Gas heat of a charge at a temperature in range.
    pub fn heat(&self, charge: &Charge, mk: i64) -> i128 {
        let at = |column: &[i64]| between(column, mk) as i128;
        let Products { co2, h2o, .. } = charge.products();
        100_000 * charge.air as i128 * at(&table().heat) - charge.oxygen_used() * at(&self.o2)
            + co2 * at(&self.co2)
            + h2o * at(&self.h2o)
    }

    /// Content above 15 °C of a charge at a temperature in range.
    pub fn content(&self, charge: &Charge, mk: i64) -> i128 {
        self.heat(charge, mk) - self.heat(charge, FIFTEEN)
    }

    /// Content above 15 °C divided by total mass, to the nearest whole number.
    pub fn specific_content(&self, charge: &Charge, mk: i64) -> i128 {
        nearest(self.content(charge, mk), charge.total_mass())
    }

    /// The dearest thousandth of a kelvin: the largest rise from one mK to the next. Between
    /// two whole kelvins all rises are alike, so one of each kelvin is enough.
    pub fn dearest(&self, charge: &Charge) -> i128 {
        let rise = |mk: i64| self.heat(charge, mk + 1) - self.heat(charge, mk);
        (200..2000).map(|kelvin| rise(1000 * kelvin)).max().expect("there are 1,800 kelvins")
    }
}

/// Document 02, request 2: of the two whole numbers about content / mass the nearer, at a tie the even one.
fn nearest(content: i128, mass: i128) -> i128 {
    let below = content.div_euclid(mass);
    let away = |whole: i128| (content - whole * mass).abs();
    let nearer = [below, below + 1].into_iter().min_by_key(|whole| (away(*whole), whole % 2 != 0));
    nearer.expect("there are two")
}

/// What burns: 4, 5.
pub fn burn(charge: &Charge) -> Result<Products, Refusal> {
    charge.limits()?;
    charge.lean()?;
    Ok(charge.products())
}

/// The judged gases for a charge at a temperature: 1, 3, 4, 5, 6.
fn judged(charge: &Charge, mk: i64, list: &[u32]) -> Result<Gases, Refusal> {
    let gases = Gases::of(list)?;
    burn(charge)?;
    air::in_range(mk)?;
    Ok(gases)
}

pub fn gas_heat(charge: &Charge, mk: i64, list: &[u32]) -> Result<i128, Refusal> {
    Ok(judged(charge, mk, list)?.heat(charge, mk))
}

pub fn content(charge: &Charge, mk: i64, list: &[u32]) -> Result<i128, Refusal> {
    Ok(judged(charge, mk, list)?.content(charge, mk))
}

pub fn specific_content(charge: &Charge, mk: i64, list: &[u32]) -> Result<i128, Refusal> {
    Ok(judged(charge, mk, list)?.specific_content(charge, mk))
}

/// The greatest temperature whose gas heat is at most the target; its looks go to the lent list.
/// Order: 1, 3, 10, 4, 5, 8 or 9.
pub fn temperature(
    charge: &Charge,
    target: i64,
    list: &[u32],
    looks: &mut [u32],
) -> Result<Found, Refusal> {
    let gases = Gases::of(list)?;
    refuse_if(looks.len() < inverse::PLACES, 10)?;
    burn(charge)?;
    let found = inverse::greatest(|mk| gases.heat(charge, mk), target as i128)?;
    inverse::write_looks(&found, looks);
    Ok(found)
}
