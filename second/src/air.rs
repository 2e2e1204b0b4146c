//! Document 01, "The air table": readings between whole kelvins, Cp, and the ψ inverse.

use crate::inverse::{self, Found};
use crate::refusal::{refuse_if, Refusal};
use crate::table::{table, COLDEST, FIRST, HOTTEST, LAST};

/// Heat per pound at a temperature in mK, in 0.00001 C.H.U.
pub fn heat(mk: i64) -> Result<i64, Refusal> {
    in_range(mk)?;
    Ok(between(&table().heat, mk))
}

/// ψ at a temperature in mK, in 0.0000001.
pub fn psi(mk: i64) -> Result<i64, Refusal> {
    in_range(mk)?;
    Ok(between(&table().psi, mk))
}

/// Cp as printed, at a whole number of kelvins.
pub fn cp(kelvin: i64) -> Result<i64, Refusal> {
    refuse_if(!(FIRST..=LAST).contains(&kelvin), 6)?;
    Ok(table().cp[(kelvin - FIRST) as usize])
}

/// The greatest temperature whose ψ is at most the target; its looks go to the lent list.
pub fn temperature(target: i64, looks: &mut [u32]) -> Result<Found, Refusal> {
    refuse_if(looks.len() < inverse::PLACES, 10)?;
    let found = inverse::greatest(|mk| between(&table().psi, mk) as i128, target as i128)?;
    inverse::write_looks(&found, looks);
    Ok(found)
}

/// Refusal 6 outside 200,000 to 2,000,000 mK.
pub fn in_range(mk: i64) -> Result<(), Refusal> {
    refuse_if(!(COLDEST..=HOTTEST).contains(&mk), 6)
}

/// A column (place 0 is 200 K) at a temperature in range: 1000·col(k) + f·(col(k+1) − col(k));
/// at 2,000,000 mK the last row alone.
pub fn between(column: &[i64], mk: i64) -> i64 {
    let at = |kelvin: i64| column[(kelvin - FIRST) as usize];
    if mk == HOTTEST {
        return 1000 * at(LAST);
    }
    let (k, f) = (mk / 1000, mk % 1000);
    1000 * at(k) + f * (at(k + 1) - at(k))
}
