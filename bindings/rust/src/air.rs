use crate::raw;
use crate::{Millikelvin, Refusal};

/// The heat of air above 0 K at a temperature, in 0.00001 C.H.U./lb. Refusals: 6.
///
/// ```
/// use gaskeys::{air_heat, Millikelvin};
///
/// assert_eq!(air_heat(Millikelvin(200_500))?, 4_788_000);
/// assert_eq!(air_heat(Millikelvin(199_999)).unwrap_err().number(), 6);
/// # Ok::<(), gaskeys::Refusal>(())
/// ```
pub fn air_heat(t: Millikelvin) -> Result<u64, Refusal> {
    // SAFETY: a number alone is passed.
    read(unsafe { raw::gaskeys_air_heat(t.0) })
}

/// psi of air at a temperature, in 0.0000001. Refusals: 6.
///
/// ```
/// assert_eq!(gaskeys::air_psi(gaskeys::Millikelvin(200_500))?, 95_302_000);
/// # Ok::<(), gaskeys::Refusal>(())
/// ```
pub fn air_psi(t: Millikelvin) -> Result<u64, Refusal> {
    // SAFETY: a number alone is passed.
    read(unsafe { raw::gaskeys_air_psi(t.0) })
}

/// Cp of air as printed, in ten-thousandths, at a whole number of kelvins, 200 to 2,000.
/// Refusals: 6.
///
/// ```
/// assert_eq!(gaskeys::air_cp(200)?, 2_393);
/// assert_eq!(gaskeys::air_cp(2_000)?, 2_986);
/// # Ok::<(), gaskeys::Refusal>(())
/// ```
pub fn air_cp(kelvin: i64) -> Result<u64, Refusal> {
    // SAFETY: a number alone is passed.
    read(unsafe { raw::gaskeys_air_cp(kelvin) })
}

fn read(told: raw::ReadingTold) -> Result<u64, Refusal> {
    Refusal::told(told.refusal, told.row, told.placed)?;
    Ok(told.reading)
}
