use crate::raw;
use crate::{Refusal, State};

/// A temperature in thousandths of a kelvin. The table covers 200,000 to 2,000,000.
#[derive(Clone, Copy, Debug, PartialEq, Eq, PartialOrd, Ord, Hash)]
pub struct Millikelvin(pub i64);

/// A gas heat, in mg times 0.00001 C.H.U./lb. It is never added to a temperature.
#[derive(Clone, Copy, Debug, PartialEq, Eq, PartialOrd, Ord, Hash)]
pub struct Heat(pub i64);

/// A charge: parts of air of 100 g (1 to 100,000), moles of carbon and moles of hydrogen atoms
/// (0 to 50,000 each). Any number may stand here; the calls refuse what is outside.
#[derive(Clone, Copy, Debug, PartialEq, Eq, Hash)]
pub struct Charge {
    pub air: i64,
    pub carbon: i64,
    pub hydrogen: i64,
}

/// What a charge burns to, in mg.
#[derive(Clone, Copy, Debug, PartialEq, Eq, Hash)]
pub struct Products {
    pub co2: u64,
    pub h2o: u64,
    pub o2: u64,
    pub n2: u64,
    pub ar: u64,
}

/// What a charge burns to. Refusals: 4, 5.
///
/// ```
/// use gaskeys::{burn, Charge, Products};
///
/// let products = burn(Charge { air: 3, carbon: 1, hydrogen: 4 })?;
/// let right = Products { co2: 44_011, h2o: 36_032, o2: 5_558, n2: 226_389, ar: 4_053 };
/// assert_eq!(products, right);
/// assert_eq!(burn(Charge { air: 2, carbon: 1, hydrogen: 4 }).unwrap_err().number(), 5);
/// # Ok::<(), gaskeys::Refusal>(())
/// ```
pub fn burn(charge: Charge) -> Result<Products, Refusal> {
    // SAFETY: numbers alone are passed.
    let told = unsafe { raw::gaskeys_burn(charge.air, charge.carbon, charge.hydrogen) };
    Refusal::told(told.refusal, told.row, told.placed)?;
    let raw::BurnTold { co2, h2o, o2, n2, ar, .. } = told;
    Ok(Products { co2, h2o, o2, n2, ar })
}

/// The gas heat of a charge at a temperature, above 0 K: what [`temperature`] takes.
/// Refusals: 1, 3, 4, 5, 6.
///
/// ```
/// use gaskeys::{gas_heat, temperature, Charge, Heat, Millikelvin, State};
///
/// let sheet = gaskeys::built_in_sheet();
/// let charge = Charge { air: 1, carbon: 0, hydrogen: 0 };
/// let heat = gas_heat(State { charge, temperature: Millikelvin(200_500) }, &sheet)?;
/// assert_eq!(heat, Heat(478_800_000_000));
/// let found = temperature(charge, heat, &sheet, &mut [0; gaskeys::LOOKS])?;
/// assert_eq!(found, (Millikelvin(200_500), Heat(0)));
/// # Ok::<(), gaskeys::Refusal>(())
/// ```
pub fn gas_heat(at: State, sheet: &[u32]) -> Result<Heat, Refusal> {
    heat_of(at, sheet, raw::gaskeys_gas_heat).map(Heat)
}

/// The content of a charge at a temperature: its gas heat less its gas heat at 15 °C (288,160 mK).
/// Refusals: 1, 3, 4, 5, 6.
///
/// ```
/// use gaskeys::{content, Charge, Heat, Millikelvin, State};
///
/// let sheet = gaskeys::built_in_sheet();
/// let charge = Charge { air: 1, carbon: 0, hydrogen: 0 };
/// let at = |mk: i64| State { charge, temperature: Millikelvin(mk) };
/// assert_eq!(content(at(288_160), &sheet)?, Heat(0));
/// assert_eq!(content(at(300_000), &sheet)?, Heat(28_316_000_000));
/// # Ok::<(), gaskeys::Refusal>(())
/// ```
pub fn content(at: State, sheet: &[u32]) -> Result<Heat, Refusal> {
    heat_of(at, sheet, raw::gaskeys_content).map(Heat)
}

/// The specific content of a charge at a temperature, in 0.00001 C.H.U./lb: its content divided by
/// its total mass, to the nearest whole number, a tie to the even one. Refusals: 1, 3, 4, 5, 6.
///
/// ```
/// use gaskeys::{specific_content, Charge, Millikelvin, State};
///
/// // −2,400,000 divided by 101,008 is −23.76..
/// let sheet = [0; gaskeys::SHEET_PLACES];
/// let charge = Charge { air: 1, carbon: 0, hydrogen: 1 };
/// let at = State { charge, temperature: Millikelvin(288_159) };
/// assert_eq!(specific_content(at, &sheet)?, -24);
/// // 9,404,600,000 divided by 102,016 is 92,187.5
/// let charge = Charge { air: 1, carbon: 0, hydrogen: 2 };
/// let at = State { charge, temperature: Millikelvin(292_082) };
/// assert_eq!(specific_content(at, &sheet)?, 92_188);
/// # Ok::<(), gaskeys::Refusal>(())
/// ```
pub fn specific_content(at: State, sheet: &[u32]) -> Result<i64, Refusal> {
    heat_of(at, sheet, raw::gaskeys_specific_content)
}

/// A call that takes a charge, a temperature and a sheet.
type HeatCall = unsafe extern "C" fn(i64, i64, i64, i64, *const u32, usize) -> raw::HeatTold;

fn heat_of(at: State, sheet: &[u32], call: HeatCall) -> Result<i64, Refusal> {
    let State { charge: Charge { air, carbon, hydrogen }, temperature } = at;
    // SAFETY: a Rust slice with its length; it is only read.
    let told = unsafe { call(air, carbon, hydrogen, temperature.0, sheet.as_ptr(), sheet.len()) };
    Refusal::told(told.refusal, told.row, told.placed)?;
    Ok(told.heat)
}

/// The places that the looks of one search take.
pub const LOOKS: usize = 11;

/// The greatest temperature at which the gas of a charge holds no more than a heat, and the rest.
///
/// The whole kelvins that the search looked at go into the first [`LOOKS`] places of the list, 0
/// where unused; later places stay, and a refusal (1, 3, 10, 4, 5, 8 or 9) changes none.
///
/// ```
/// use gaskeys::{temperature, Charge, Heat, Millikelvin};
///
/// let sheet = vec![0; gaskeys::SHEET_PLACES];
/// let air = Charge { air: 1, carbon: 0, hydrogen: 0 };
/// let mut looks = [0; gaskeys::LOOKS];
/// let found = temperature(air, Heat(478_802_399_999), &sheet, &mut looks)?;
/// assert_eq!(found, (Millikelvin(200_500), Heat(2_399_999)));
/// assert_eq!(looks, [1100, 650, 425, 312, 256, 228, 214, 207, 203, 201, 0]);
/// # Ok::<(), gaskeys::Refusal>(())
/// ```
pub fn temperature(
    charge: Charge,
    target: Heat,
    sheet: &[u32],
    looks: &mut [u32],
) -> Result<(Millikelvin, Heat), Refusal> {
    // SAFETY: both are Rust slices, so they are live, aligned, not null and apart; their lengths go with them.
    let told = unsafe {
        raw::gaskeys_temperature(
            charge.air,
            charge.carbon,
            charge.hydrogen,
            target.0,
            sheet.as_ptr(),
            sheet.len(),
            looks.as_mut_ptr(),
            looks.len(),
        )
    };
    Refusal::told(told.refusal, told.row, told.placed)?;
    Ok((Millikelvin(told.millikelvin), Heat(told.rest)))
}

/// The greatest temperature at which psi of air is at most the target, in 0.0000001, and the rest.
///
/// Looks as in [`temperature`]. Refusals: 10, 8 or 9.
///
/// ```
/// let mut looks = [0; gaskeys::LOOKS];
/// let (t, rest) = gaskeys::psi_inverse(95_302_001, &mut looks)?;
/// assert_eq!((t, rest), (gaskeys::Millikelvin(200_500), 1));
/// # Ok::<(), gaskeys::Refusal>(())
/// ```
pub fn psi_inverse(target: i64, looks: &mut [u32]) -> Result<(Millikelvin, u64), Refusal> {
    // SAFETY: a Rust slice with its length.
    let told = unsafe { raw::gaskeys_psi_inverse(target, looks.as_mut_ptr(), looks.len()) };
    Refusal::told(told.refusal, told.row, told.placed)?;
    Ok((Millikelvin(told.millikelvin), told.rest))
}
