use crate::raw;
use crate::{Refusal, State};

/// A station's figures, whole numbers all three and below 2^53 in size, so that the difference of
/// two like figures is exact.
#[derive(Clone, Copy, Debug, PartialEq)]
pub struct Station {
    /// Temperature in mK.
    pub millikelvin: f64,
    /// Specific content above 15 °C, in 0.00001 C.H.U./lb, to the nearest whole number, a tie to the
    /// even one.
    pub content: f64,
    /// Total mass in mg.
    pub mass: f64,
}

/// The figures of a charge at a temperature. Refusals: 1, 3, 4, 5, 6.
///
/// ```
/// use gaskeys::{station, Charge, Millikelvin, State, Station};
///
/// let sheet = vec![0; gaskeys::SHEET_PLACES];
/// let charge = Charge { air: 1, carbon: 0, hydrogen: 0 };
/// let figures = station(State { charge, temperature: Millikelvin(300_000) }, &sheet)?;
/// assert_eq!(figures, Station { millikelvin: 300_000.0, content: 283_160.0, mass: 100_000.0 });
/// # Ok::<(), gaskeys::Refusal>(())
/// ```
pub fn station(at: State, sheet: &[u32]) -> Result<Station, Refusal> {
    let State { charge, temperature } = at;
    // SAFETY: a Rust slice with its length; it is only read.
    let told = unsafe {
        raw::gaskeys_station(
            charge.air,
            charge.carbon,
            charge.hydrogen,
            temperature.0,
            sheet.as_ptr(),
            sheet.len(),
        )
    };
    Refusal::told(told.refusal, told.row, told.placed)?;
    Ok(Station { millikelvin: told.millikelvin, content: told.content, mass: told.mass })
}

/// What a candidate typed in.
#[derive(Clone, Copy, Debug, PartialEq)]
pub enum Typed {
    /// A temperature in kelvins.
    Kelvins(f64),
    /// A specific content in C.H.U./lb.
    Content(f64),
    /// Nothing.
    Blank,
}

/// Whether a typed answer counts: exactly if |scale·x − key| ≤ window for the exact value of x,
/// with scale 1,000 for kelvins and 100,000 for a content.
///
/// Key −10^12 to 10^12, window 0 to 100,000. Refusals: 12, 11.
///
/// ```
/// use gaskeys::{mark, Typed};
///
/// assert!(mark(Typed::Kelvins(200.5), 200_501, 1)?);
/// assert!(!mark(Typed::Kelvins(200.5), 200_502, 1)?);
/// assert_eq!(mark(Typed::Blank, 200_500, 1).unwrap_err().number(), 11);
/// # Ok::<(), gaskeys::Refusal>(())
/// ```
pub fn mark(typed: Typed, key: i64, window: i64) -> Result<bool, Refusal> {
    let (kind, number) = match typed {
        Typed::Kelvins(x) => (0, x),
        Typed::Content(x) => (1, x),
        Typed::Blank => (2, 0.0),
    };
    // SAFETY: numbers alone are passed.
    let told = unsafe { raw::gaskeys_mark(kind, number, key, window) };
    Refusal::told(told.refusal, told.row, told.placed)?;
    Ok(told.counts == 1)
}
