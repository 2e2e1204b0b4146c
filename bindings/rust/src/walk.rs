use crate::raw;
use crate::{Charge, Millikelvin, Refusal};

/// A step of a walk: carbon and hydrogen added, the fuel's calorific value in hundredths of
/// C.H.U./lb (0 to 5,000,000), and plain heat in mg times 0.00001 C.H.U./lb (−10^18 to 10^18).
///
/// It adds the mass of its fuel in mg times 1000 times the calorific value, plus the plain heat, to
/// the content above 15 °C that the charge had at its rounded temperature. The fuel enters at 15 °C
/// and so brings no content of its own. The new temperature is the greatest at which the new charge
/// has no more content than the sum; the rest is reported and not carried on to the next step.
#[derive(Clone, Copy, Debug, PartialEq, Eq, Hash)]
pub struct Step {
    pub carbon: i64,
    pub hydrogen: i64,
    pub value: i64,
    pub heat: i64,
}

impl Step {
    /// The four numbers of the step in a list of steps.
    pub fn numbers(self) -> [i64; 4] {
        [self.carbon, self.hydrogen, self.value, self.heat]
    }
}

/// The lists that a walk of n steps writes: n places or more for temperatures and rests, 11 n
/// for looks.
pub struct Lent<'a> {
    pub temperatures: &'a mut [i64],
    pub rests: &'a mut [i64],
    pub looks: &'a mut [u32],
}

/// A charge at a temperature.
#[derive(Clone, Copy, Debug, PartialEq, Eq, Hash)]
pub struct State {
    pub charge: Charge,
    pub temperature: Millikelvin,
}

/// What a walk came to. A first step that is refused and a refused start are two outcomes.
#[derive(Clone, Copy, Debug, PartialEq, Eq, Hash)]
pub enum Walked {
    /// All steps are done: their number, and the last charge and temperature.
    Done(u32, State),
    /// A step was refused: the steps done before it, its refusal, and the charge and temperature
    /// before it.
    Stopped(u32, Refusal, State),
    /// The start was refused: 1, 3, 13, 10, 4, 5 or 6.
    Refused(Refusal),
}

/// Walks from a start over the steps, four numbers each ([`Step::numbers`]).
///
/// Step i that was done has its temperature and rest in place i and its looks in the eleven places
/// from 11 i on, 0 where unused. All other places stay as they were.
///
/// ```
/// use gaskeys::{walk, Charge, Lent, Millikelvin, State, Step, Walked};
///
/// let sheet = vec![0; gaskeys::SHEET_PLACES];
/// let charge = Charge { air: 1, carbon: 0, hydrogen: 0 };
/// let start = State { charge, temperature: Millikelvin(200_000) };
/// let heat = |heat: i64| Step { carbon: 0, hydrogen: 0, value: 0, heat }.numbers();
/// let steps = [heat(1_200_000_001), heat(2_400_000)].concat();
/// let (mut temperatures, mut rests, mut looks) = ([0; 2], [0; 2], [0; 22]);
/// let lent = Lent { temperatures: &mut temperatures, rests: &mut rests, looks: &mut looks };
/// let end = State { charge, temperature: Millikelvin(200_501) };
/// assert_eq!(walk(start, &sheet, &steps, lent), Walked::Done(2, end));
/// assert_eq!((temperatures, rests), ([200_500, 200_501], [1, 0]));
/// ```
pub fn walk(start: State, sheet: &[u32], steps: &[i64], lent: Lent) -> Walked {
    let State { charge, temperature } = start;
    // SAFETY: all five are Rust slices, so they are live, aligned and not null, the three that are
    // written overlap no other, and their lengths go with them.
    let told = unsafe {
        raw::gaskeys_walk(
            charge.air,
            charge.carbon,
            charge.hydrogen,
            temperature.0,
            sheet.as_ptr(),
            sheet.len(),
            steps.as_ptr(),
            steps.len(),
            lent.temperatures.as_mut_ptr(),
            lent.temperatures.len(),
            lent.rests.as_mut_ptr(),
            lent.rests.len(),
            lent.looks.as_mut_ptr(),
            lent.looks.len(),
        )
    };
    walked(&told)
}

/// The three outcomes apart.
fn walked(told: &raw::WalkTold) -> Walked {
    let charge = Charge { air: told.air, carbon: told.carbon, hydrogen: told.hydrogen };
    let state = State { charge, temperature: Millikelvin(told.millikelvin) };
    match (told.begun, Refusal::told(told.refusal, told.row, told.placed)) {
        (0, Err(refusal)) => Walked::Refused(refusal),
        (_, Err(refusal)) => Walked::Stopped(told.steps, refusal, state),
        (_, Ok(())) => Walked::Done(told.steps, state),
    }
}
