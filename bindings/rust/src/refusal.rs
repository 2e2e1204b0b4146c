use std::error::Error;
use std::fmt;

/// The refusals of documents 01 and 02 by name; `as u32` gives the number.
#[derive(Clone, Copy, Debug, PartialEq, Eq, PartialOrd, Ord, Hash)]
pub enum Reason {
    /// The sheet list is not 5,403 long.
    SheetLength = 1,
    /// The sheet text breaks its form; it comes with the first bad row, 1,801 for bytes past the end.
    SheetText = 2,
    /// A value over 200,000 in the sheet list, or the step rule is broken; with the first bad row.
    SheetRow = 3,
    /// Air, carbon or hydrogen outside its limit, or atoms added negative.
    Charge = 4,
    /// Not lean.
    NotLean = 5,
    /// Temperature outside its range.
    Temperature = 6,
    /// Calorific value or plain heat outside its range.
    StepHeat = 7,
    /// Target below the value at 200 K.
    Below = 8,
    /// Target above the value at 2,000 K.
    Above = 9,
    /// A lent list is too short.
    ShortList = 10,
    /// The answer is blank, infinite or not a number.
    NoNumber = 11,
    /// Window or key outside its range.
    Window = 12,
    /// The list of steps is no multiple of four long, or over 256.
    StepsLength = 13,
    /// The buffer is shorter than the text.
    ShortBuffer = 14,
}

/// Each with its words, in the order of the numbers.
const REASONS: [(Reason, &str); 14] = [
    (Reason::SheetLength, "the sheet list is not 5,403 long"),
    (Reason::SheetText, "the sheet text breaks its form"),
    (Reason::SheetRow, "a value over 200,000 in the sheet list, or the step rule is broken"),
    (Reason::Charge, "air, carbon or hydrogen outside its limit, or atoms added negative"),
    (Reason::NotLean, "not lean"),
    (Reason::Temperature, "temperature outside its range"),
    (Reason::StepHeat, "calorific value or plain heat outside its range"),
    (Reason::Below, "target below the value at 200 K"),
    (Reason::Above, "target above the value at 2,000 K"),
    (Reason::ShortList, "a lent list is too short"),
    (Reason::NoNumber, "the answer is blank, infinite or not a number"),
    (Reason::Window, "window or key outside its range"),
    (Reason::StepsLength, "the list of steps is no multiple of four long, or over 256"),
    (Reason::ShortBuffer, "the buffer is shorter than the text"),
];

/// Why a call gave no answer: a reason and, for the two of a sheet's rows, the first bad row.
///
/// ```
/// use gaskeys::Reason;
///
/// let refusal = gaskeys::judge_sheet(&[0; 5402]).unwrap_err();
/// assert_eq!((refusal.reason(), refusal.number(), refusal.row()), (Reason::SheetLength, 1, None));
/// assert_eq!(refusal.to_string(), "refusal 1: the sheet list is not 5,403 long");
/// ```
#[derive(Clone, Copy, Debug, PartialEq, Eq, Hash)]
pub struct Refusal {
    reason: Reason,
    row: Option<u32>,
}

impl Refusal {
    pub fn reason(self) -> Reason {
        self.reason
    }

    /// The number in documents 01 and 02, 1 to 14.
    pub fn number(self) -> u32 {
        self.reason as u32
    }

    /// The first bad row of refusals 2 and 3.
    pub fn row(self) -> Option<u32> {
        self.row
    }

    /// What the library told: none where the number is 0.
    pub(crate) fn told(number: u32, row: u32, placed: u32) -> Result<(), Refusal> {
        let Some(at) = number.checked_sub(1) else { return Ok(()) };
        let (reason, _) = REASONS[at as usize];
        Err(Refusal { reason, row: (placed == 1).then_some(row) })
    }
}

impl fmt::Display for Refusal {
    fn fmt(&self, f: &mut fmt::Formatter) -> fmt::Result {
        let (_, words) = REASONS[self.reason as usize - 1];
        write!(f, "refusal {}: {words}", self.number())?;
        match self.row {
            Some(row) => write!(f, ", row {row}"),
            None => Ok(()),
        }
    }
}

impl Error for Refusal {}
