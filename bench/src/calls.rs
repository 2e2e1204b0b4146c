//! The calls of one side, and what a row of the table asks of them.

use gaskeys::raw::{
    self, HeatTold, MarkTold, PieceTold, PsiTold, SheetReading, SheetTold, StationTold,
    TemperatureTold, WalkTold, WrittenTold,
};
use gaskeys::SHEET_TEXT_MOST;
use second::gas::Charge;

/// The calls of include/gaskeys.h that are measured. Each field has the signature of the call of its name.
pub struct Calls {
    pub read_sheet: unsafe extern "C" fn(*const u8, usize, *mut u32, usize) -> SheetTold,
    pub open_reading: unsafe extern "C" fn() -> SheetReading,
    pub read_piece:
        unsafe extern "C" fn(SheetReading, *const u8, usize, *mut u32, usize) -> PieceTold,
    pub close_reading: unsafe extern "C" fn(SheetReading, *const u32, usize) -> PieceTold,
    pub judge_sheet: unsafe extern "C" fn(*const u32, usize) -> SheetTold,
    pub write_sheet: unsafe extern "C" fn(*const u32, usize, *mut u8, usize) -> WrittenTold,
    pub specific_content: unsafe extern "C" fn(i64, i64, i64, i64, *const u32, usize) -> HeatTold,
    pub temperature: unsafe extern "C" fn(
        i64,
        i64,
        i64,
        i64,
        *const u32,
        usize,
        *mut u32,
        usize,
    ) -> TemperatureTold,
    pub psi_inverse: unsafe extern "C" fn(i64, *mut u32, usize) -> PsiTold,
    pub walk: unsafe extern "C" fn(
        i64,
        i64,
        i64,
        i64,
        *const u32,
        usize,
        *const i64,
        usize,
        *mut i64,
        usize,
        *mut i64,
        usize,
        *mut u32,
        usize,
    ) -> WalkTold,
    pub station: unsafe extern "C" fn(i64, i64, i64, i64, *const u32, usize) -> StationTold,
    pub mark: unsafe extern "C" fn(u32, f64, i64, i64) -> MarkTold,
}

pub const PROVED: Calls = Calls {
    read_sheet: raw::gaskeys_read_sheet,
    open_reading: raw::gaskeys_open_reading,
    read_piece: raw::gaskeys_read_piece,
    close_reading: raw::gaskeys_close_reading,
    judge_sheet: raw::gaskeys_judge_sheet,
    write_sheet: raw::gaskeys_write_sheet,
    specific_content: raw::gaskeys_specific_content,
    temperature: raw::gaskeys_temperature,
    psi_inverse: raw::gaskeys_psi_inverse,
    walk: raw::gaskeys_walk,
    station: raw::gaskeys_station,
    mark: raw::gaskeys_mark,
};

/// The bytes of a piece of a sheet, as a packet of a network brings them.
const PIECE: usize = 1_460;

/// A charge, a temperature and steps.
pub type Walk = (Charge, i64, Vec<i64>);

/// The inputs of a row.
pub enum Inputs {
    Walks(Vec<Walk>),
    Heats(Vec<(Charge, i64)>),
    Specifics(Vec<(Charge, i64)>),
    Stations(Vec<(Charge, i64)>),
    Sheet,
    Text(Vec<u8>),
    Pieces(Vec<u8>),
    Written,
    Psis(Vec<i64>),
    Marks(Vec<(f64, i64)>),
}

impl Inputs {
    pub fn count(&self) -> usize {
        match self {
            Inputs::Walks(walks) => walks.len(),
            Inputs::Heats(inputs) | Inputs::Specifics(inputs) | Inputs::Stations(inputs) => {
                inputs.len()
            }
            Inputs::Sheet | Inputs::Text(_) | Inputs::Pieces(_) | Inputs::Written => 1,
            Inputs::Psis(targets) => targets.len(),
            Inputs::Marks(inputs) => inputs.len(),
        }
    }
}

/// The lists that are lent to a call, and the sheet.
pub struct Lists {
    pub sheet: Vec<u32>,
    pub read: Vec<u32>,
    pub written: Vec<u8>,
    pub temperatures: [i64; 64],
    pub rests: [i64; 64],
    pub looks: [u32; 704],
}

impl Lists {
    pub fn new(sheet: Vec<u32>) -> Lists {
        let (read, written) = (vec![0; sheet.len()], vec![0; SHEET_TEXT_MOST]);
        Lists { sheet, read, written, temperatures: [0; 64], rests: [0; 64], looks: [0; 704] }
    }
}

/// Numbers made one: what differs in any of them is seen.
fn mix(numbers: &[i64]) -> u64 {
    numbers.iter().fold(0, |sum, n| (sum ^ *n as u64).wrapping_mul(0x9e37_79b9_7f4a_7c15))
}

/// One call of a row: its answer and some places of the lists as one number.
#[inline(always)]
pub fn ask(calls: &Calls, inputs: &Inputs, i: usize, lists: &mut Lists) -> u64 {
    let (sheet, n) = (lists.sheet.as_ptr(), lists.sheet.len());
    let looks = lists.looks.as_mut_ptr();
    // SAFETY: each pointer goes with the length of its list, and no two lists overlap.
    unsafe {
        match inputs {
            Inputs::Walks(walks) => walk(calls, &walks[i], lists),
            Inputs::Heats(inputs) => {
                let (Charge { air, carbon, hydrogen }, target) = inputs[i];
                let told = (calls.temperature)(air, carbon, hydrogen, target, sheet, n, looks, 11);
                mix(&[told.refusal as i64, told.millikelvin, told.rest, lists.looks[9] as i64])
            }
            Inputs::Specifics(inputs) => {
                let (Charge { air, carbon, hydrogen }, mk) = inputs[i];
                let told = (calls.specific_content)(air, carbon, hydrogen, mk, sheet, n);
                mix(&[told.refusal as i64, told.heat])
            }
            Inputs::Stations(inputs) => {
                let (Charge { air, carbon, hydrogen }, mk) = inputs[i];
                let told = (calls.station)(air, carbon, hydrogen, mk, sheet, n);
                mix(&[told.millikelvin, told.content, told.mass].map(|x| x.to_bits() as i64))
            }
            Inputs::Sheet => (calls.judge_sheet)(sheet, n).refusal as u64,
            Inputs::Text(text) => {
                let told =
                    (calls.read_sheet)(text.as_ptr(), text.len(), lists.read.as_mut_ptr(), n);
                mix(&[told.refusal as i64, lists.read[0] as i64, lists.read[n - 1] as i64])
            }
            Inputs::Pieces(text) => pieces(calls, text, &mut lists.read),
            Inputs::Written => {
                let (text, most) = (lists.written.as_mut_ptr(), lists.written.len());
                let told = (calls.write_sheet)(sheet, n, text, most);
                // the first digit of a gas and the last
                let digits = [lists.written[4], lists.written[told.bytes - 2]].map(i64::from);
                mix(&[told.refusal as i64, told.bytes as i64, digits[0], digits[1]])
            }
            Inputs::Psis(targets) => {
                let told = (calls.psi_inverse)(targets[i], looks, 11);
                mix(&[told.millikelvin, told.rest as i64, lists.looks[9] as i64])
            }
            Inputs::Marks(inputs) => (calls.mark)(0, inputs[i].0, inputs[i].1, 100).counts as u64,
        }
    }
}

/// A whole reading: opened, read piece by piece, and closed.
fn pieces(calls: &Calls, text: &[u8], list: &mut [u32]) -> u64 {
    let n = list.len();
    // SAFETY: as in `ask`.
    let told = unsafe {
        let mut reading = (calls.open_reading)();
        for piece in text.chunks(PIECE) {
            let lent = list.as_mut_ptr();
            reading = (calls.read_piece)(reading, piece.as_ptr(), piece.len(), lent, n).reading;
        }
        (calls.close_reading)(reading, list.as_ptr(), n)
    };
    mix(&[told.refusal, told.more, told.reading.stage, list[0], list[n - 1]].map(i64::from))
}

fn walk(calls: &Calls, walk: &Walk, lists: &mut Lists) -> u64 {
    let (Charge { air, carbon, hydrogen }, mk, steps) = walk;
    // SAFETY: as in `ask`.
    let told = unsafe {
        (calls.walk)(
            *air,
            *carbon,
            *hydrogen,
            *mk,
            lists.sheet.as_ptr(),
            lists.sheet.len(),
            steps.as_ptr(),
            steps.len(),
            lists.temperatures.as_mut_ptr(),
            64,
            lists.rests.as_mut_ptr(),
            64,
            lists.looks.as_mut_ptr(),
            704,
        )
    };
    let last = steps.len() / 4 - 1;
    mix(&[
        told.refusal as i64,
        told.steps as i64,
        told.millikelvin,
        lists.temperatures[last],
        lists.rests[last],
        lists.looks[11 * last + 9] as i64,
    ])
}
