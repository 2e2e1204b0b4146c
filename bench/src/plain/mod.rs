//! The same calls in plain Rust, by the signatures of the library's: the same tests in the same order, the
//! same halving, the same lists, with the table as static arrays.

mod air;
pub mod ask;
mod gas;
mod marking;
mod pieces;
mod reader;
mod sheet;
mod walk;
mod writer;

use crate::calls::Calls;
use gas::Charge;
use gaskeys::raw::{
    HeatTold, MarkTold, PieceTold, PsiTold, SheetReading, SheetTold, StationTold, TemperatureTold,
    WalkTold, WrittenTold,
};
use std::slice::{from_raw_parts, from_raw_parts_mut};

mod columns {
    include!(concat!(env!("OUT_DIR"), "/columns.rs"));
}

/// A refusal's number, and the row of refusals 2 and 3.
type Refused = (u32, u32);

/// 1 where a number comes with a row, else 0.
fn placed(refusal: u32) -> u32 {
    matches!(refusal, 2 | 3) as u32
}

pub const PLAIN: Calls = Calls {
    read_sheet,
    open_reading,
    read_piece,
    close_reading,
    judge_sheet,
    write_sheet,
    specific_content,
    temperature,
    psi_inverse,
    walk: walk_told,
    station,
    mark,
};

fn sheet_told(answer: Result<(), Refused>) -> SheetTold {
    let (refusal, row) = answer.err().unwrap_or_default();
    SheetTold { refusal, row, placed: placed(refusal) }
}

unsafe extern "C" fn read_sheet(text: *const u8, n: usize, list: *mut u32, m: usize) -> SheetTold {
    sheet_told(reader::read(from_raw_parts(text, n), from_raw_parts_mut(list, m)))
}

unsafe extern "C" fn open_reading() -> SheetReading {
    pieces::open()
}

unsafe extern "C" fn read_piece(
    reading: SheetReading,
    piece: *const u8,
    n: usize,
    list: *mut u32,
    m: usize,
) -> PieceTold {
    pieces::read(reading, from_raw_parts(piece, n), from_raw_parts_mut(list, m))
}

unsafe extern "C" fn close_reading(reading: SheetReading, list: *const u32, n: usize) -> PieceTold {
    pieces::close(reading, from_raw_parts(list, n))
}

unsafe extern "C" fn judge_sheet(list: *const u32, n: usize) -> SheetTold {
    sheet_told(sheet::judge(from_raw_parts(list, n)))
}

unsafe extern "C" fn write_sheet(
    list: *const u32,
    n: usize,
    text: *mut u8,
    m: usize,
) -> WrittenTold {
    match writer::write(from_raw_parts(list, n), from_raw_parts_mut(text, m)) {
        Ok(bytes) => WrittenTold { refusal: 0, row: 0, placed: 0, bytes },
        Err((refusal, row)) => WrittenTold { refusal, row, placed: placed(refusal), bytes: 0 },
    }
}

unsafe extern "C" fn specific_content(
    air: i64,
    carbon: i64,
    hydrogen: i64,
    mk: i64,
    sheet: *const u32,
    n: usize,
) -> HeatTold {
    let charge = Charge { air, carbon, hydrogen };
    match gas::specific_content(charge, mk, from_raw_parts(sheet, n)) {
        Ok(heat) => HeatTold { refusal: 0, row: 0, placed: 0, heat },
        Err((refusal, row)) => HeatTold { refusal, row, placed: placed(refusal), heat: 0 },
    }
}

unsafe extern "C" fn temperature(
    air: i64,
    carbon: i64,
    hydrogen: i64,
    target: i64,
    sheet: *const u32,
    n: usize,
    looks: *mut u32,
    m: usize,
) -> TemperatureTold {
    let charge = Charge { air, carbon, hydrogen };
    let (sheet, looks) = (from_raw_parts(sheet, n), from_raw_parts_mut(looks, m));
    match gas::temperature(charge, target, sheet, looks) {
        Ok((millikelvin, rest)) => {
            TemperatureTold { refusal: 0, row: 0, placed: 0, millikelvin, rest }
        }
        Err((refusal, row)) => {
            TemperatureTold { refusal, row, placed: placed(refusal), millikelvin: 0, rest: 0 }
        }
    }
}

unsafe extern "C" fn psi_inverse(target: i64, looks: *mut u32, n: usize) -> PsiTold {
    match air::psi_inverse(target, from_raw_parts_mut(looks, n)) {
        Ok((millikelvin, rest)) => PsiTold { refusal: 0, row: 0, placed: 0, millikelvin, rest },
        Err(refusal) => PsiTold { refusal, row: 0, placed: 0, millikelvin: 0, rest: 0 },
    }
}

unsafe extern "C" fn walk_told(
    air: i64,
    carbon: i64,
    hydrogen: i64,
    millikelvin: i64,
    sheet: *const u32,
    n: usize,
    steps: *const i64,
    m: usize,
    temperatures: *mut i64,
    t: usize,
    rests: *mut i64,
    r: usize,
    looks: *mut u32,
    l: usize,
) -> WalkTold {
    let lent = walk::Lent {
        temperatures: from_raw_parts_mut(temperatures, t),
        rests: from_raw_parts_mut(rests, r),
        looks: from_raw_parts_mut(looks, l),
    };
    let (sheet, steps) = (from_raw_parts(sheet, n), from_raw_parts(steps, m));
    let charge = Charge { air, carbon, hydrogen };
    let (begun, (refusal, row), (steps, at, millikelvin)) =
        match walk::walk(charge, millikelvin, sheet, steps, lent) {
            Ok((steps, refusal, at, mk)) => (1, (refusal, 0), (steps, at, mk)),
            Err(refused) => (0, refused, (0, Charge { air: 0, carbon: 0, hydrogen: 0 }, 0)),
        };
    let Charge { air, carbon, hydrogen } = at;
    let placed = placed(refusal);
    WalkTold { refusal, row, placed, begun, steps, air, carbon, hydrogen, millikelvin }
}

unsafe extern "C" fn station(
    air: i64,
    carbon: i64,
    hydrogen: i64,
    mk: i64,
    sheet: *const u32,
    n: usize,
) -> StationTold {
    let charge = Charge { air, carbon, hydrogen };
    match marking::station(charge, mk, from_raw_parts(sheet, n)) {
        Ok([millikelvin, content, mass]) => {
            StationTold { refusal: 0, row: 0, placed: 0, millikelvin, content, mass }
        }
        Err((refusal, row)) => {
            let placed = placed(refusal);
            StationTold { refusal, row, placed, millikelvin: 0.0, content: 0.0, mass: 0.0 }
        }
    }
}

unsafe extern "C" fn mark(kind: u32, number: f64, key: i64, window: i64) -> MarkTold {
    let typed = match kind {
        0 => marking::Typed::Kelvins(number),
        1 => marking::Typed::Content(number),
        _ => marking::Typed::Blank,
    };
    match marking::mark(typed, key, window) {
        Ok(counts) => MarkTold { refusal: 0, row: 0, placed: 0, counts: counts as u32 },
        Err(refusal) => MarkTold { refusal, row: 0, placed: 0, counts: 0 },
    }
}
