//! A sheet list judged.

use super::columns::HEAT;
use super::Refused;

pub const PLACES: usize = 5403;

/// 1, or 3 with the first bad row.
pub fn judge(list: &[u32]) -> Result<(), Refused> {
    if list.len() != PLACES {
        return Err((1, 0));
    }
    match first_bad_row(list) {
        Some(row) => Err((3, row as u32)),
        None => Ok(()),
    }
}

fn first_bad_row(list: &[u32]) -> Option<usize> {
    if over_limit(list, 0) {
        return Some(0);
    }
    (1..1801).find(|row| over_limit(list, *row) || breaks_step(list, row - 1))
}

fn over_limit(list: &[u32], row: usize) -> bool {
    list[3 * row] > 200_000 || list[3 * row + 1] > 200_000 || list[3 * row + 2] > 200_000
}

fn breaks_step(list: &[u32], row: usize) -> bool {
    let gas = |row: usize, which: usize| list[3 * row + which] as u64;
    let (from, to) = (gas(row, 0), gas(row + 1, 0));
    to < from
        || gas(row + 1, 1) < gas(row, 1)
        || gas(row + 1, 2) < gas(row, 2)
        || to - from > 4 * (HEAT[row + 1] - HEAT[row]) as u64
}
