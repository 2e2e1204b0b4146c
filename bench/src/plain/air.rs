//! The psi inverse.

use super::columns::PSI;

pub const PLACES: usize = 11;

fn figure(kelvin: u64) -> u64 {
    PSI[(kelvin - 200) as usize] as u64
}

/// The greatest temperature whose psi is at most the target, and the rest: 10, 8 or 9.
pub fn psi_inverse(target: i64, looks: &mut [u32]) -> Result<(i64, u64), u32> {
    if looks.len() < PLACES {
        return Err(10);
    }
    if target < (1000 * figure(200)) as i64 {
        return Err(8);
    }
    if target > (1000 * figure(2000)) as i64 {
        return Err(9);
    }
    let target = target as u64;
    looks[..PLACES].fill(0);
    if target == 1000 * figure(2000) {
        return Ok((2_000_000, 0));
    }
    let row = halve(target, looks);
    let (under, over) = (figure(row), figure(row + 1));
    let (slope, more) = (over - under, target - 1000 * under);
    Ok(((1000 * row + more / slope) as i64, more % slope))
}

fn halve(target: u64, looks: &mut [u32]) -> u64 {
    let (mut low, mut high, mut at) = (200, 2000, 0);
    while high > low + 1 {
        let middle = (low + high) / 2;
        looks[at] = middle as u32;
        at += 1;
        if 1000 * figure(middle) <= target {
            low = middle;
        } else {
            high = middle;
        }
    }
    low
}
