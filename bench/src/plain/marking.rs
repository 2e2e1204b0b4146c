//! Station figures and marks.

use super::gas::{specific_content, Charge};
use super::Refused;

/// 1, 3, 4, 5, 6; else mK, specific content and total mass.
pub fn station(charge: Charge, mk: i64, list: &[u32]) -> Result<[f64; 3], Refused> {
    let content = specific_content(charge, mk, list)?;
    Ok([mk as f64, content as f64, charge.total_mass() as f64])
}

#[derive(Clone, Copy)]
pub enum Typed {
    Kelvins(f64),
    Content(f64),
    Blank,
}

/// 12, 11; else whether the answer counts.
pub fn mark(typed: Typed, key: i64, window: i64) -> Result<bool, u32> {
    const FARTHEST: i64 = 1_000_000_000_000;
    if !(-FARTHEST..=FARTHEST).contains(&key) || !(0..=100_000).contains(&window) {
        return Err(12);
    }
    let (scale, x) = match typed {
        Typed::Kelvins(x) => (1_000, x),
        Typed::Content(x) => (100_000, x),
        Typed::Blank => return Err(11),
    };
    mark_number(scale, x, key, window)
}

fn mark_number(scale: u64, x: f64, key: i64, window: i64) -> Result<bool, u32> {
    let bits = x.to_bits();
    let (negative, exponent) = (bits >> 63 == 1, bits >> 52 & 0x7ff);
    let fraction = bits & ((1 << 52) - 1);
    if exponent == 2047 {
        return Err(11);
    }
    let middle = if negative { -key } else { key };
    Ok(lies(scale, exponent, fraction, middle - window, middle + window))
}

/// Whether scale times the size lies from lo to hi, by its floor and its ceiling: twelve places are shifted off the two parts
/// of the product, so that it fits 64 bits, and then the others. Both ends are always compared.
fn lies(scale: u64, exponent: u64, fraction: u64, lo: i64, hi: i64) -> bool {
    let digits = if exponent == 0 { fraction } else { fraction | 1 << 52 };
    let others = match exponent {
        0..1005 => 58,
        1005..1063 => 1063 - exponent,
        _ => 0,
    };
    let (high, low) = (scale * (digits >> 12), scale * (digits & 0xfff));
    let floor = (high + (low >> 12)) >> others;
    let ceiling = (high + ((low + 0xfff) >> 12) + ((1 << others) - 1)) >> others;
    (lo <= floor as i64) & (ceiling as i64 <= hi)
}
