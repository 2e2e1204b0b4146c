//! Document 01, "Figures for the pages and typed answers".

use std::cmp::Ordering;

use crate::gas::{self, Charge};
use crate::refusal::{refuse_if, Refusal};

/// A station figure.
#[derive(Clone, Copy, Debug, PartialEq)]
pub struct Station {
    pub mk: f64,
    pub specific_content: f64,
    pub total_mass: f64,
}

/// The station figure of a charge at a temperature: 1, 3, 4, 5, 6.
pub fn station(charge: &Charge, mk: i64, list: &[u32]) -> Result<Station, Refusal> {
    let specific_content = gas::specific_content(charge, mk, list)?;
    Ok(Station {
        mk: exactly(mk as i128),
        specific_content: exactly(specific_content),
        total_mass: exactly(charge.total_mass()),
    })
}

/// A whole number below 2^53 in size as binary64, with no loss.
fn exactly(whole: i128) -> f64 {
    assert!(whole.abs() < 1 << 53);
    whole as f64
}

/// The difference of two like figures: one float subtraction.
pub fn difference(one: f64, other: f64) -> f64 {
    one - other
}

/// A typed answer.
#[derive(Clone, Copy, Debug, PartialEq)]
pub enum Typed {
    Kelvins(f64),
    Content(f64),
    Blank,
}

/// Whether a typed answer counts against a key within a window: 12, 11.
pub fn mark(typed: Typed, key: i64, window: i64) -> Result<bool, Refusal> {
    const FARTHEST: i64 = 1_000_000_000_000;
    refuse_if(!(-FARTHEST..=FARTHEST).contains(&key) || !(0..=100_000).contains(&window), 12)?;
    let (scale, x) = match typed {
        Typed::Kelvins(x) => (1000, x),
        Typed::Content(x) => (100_000, x),
        Typed::Blank => return Err(Refusal::plain(11)),
    };
    refuse_if(!x.is_finite(), 11)?;
    let at_least = scaled_cmp(scale, x, key - window) != Ordering::Less;
    let at_most = scaled_cmp(scale, x, key + window) != Ordering::Greater;
    Ok(at_least && at_most)
}

/// How scale·x, for the exact value of a finite x, stands to a whole number.
fn scaled_cmp(scale: u128, x: f64, whole: i64) -> Ordering {
    let (negative, significand, exponent) = fields(x);
    let size = scale * significand as u128;
    let sign = |negative: bool, size: u128| match (size, negative) {
        (0, _) => 0,
        (_, true) => -1,
        (_, false) => 1,
    };
    let whole_size = whole.unsigned_abs() as u128;
    let (left, right) = (sign(negative, size), sign(whole < 0, whole_size));
    match left.cmp(&right) {
        Ordering::Equal if left > 0 => shifted_cmp(size, exponent, whole_size),
        Ordering::Equal if left < 0 => shifted_cmp(size, exponent, whole_size).reverse(),
        signs => signs,
    }
}

/// The exact value of a finite x is significand·2^exponent, minus if the first is set.
fn fields(x: f64) -> (bool, u64, i32) {
    let bits = x.to_bits();
    let biased = (bits >> 52 & 0x7ff) as i32;
    let fraction = bits & ((1 << 52) - 1);
    let (significand, exponent) = match biased {
        0 => (fraction, -1074),
        _ => (fraction | 1 << 52, biased - 1075),
    };
    (bits >> 63 == 1, significand, exponent)
}

/// How a·2^exponent stands to b, both positive and below 2^127: the longer in binary is the
/// larger; if they are equally long, no bit is lost in writing both without an exponent.
fn shifted_cmp(a: u128, exponent: i32, b: u128) -> Ordering {
    let length = |n: u128| 128 - n.leading_zeros() as i32;
    (length(a) + exponent).cmp(&length(b)).then_with(|| match exponent {
        0.. => (a << exponent).cmp(&b),
        _ => a.cmp(&(b << -exponent)),
    })
}
