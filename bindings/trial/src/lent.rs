//! Lent lists.

use second::dice::Dice;

/// Places before and after the part that is lent.
const MARGIN: usize = 16;

/// A list whose middle part is lent: what a call writes beside its part is seen too. No call writes
/// what the places hold before.
#[derive(Clone, Debug, PartialEq, Eq)]
pub struct Lent<T>(Vec<T>);

impl<T: From<u32>> Lent<T> {
    pub fn of(length: usize) -> Lent<T> {
        Lent((0..(length + 2 * MARGIN) as u32).map(|i| T::from(7_000_000 + i)).collect())
    }
}

impl Lent<u8> {
    /// A buffer, of bytes that no text of a sheet has.
    pub fn buffer(length: usize) -> Lent<u8> {
        Lent((0..length + 2 * MARGIN).map(|i| 0x80 | i as u8).collect())
    }
}

impl<T> Lent<T> {
    pub fn part(&mut self) -> &mut [T] {
        let end = self.0.len() - MARGIN;
        &mut self.0[MARGIN..end]
    }
}

/// A length for a call that needs so many places: mostly enough, now and then too short.
pub fn length(dice: &mut Dice, needed: usize) -> usize {
    match dice.below(10) {
        0 => needed.saturating_sub(1),
        1 => dice.below(needed as u64 + 1) as usize,
        2..=5 => needed,
        6 | 7 => needed + dice.below(5) as usize,
        _ => needed + dice.below(200) as usize,
    }
}
