//! The reader of a sheet text: the same machine, byte by byte, into a list of its own that is copied when the text is good.

use super::sheet::PLACES;
use super::Refused;

/// Where the reader stands: the row, the field in it, the number so far and whether it has a digit, and the row's first two numbers.
#[derive(Default)]
pub struct Place {
    pub row: u32,
    pub field: u8,
    pub value: u32,
    pub seen: bool,
    pub first: u32,
    pub second: u32,
}

/// 1, 2 with the first bad row.
pub fn read(text: &[u8], list: &mut [u32]) -> Result<(), Refused> {
    if list.len() != PLACES {
        return Err((1, 0));
    }
    let mut numbers = [0; PLACES];
    let mut place = Place::default();
    for byte in text {
        place.store(*byte, &mut numbers);
        if !place.step(*byte) {
            return Err((2, place.row));
        }
    }
    if place.row != 1801 {
        return Err((2, place.row));
    }
    list.copy_from_slice(&numbers);
    Ok(())
}

impl Place {
    /// Moves on by a byte; false where no good sheet can follow after it.
    pub fn step(&mut self, byte: u8) -> bool {
        if self.row >= 1801 {
            return false;
        }
        match byte {
            b'0'..=b'9' => self.step_digit((byte - b'0') as u32),
            _ => self.step_end(byte),
        }
    }

    fn step_digit(&mut self, digit: u32) -> bool {
        if !self.takes_digit(digit) {
            return false;
        }
        self.value = 10 * self.value + digit;
        self.seen = true;
        true
    }

    fn takes_digit(&self, digit: u32) -> bool {
        let (value, digit) = (self.value as u64, digit as u64);
        if self.field == 0 {
            return begins(200 + self.row as u64, 10 * value + digit);
        }
        may_follow(200_000, self.seen, value, digit)
    }

    fn step_end(&mut self, byte: u8) -> bool {
        let closer = if self.field < 3 { b'\t' } else { b'\n' };
        let whole = if self.field == 0 { self.value == 200 + self.row } else { self.seen };
        if byte != closer || !whole {
            return false;
        }
        match self.field {
            1 => self.first = self.value,
            2 => self.second = self.value,
            _ => {}
        }
        (self.value, self.seen) = (0, false);
        if self.field < 3 {
            self.field += 1;
        } else {
            (self.row, self.field) = (self.row + 1, 0);
            (self.first, self.second) = (0, 0);
        }
        true
    }

    /// Writes the row's three numbers where the byte ends it.
    pub fn store(&self, byte: u8, list: &mut [u32]) {
        if self.row < 1801 && byte == b'\n' && self.field == 3 && self.seen {
            let at = 3 * self.row as usize;
            list[at] = self.first;
            list[at + 1] = self.second;
            list[at + 2] = self.value;
        }
    }
}

/// Whether the digits of v begin those of the kelvin k.
fn begins(k: u64, v: u64) -> bool {
    v != 0 && (v == k || v == k / 10 || v == k / 100 || v == k / 1000)
}

/// Whether a digit may follow the number so far, under any limit with nothing that could wrap.
fn may_follow(limit: u64, seen: bool, value: u64, digit: u64) -> bool {
    if value > limit / 10 {
        return false;
    }
    if value == 0 {
        !seen && digit <= limit
    } else {
        digit <= limit - 10 * value
    }
}
