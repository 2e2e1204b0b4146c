//! The writer of a sheet text: its bytes are counted, then it is written from its end, as the digits of a number come.

use super::sheet::judge;
use super::Refused;

/// The bytes of the text; 1, 3 with the first bad row, 14.
pub fn write(list: &[u32], text: &mut [u8]) -> Result<usize, Refused> {
    judge(list)?;
    let bytes = (0..1801).map(|row| row_bytes(list, row)).sum();
    if text.len() < bytes {
        return Err((14, 0));
    }
    let mut at = bytes;
    for row in (0..1801).rev() {
        at = put_row(text, at, list, row);
    }
    Ok(bytes)
}

fn gas(list: &[u32], row: usize, which: usize) -> u64 {
    list[3 * row + which] as u64
}

/// Three tabs, a line feed, and the digits of four numbers.
fn row_bytes(list: &[u32], row: usize) -> usize {
    let gases = digits(gas(list, row, 0)) + digits(gas(list, row, 1)) + digits(gas(list, row, 2));
    4 + digits(200 + row as u64) + gases
}

fn digits(n: u64) -> usize {
    let (tenth, mut unit, mut count) = (n / 10, 1, 1);
    while unit <= tenth {
        unit *= 10;
        count += 1;
    }
    count
}

/// A row before a place, and where it begins.
fn put_row(text: &mut [u8], at: usize, list: &[u32], row: usize) -> usize {
    let at = put_field(text, at, gas(list, row, 2), b'\n');
    let at = put_field(text, at, gas(list, row, 1), b'\t');
    let at = put_field(text, at, gas(list, row, 0), b'\t');
    put_field(text, at, 200 + row as u64, b'\t')
}

/// A number and the byte that ends it before a place, and where the number begins: its last digit comes first.
fn put_field(text: &mut [u8], at: usize, value: u64, end: u8) -> usize {
    let (mut at, mut left) = (at - 1, value);
    text[at] = end;
    while left >= 10 {
        at -= 1;
        text[at] = b'0' + (left % 10) as u8;
        left /= 10;
    }
    at -= 1;
    text[at] = b'0' + left as u8;
    at
}
