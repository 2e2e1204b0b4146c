//! How the text of a sheet is cut into pieces.

use crate::dice::Dice;

/// Random lengths of pieces, each of a byte and up to the most, that make up a whole.
pub fn lengths(dice: &mut Dice, whole: usize, most: usize) -> Vec<usize> {
    let (mut lengths, mut left) = (Vec::new(), whole);
    while left > 0 {
        let length = 1 + dice.below(most.min(left) as u64) as usize;
        lengths.push(length);
        left -= length;
    }
    lengths
}

/// The pieces of a text that have these lengths, and the rest, which may hold nothing.
pub fn cut<'a>(text: &'a [u8], lengths: &[usize]) -> Vec<&'a [u8]> {
    let (mut pieces, mut rest) = (Vec::new(), text);
    for length in lengths {
        let (piece, after) = rest.split_at(*length);
        pieces.push(piece);
        rest = after;
    }
    pieces.push(rest);
    pieces
}
