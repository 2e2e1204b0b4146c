//! Lines that are no request, or hardly one, and typed numbers at both sides of what is one; questions of which a line is spoilt.

use crate::answer::LONGEST;
use crate::dice::Dice;
use crate::trials::ask::{self, decimal_mark};

/// Bytes that a line may be spoilt, or not spoilt, with.
const BYTES: &[u8] = b"0189\t\t-+. ,xeA\r\0\x7f";

/// Typed numbers: 15 and 16 significant digits, 22 and 23 decimals, points, signs, zeros, patterns.
const TYPED: [&str; 30] = [
    "123456789012345",
    "1234567890123456",
    "0.123456789012345",
    "0.1234567890123456",
    "000000000000000000000000000001",
    "0.0000000000000000000001",
    "0.00000000000000000000001",
    "0.0000000000000000000000",
    "0.00000000000000000000000",
    "-0",
    "-0.0",
    "--1",
    "-",
    "+1",
    "",
    " 1",
    "1 ",
    ".5",
    "5.",
    ".",
    "1.2.3",
    "1,5",
    "1e3",
    "inf",
    "NaN",
    "x400000000000000",
    "x4000000000000000",
    "x40000000000000000",
    "xABCDEFabcdef0123",
    "X4000000000000000",
];

pub fn requests(dice: &mut Dice) -> Vec<String> {
    let good = ask::requests();
    let typed = TYPED.iter().flat_map(|typed| {
        ["kelvins", "content"].map(|kind| format!("mark\t{kind}\t{typed}\t500\t100000"))
    });
    let mut requests: Vec<String> = typed.chain(long_lines()).collect();
    for _ in 0..4000 {
        let line = dice.one_of(&good);
        requests.push(spoilt(dice, &line));
        let line = decimal_mark(dice);
        requests.push(spoilt(dice, &line));
    }
    requests
}

/// A question with one line spoilt, or with none, an empty one or an unended one.
pub fn question(dice: &mut Dice, good: &str) -> String {
    let mut lines: Vec<String> = good.lines().map(str::to_string).collect();
    let line = dice.below(lines.len() as u64) as usize;
    match dice.below(10) {
        0 => return dice.one_of(&["", "\n", "\r\n", "1\t0\t0\t200000"]).to_string(),
        1 => lines[line] = String::new(),
        2 => lines[line] = "0".repeat(LONGEST + 1),
        _ => lines[line] = spoilt(dice, &lines[line]),
    }
    lines.join("\n") + dice.one_of(&["", "\n"])
}

/// The longest line and a longer one: a walk of many numbers, and a word.
fn long_lines() -> [String; 4] {
    let head = "walk\t1\t0\t0\t30000";
    let most = (LONGEST - head.len()) / 2;
    let walk = |numbers: usize| head.to_string() + &"\t0".repeat(numbers);
    [walk(most), walk(most + 1), "w".repeat(LONGEST), "w".repeat(LONGEST + 1)]
}

/// A line with one or two bytes changed, put in or left out, a field doubled, or its end cut off.
fn spoilt(dice: &mut Dice, line: &str) -> String {
    let mut bytes = line.as_bytes().to_vec();
    for _ in 0..=dice.below(2) {
        let place = dice.below(bytes.len() as u64 + 1) as usize;
        let byte = dice.one_of(BYTES);
        match dice.below(6) {
            0 => bytes.truncate(place),
            1 | 2 => bytes.insert(place, byte),
            3 if place < bytes.len() => drop(bytes.remove(place)),
            4 if place < bytes.len() => bytes[place] = byte,
            _ => bytes.extend_from_slice(b"\t0"),
        }
    }
    String::from_utf8(bytes).expect("the bytes are ASCII")
}
