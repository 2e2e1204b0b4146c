//! Typed answers at and beside every kind of edge.

use crate::answer::fields;
use crate::dice::Dice;
use crate::trials::ask::decimal_mark;
use crate::trials::EXTREMES;

const FARTHEST: i64 = 1_000_000_000_000;
const WIDEST: i64 = 100_000;

/// Over a million marks, run by run: those that are the same whatever the seed, and sixteen times floats drawn about the edges.
pub fn runs(dice: &mut Dice) -> Vec<Vec<String>> {
    let mut runs = vec![[chosen(), ranges(), powers()].concat()];
    runs.extend((0..16).map(|_| drawn(dice)));
    runs
}

fn drawn(dice: &mut Dice) -> Vec<String> {
    let decimals = (0..1000).map(|_| decimal_mark(dice)).collect();
    [decimals, edges(dice), random(dice)].concat()
}

fn mark(kind: &str, x: f64, key: i64, window: i64) -> String {
    fields(&format!("mark\t{kind}\t{}", hexadecimal(x)), &[key, window])
}

/// `x` and the 16 hexadecimal digits of a float's bits.
fn hexadecimal(x: f64) -> String {
    format!("x{:016x}", x.to_bits())
}

/// Marks of some floats from x up, each with some keys from one up.
fn grid(kind: &str, x: f64, floats: u64, key: i64, keys: i64, window: i64) -> Vec<String> {
    let mut requests = Vec::new();
    for up in 0..floats {
        let x = f64::from_bits(x.to_bits() + up);
        requests.extend((key..key + keys).map(|key| mark(kind, x, key, window)));
    }
    requests
}

/// Five floats about x and nine keys about a key: every one of them is an edge's neighbour.
fn about(kind: &str, x: f64, key: i64, window: i64) -> Vec<String> {
    let (sign, size) = (x.to_bits() >> 63 << 63, x.to_bits() << 1 >> 1);
    grid(kind, f64::from_bits(sign | size.saturating_sub(2)), 5, key - 4, 9, window)
}

/// Answers that a rounded product would mark wrongly, far ones, tiny ones, zeros.
fn chosen() -> Vec<String> {
    let mut requests = Vec::new();
    let kelvins = [(0.1, 100), (0.3, 300), (288.16, 288_160), (200.5, 200_500), (-0.1, -100)];
    let contents = [(0.00001, 1), (-21.11, -2_111_000), (0.03125, 3125), (395.8, 39_580_000)];
    let tiny = [5e-324, f64::MIN_POSITIVE, -5e-324, -f64::MIN_POSITIVE, 0.0, -0.0];
    let huge = [9_007_199_254_740_992.0, f64::MAX, -f64::MAX, 1e18, 1e22];
    for off in -2..=2 {
        for window in 0..=2 {
            requests.extend(kelvins.map(|(x, key)| mark("kelvins", x, key + off, window)));
            requests.extend(contents.map(|(x, key)| mark("content", x, key + off, window)));
            requests.extend(tiny.map(|x| mark("kelvins", x, off, window)));
            requests.extend(tiny.map(|x| mark("content", x, off, window)));
        }
    }
    for key in [-FARTHEST, 0, FARTHEST] {
        requests.extend(huge.map(|x| mark("kelvins", x, key, WIDEST)));
        requests.extend(huge.map(|x| mark("content", x, key, WIDEST)));
    }
    requests
}

/// Keys and windows at both sides of their ranges with every kind of answer.
fn ranges() -> Vec<String> {
    let beside = |limit: i64| [limit - 1, limit, limit + 1];
    let keys = [&beside(-FARTHEST)[..], &beside(FARTHEST), &EXTREMES].concat();
    let windows = [&beside(0)[..], &beside(WIDEST), &[i64::MIN, i64::MAX]].concat();
    let patterns = [
        0x7ff0_0000_0000_0000,
        0xfff0_0000_0000_0000,
        0x7ff8_0000_0000_0000,
        0xfff8_0000_0000_0000,
        0x7ff0_0000_0000_0001,
        0xffff_ffff_ffff_ffff,
        0x7fef_ffff_ffff_ffff,
        0x8000_0000_0000_0000,
    ];
    let mut requests = Vec::new();
    for (i, key) in keys.iter().enumerate() {
        for (j, window) in windows.iter().enumerate() {
            requests.push(fields("mark\tblank", &[*key, *window]));
            let kind = ["kelvins", "content"][(i + j) % 2];
            requests.push(mark(kind, f64::from_bits(patterns[(i + j) % 8]), *key, *window));
        }
    }
    requests
}

/// Floats about (key ± window) / scale, for keys and windows of every size.
fn edges(dice: &mut Dice) -> Vec<String> {
    let mut request = |_| {
        let (kind, scale) = dice.one_of(&[("kelvins", 1000.0), ("content", 100_000.0)]);
        let random = dice.from_to(-FARTHEST, FARTHEST) >> dice.below(41);
        let key = dice.one_of(&[random, random, random, random, -FARTHEST, FARTHEST, 0, 1, -1]);
        let random = dice.from_to(0, WIDEST) >> dice.below(17);
        let window = dice.one_of(&[random, random, random, 0, 1, 2, WIDEST]);
        let edge = dice.one_of(&[key - window, key + window]);
        about(kind, edge as f64 / scale, key, window)
    };
    (0..1100).flat_map(&mut request).collect()
}

/// Floats about powers of two, where floats lie closer below than above, with the whole key
/// nearest to it; the smallest float and the smallest normal one as well.
fn powers() -> Vec<String> {
    let biased = (1023 - 60..=1023 + 54).chain([1, 500, 1500, 2046]);
    let patterns = [1].into_iter().chain(biased.map(|exponent: u64| exponent << 52));
    let mut requests = Vec::new();
    for x in patterns.map(f64::from_bits) {
        for (kind, scale) in [("kelvins", 1000.0), ("content", 100_000.0)] {
            let key = (scale * x).min(1e12) as i64;
            requests.extend(about(kind, x, key, 0));
            requests.extend(about(kind, -x, -key, 1));
        }
    }
    requests
}

/// Random bit patterns: whole, and of the sizes that a key can meet.
fn random(dice: &mut Dice) -> Vec<String> {
    let mut request = |_| {
        let kind = dice.one_of(&["kelvins", "content"]);
        let anything = dice.bits() & !0xff;
        let exponent = dice.from_to(1023 - 40, 1023 + 31) as u64;
        let sized = (anything << 12 >> 12) | exponent << 52 | dice.below(2) << 63;
        let x = f64::from_bits(dice.one_of(&[anything, sized, sized]));
        let scale = if kind == "kelvins" { 1000.0 } else { 100_000.0 };
        let key = (scale * x).clamp(-1e12, 1e12) as i64;
        let window = dice.from_to(0, WIDEST) >> dice.below(17);
        let off = dice.one_of(&[0, window, -window, WIDEST]);
        let key = (key + off).clamp(-FARTHEST, FARTHEST - 4);
        grid(kind, x, 10, key, 5, window)
    };
    (0..300).flat_map(&mut request).collect()
}
