//! Two functions timed side by side.

use std::hint::black_box;
use std::time::Instant;

/// Nanoseconds of the two sides, and the ratio: medians over the rounds.
pub struct Times {
    pub proved: f64,
    pub plain: f64,
    pub ratio: f64,
}

impl Times {
    /// Of rounds that each timed the proved side and the plain one.
    pub fn of(rounds: &[(f64, f64)]) -> Times {
        Times {
            proved: median(rounds.iter().map(|round| round.0)),
            plain: median(rounds.iter().map(|round| round.1)),
            ratio: median(rounds.iter().map(|round| round.0 / round.1)),
        }
    }
}

const ROUNDS: usize = 401;
/// A round of one side takes about this long.
const ROUND: f64 = 2e5;

/// Each round times both, the order changing from round to round; its ratio is that of its own two times.
pub fn side_by_side(
    inputs: usize,
    proved: &mut dyn FnMut(usize) -> u64,
    plain: &mut dyn FnMut(usize) -> u64,
) -> Times {
    let calls = (ROUND / round(inputs, 0, inputs.max(64), plain)).ceil() as usize;
    let mut rounds = Vec::new();
    for i in 0..ROUNDS {
        let from = i * calls;
        rounds.push(if i % 2 == 0 {
            let first = round(inputs, from, calls, proved);
            (first, round(inputs, from, calls, plain))
        } else {
            let first = round(inputs, from, calls, plain);
            (round(inputs, from, calls, proved), first)
        });
    }
    Times::of(&rounds)
}

/// Nanoseconds a call over so many calls from a number on, the inputs in turn.
fn round(inputs: usize, from: usize, calls: usize, call: &mut dyn FnMut(usize) -> u64) -> f64 {
    let began = Instant::now();
    for i in from..from + calls {
        black_box(call(black_box(i % inputs)));
    }
    began.elapsed().as_nanos() as f64 / calls as f64
}

fn median(values: impl Iterator<Item = f64>) -> f64 {
    let mut values: Vec<f64> = values.collect();
    values.sort_by(f64::total_cmp);
    values[values.len() / 2]
}
