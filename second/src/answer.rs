//! The answer lines of `keys ask`: one request line in, one answer line out, fields parted by tabs.

use std::fmt::Display;

use crate::air;
use crate::gas::{self, Charge};
use crate::inverse::{Found, PLACES};
use crate::marking::{self, Typed};
use crate::refusal::Refusal;
use crate::walk::{self, Lent, Outcome, State};

/// The sheet behind the requests: a list, or the refusal that its text was given.
pub type Sheet<'a> = Result<&'a [u32], Refusal>;

/// The words of the requests that take numbers alone.
const WORDS: [&str; 11] = [
    "air-heat",
    "air-psi",
    "air-cp",
    "air-temperature",
    "burn",
    "gas-heat",
    "content",
    "specific-content",
    "temperature",
    "station",
    "walk",
];

/// The longest line that is read, in bytes.
pub const LONGEST: usize = 65_536;

/// The answer to a request line; neither has a line feed.
pub fn answer(line: &str, sheet: Sheet) -> String {
    if line.len() > LONGEST {
        return error("the line is too long");
    }
    if line.contains('\r') {
        return error("the line has a carriage return");
    }
    let fields: Vec<&str> = line.split('\t').collect();
    let reply = match fields[0] {
        "mark" => mark_answer(&fields[1..]),
        word if WORDS.contains(&word) => {
            numbers(&fields[1..]).and_then(|numbers| number_answer(word, &numbers, sheet))
        }
        _ => return error("no such request"),
    };
    reply.unwrap_or_else(|| error("the request takes other fields"))
}

/// The answer to a request that takes numbers alone, if it takes these.
fn number_answer(word: &str, numbers: &[i64], sheet: Sheet) -> Option<String> {
    let one = |number: i128| vec![number];
    let reply = match (word, numbers) {
        ("air-heat", [mk]) => say(air::heat(*mk).map(|heat| vec![heat.into()])),
        ("air-psi", [mk]) => say(air::psi(*mk).map(|psi| vec![psi.into()])),
        ("air-cp", [kelvin]) => say(air::cp(*kelvin).map(|cp| vec![cp.into()])),
        ("air-temperature", [psi]) => say(air::temperature(*psi, &mut [0; PLACES]).map(found)),
        ("burn", [a, c, h]) => say(gas::burn(&charge(a, c, h)).map(products)),
        ("gas-heat", [a, c, h, mk]) => {
            say(sheet.and_then(|list| gas::gas_heat(&charge(a, c, h), *mk, list)).map(one))
        }
        ("content", [a, c, h, mk]) => {
            say(sheet.and_then(|list| gas::content(&charge(a, c, h), *mk, list)).map(one))
        }
        ("specific-content", [a, c, h, mk]) => {
            say(sheet.and_then(|list| gas::specific_content(&charge(a, c, h), *mk, list)).map(one))
        }
        ("temperature", [a, c, h, target]) => {
            let mut looks = [0; PLACES];
            let ask = |list| gas::temperature(&charge(a, c, h), *target, list, &mut looks);
            say(sheet.and_then(ask).map(found))
        }
        ("station", [a, c, h, mk]) => {
            say(sheet.and_then(|list| marking::station(&charge(a, c, h), *mk, list)).map(station))
        }
        ("walk", [a, c, h, mk, steps @ ..]) => {
            let start = State { charge: charge(a, c, h), mk: *mk };
            match sheet {
                Ok(list) => walk_answer(start, list, steps),
                Err(refusal) => say_refused(&refusal),
            }
        }
        _ => return None,
    };
    Some(reply)
}

/// `ok` and the numbers, or the refusal.
fn say(answer: Result<Vec<i128>, Refusal>) -> String {
    match answer {
        Ok(numbers) => fields("ok", &numbers),
        Err(refusal) => say_refused(&refusal),
    }
}

/// `refused`, the number and, for 2 and 3, the row.
pub fn say_refused(refusal: &Refusal) -> String {
    let row = refusal.row.map(i128::from);
    let numbers: Vec<i128> = [refusal.number.into()].into_iter().chain(row).collect();
    fields("refused", &numbers)
}

/// A word and numbers, parted by tabs.
pub fn fields<T: Display>(word: &str, numbers: &[T]) -> String {
    numbers.iter().fold(word.to_string(), |line, number| format!("{line}\t{number}"))
}

/// Signed 64-bit numbers, each written as such a number is written.
pub fn numbers(fields: &[&str]) -> Option<Vec<i64>> {
    let number = |field: &&str| field.parse().ok().filter(|n: &i64| n.to_string() == **field);
    fields.iter().map(number).collect()
}

fn charge(a: &i64, c: &i64, h: &i64) -> Charge {
    Charge { air: *a, carbon: *c, hydrogen: *h }
}

/// An inverse: mK, rest, number of looks, the looks.
fn found(found: Found) -> Vec<i128> {
    let head = [found.mk.into(), found.rest, found.looks.len() as i128];
    head.into_iter().chain(found.looks.iter().map(|look| i128::from(*look))).collect()
}

fn products(of: gas::Products) -> Vec<i128> {
    vec![of.co2, of.h2o, of.o2, of.n2, of.ar]
}

fn station(of: marking::Station) -> Vec<i128> {
    [of.mk, of.specific_content, of.total_mass].map(|figure| figure as i128).to_vec()
}

/// A walk into lists that are long enough: its outcome, then mK, rest, number of looks and the
/// looks of each step done.
fn walk_answer(start: State, list: &[u32], steps: &[i64]) -> String {
    let n = steps.len() / 4;
    let (mut temperatures, mut rests, mut looks) = (vec![0; n], vec![0; n], vec![0; PLACES * n]);
    let lent = Lent { temperatures: &mut temperatures, rests: &mut rests, looks: &mut looks };
    let outcome = walk::walk(start, list, steps, lent);
    let done = match outcome {
        Outcome::Done(done, _) | Outcome::Stopped(done, _, _) => done,
        Outcome::Refused(_) => 0,
    };
    (0..done).fold(say_outcome(&outcome), |line, i| {
        let looks = walk::step_looks(&looks, i);
        line + &fields("", &found(Found { mk: temperatures[i], rest: rests[i].into(), looks }))
    })
}

/// Done: number of steps, A, c, h, mK. Stopped: steps done, number, A, c, h, mK.
fn say_outcome(outcome: &Outcome) -> String {
    let state = |of: &State| {
        let Charge { air, carbon, hydrogen } = of.charge;
        [air, carbon, hydrogen, of.mk].map(i128::from)
    };
    match outcome {
        Outcome::Done(n, last) => fields("ok", &[&[*n as i128], &state(last)[..]].concat()),
        Outcome::Stopped(n, number, before) => {
            let head = [*n as i128, i128::from(*number)];
            fields("stopped", &[&head, &state(before)[..]].concat())
        }
        Outcome::Refused(refusal) => say_refused(refusal),
    }
}

/// The answer to a mark, if it has a kind, a typed answer unless it is blank, a key and a window.
fn mark_answer(fields: &[&str]) -> Option<String> {
    let (typed, rest) = match fields {
        ["kelvins", x, rest @ ..] => (float(x).map(Typed::Kelvins), rest),
        ["content", x, rest @ ..] => (float(x).map(Typed::Content), rest),
        ["blank", rest @ ..] => (Some(Typed::Blank), rest),
        _ => return None,
    };
    let Some(typed) = typed else {
        return Some(error("not a number"));
    };
    let [key, window] = numbers(rest)?[..] else { return None };
    Some(match marking::mark(typed, key, window) {
        Ok(true) => "counts".to_string(),
        Ok(false) => "misses".to_string(),
        Err(refusal) => say_refused(&refusal),
    })
}

/// A typed number: `x` and the 16 hexadecimal digits of its bits, or a decimal number.
fn float(text: &str) -> Option<f64> {
    match text.strip_prefix('x') {
        Some(bits) => {
            let whole = bits.len() == 16 && bits.bytes().all(|b| b.is_ascii_hexdigit());
            u64::from_str_radix(bits, 16).ok().filter(|_| whole).map(f64::from_bits)
        }
        None => decimal(text),
    }
}

/// Digits with an optional minus and point, at most 15 of them significant, at most 22 decimals;
/// so one division of two whole numbers that are floats would give the same.
fn decimal(text: &str) -> Option<f64> {
    let size = text.strip_prefix('-').unwrap_or(text);
    let parts: Vec<&str> = size.splitn(2, '.').collect();
    let digits = parts.concat();
    let formed = parts.iter().all(|p| !p.is_empty()) && digits.bytes().all(|b| b.is_ascii_digit());
    let decimals = parts.get(1).map_or(0, |part| part.len());
    let short = digits.trim_start_matches('0').len() <= 15 && decimals <= 22;
    text.parse().ok().filter(|_| formed && short)
}

fn error(words: &str) -> String {
    format!("error\t{words}")
}
