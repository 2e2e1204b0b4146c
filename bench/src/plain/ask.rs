//! Requests of `keys ask` answered by the plain calls, for the kinds that the bench asks: a line in, a line out.

use super::air::{psi_inverse, PLACES};
use super::gas::{self, Charge};
use super::marking::{mark, Typed};
use super::{sheet, walk, Refused};
use std::io::{self, BufRead, BufWriter, Write};

/// Answers all lines of standard input; the sheet is judged once.
pub fn all(list: &[u32]) {
    sheet::judge(list).expect("the sheet is accepted");
    let mut out = BufWriter::new(io::stdout().lock());
    for line in io::stdin().lock().lines() {
        answer(&line.expect("a line"), list, &mut out).expect("the answer can be written");
    }
}

fn answer(line: &str, list: &[u32], out: &mut impl Write) -> io::Result<()> {
    let mut fields = line.split('\t');
    let word = fields.next().unwrap_or_default();
    if word == "mark" {
        return say_mark(fields, out);
    }
    let numbers: Result<Vec<i64>, _> = fields.map(str::parse).collect();
    let Ok(numbers) = numbers else { return writeln!(out, "error") };
    let mut looks = [0; PLACES];
    match (word, &numbers[..]) {
        ("temperature", [a, c, h, target]) => {
            let charge = Charge { air: *a, carbon: *c, hydrogen: *h };
            let found = charge.admit().and_then(|()| {
                gas::find(charge.masses(), *target, &mut looks, list).map_err(|n| (n, 0))
            });
            say_found(found, &looks, out)
        }
        ("air-temperature", [psi]) => {
            let found = psi_inverse(*psi, &mut looks).map(|(mk, rest)| (mk, rest as i64));
            say_found(found.map_err(|n| (n, 0)), &looks, out)
        }
        ("walk", [a, c, h, mk, steps @ ..]) => {
            say_walk(Charge { air: *a, carbon: *c, hydrogen: *h }, *mk, steps, list, out)
        }
        _ => writeln!(out, "error"),
    }
}

fn say_found(
    found: Result<(i64, i64), Refused>,
    looks: &[u32],
    out: &mut impl Write,
) -> io::Result<()> {
    match found {
        Ok((mk, rest)) => {
            write!(out, "ok")?;
            put_found(mk, rest, looks, out)?;
            writeln!(out)
        }
        Err((number, _)) => writeln!(out, "refused\t{number}"),
    }
}

fn put_found(mk: i64, rest: i64, looks: &[u32], out: &mut impl Write) -> io::Result<()> {
    let looks = looks.iter().filter(|look| **look != 0);
    write!(out, "\t{mk}\t{rest}\t{}", looks.clone().count())?;
    looks.into_iter().try_for_each(|look| write!(out, "\t{look}"))
}

fn say_mark<'a>(mut fields: impl Iterator<Item = &'a str>, out: &mut impl Write) -> io::Result<()> {
    let (kind, bits) = (fields.next(), fields.next().and_then(|x| x.strip_prefix('x')));
    let x = bits.and_then(|bits| u64::from_str_radix(bits, 16).ok()).map(f64::from_bits);
    let mut number = || fields.next().and_then(|field| field.parse().ok());
    let (Some("kelvins"), Some(x), Some(key), Some(window)) = (kind, x, number(), number()) else {
        return writeln!(out, "error");
    };
    match mark(Typed::Kelvins(x), key, window) {
        Ok(true) => writeln!(out, "counts"),
        Ok(false) => writeln!(out, "misses"),
        Err(number) => writeln!(out, "refused\t{number}"),
    }
}

fn say_walk(
    charge: Charge,
    mk: i64,
    steps: &[i64],
    list: &[u32],
    out: &mut impl Write,
) -> io::Result<()> {
    let (mut temperatures, mut rests, mut looks) = ([0; 64], [0; 64], [0; 64 * PLACES]);
    let lent = walk::Lent { temperatures: &mut temperatures, rests: &mut rests, looks: &mut looks };
    let (done, number, end, mk) = match walk::walk_judged(charge, mk, list, steps, lent) {
        Ok(course) => course,
        Err((number, _)) => return writeln!(out, "refused\t{number}"),
    };
    match number {
        0 => write!(out, "ok\t{done}")?,
        _ => write!(out, "stopped\t{done}\t{number}")?,
    }
    write!(out, "\t{}\t{}\t{}\t{mk}", end.air, end.carbon, end.hydrogen)?;
    for i in 0..done as usize {
        put_found(temperatures[i], rests[i], &looks[PLACES * i..PLACES * (i + 1)], out)?;
    }
    writeln!(out)
}
