//! Times the proved calls beside the same calls in plain Rust, in one run, and prints a table of ratios.
//!
//! usage: cargo run --release --manifest-path bench/Cargo.toml [-- WORD]
//!
//! With WORD, only the rows whose name has it. Before a row is timed both sides answer its inputs, and
//! what they give is compared. Lent lists are not cleared between calls. The last row runs the program
//! `keys ask` of target/bin where it is built, beside this one with the word `plain-ask`.

mod asking;
mod calls;
mod plain;
mod rows;
mod timing;

use calls::{ask, Lists, PROVED};
use plain::PLAIN;
use std::hint::black_box;
use timing::Times;

fn main() {
    let word = std::env::args().nth(1).unwrap_or_default();
    let sheet = second::sheet::built_in();
    if word == "plain-ask" {
        return plain::ask::all(&sheet);
    }
    println!("| call | inputs | plain ns | proved ns | ratio |\n|---|---|---|---|---|");
    for (name, inputs) in rows::rows(&sheet).into_iter().filter(|row| row.0.contains(&word)) {
        let mut lists = [Lists::new(sheet.clone()), Lists::new(sheet.clone())];
        let [one, two] = &mut lists;
        // hidden from the compiler, so that neither side is inlined into the loop that times it
        let sides = [black_box(&PROVED), black_box(&PLAIN)];
        let mut proved = |i: usize| ask(sides[0], &inputs, i, one);
        let mut plain = |i: usize| ask(sides[1], &inputs, i, two);
        for i in 0..inputs.count() {
            assert_eq!(proved(i), plain(i), "{name}, input {i}");
        }
        for (count, which) in [(inputs.count(), "random"), (1, "one")] {
            let Times { proved, plain, ratio } =
                timing::side_by_side(count, &mut proved, &mut plain);
            println!("| {name} | {which} | {plain:.1} | {proved:.1} | {ratio:.2} |");
        }
    }
    if "keys ask".contains(&word) {
        asking::print_row(&sheet);
    }
}
