//! 10,000 requests through the program `keys ask`, beside the same through this program's plain calls.

use crate::rows::{heat, mark, walks};
use crate::timing::Times;
use second::answer::{answer, fields};
use second::dice::Dice;
use second::gas::{Charge, Gases};
use std::env;
use std::fs::{self, File};
use std::path::{Path, PathBuf};
use std::process::{Command, Stdio};
use std::time::Instant;

const REQUESTS: usize = 10_000;
const RUNS: usize = 15;

/// Times whole runs of both programs, from their start to their end.
pub fn print_row(sheet: &[u32]) {
    let Some(program) = program() else {
        println!("| {REQUESTS} requests through `keys ask` | not built | | | |");
        return;
    };
    let lines = requests(sheet);
    let expected: String = lines.iter().map(|line| answer(line, Ok(sheet)) + "\n").collect();
    let input = env::temp_dir().join(format!("gaskeys-bench-{}", std::process::id()));
    fs::write(&input, lines.join("\n") + "\n").expect("the temporary folder can be written");
    let own = env::current_exe().expect("a program has a path");
    let sides = [(program.as_path(), "ask"), (own.as_path(), "plain-ask")];
    for (path, word) in sides {
        let wrote = run(path, word, &input).1;
        assert!(wrote == expected.as_bytes(), "{} answers otherwise", path.display());
    }
    let time = |side: (&Path, &str)| run(side.0, side.1, &input).0 / REQUESTS as f64;
    let rounds: Vec<(f64, f64)> = (0..RUNS).map(|_| (time(sides[0]), time(sides[1]))).collect();
    fs::remove_file(&input).expect("the file was written");
    let Times { proved, plain, ratio } = Times::of(&rounds);
    let name = format!("a request of {REQUESTS} through `keys ask`");
    println!("| {name} | random | {plain:.1} | {proved:.1} | {ratio:.2} |");
}

/// target/bin/keys, if it is built.
fn program() -> Option<PathBuf> {
    let keys = Path::new(env!("CARGO_MANIFEST_DIR")).join("../target/bin/keys");
    keys.is_file().then_some(keys)
}

/// The nanoseconds of a run on the requests, and what it wrote.
fn run(program: &Path, word: &str, input: &Path) -> (f64, Vec<u8>) {
    let began = Instant::now();
    let output = Command::new(program)
        .arg(word)
        .stdin(File::open(input).expect("the file was written"))
        .stderr(Stdio::inherit())
        .output()
        .expect("the program runs");
    (began.elapsed().as_nanos() as f64, output.stdout)
}

/// Temperatures of heats and of psis, marks, and walks of four steps.
fn requests(sheet: &[u32]) -> Vec<String> {
    let mut dice = Dice::new(11);
    let gases = Gases::of(sheet).expect("the built-in sheet is accepted");
    let mut request = |i: usize| match i % 5 {
        0 | 1 => {
            let (Charge { air, carbon, hydrogen }, target) = heat(&mut dice, &gases);
            fields("temperature", &[air, carbon, hydrogen, target])
        }
        2 => fields("air-temperature", &[dice.from_to(95_264_000, 133_150_999)]),
        3 => {
            let (x, key) = mark(&mut dice, 1 << 53, 4.5e12);
            format!("mark\tkelvins\tx{:016x}\t{key}\t100", x.to_bits())
        }
        _ => {
            let (Charge { air, carbon, hydrogen }, mk, steps) =
                walks(&mut dice, &gases, 1, 4).remove(0);
            fields("walk", &[&[air, carbon, hydrogen, mk], &steps[..]].concat())
        }
    };
    (0..REQUESTS).map(&mut request).collect()
}
