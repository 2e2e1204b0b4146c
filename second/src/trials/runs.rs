//! Runs of `keys` made from a seed, each with what it has to write: requests of every kind over sheets of every kind, printed walks,
//! judged sheet files, sheets written, and sheets that arrive in pieces.

use crate::dice::Dice;
use crate::gas::Gases;
use crate::program::{Pieces, Run};
use crate::sheet;
use crate::trials::sheets::{
    accepted, bases, damage, limit_texts, long_text, random, random_text, small_texts, Base,
};
use crate::trials::{gas, marks, misfits, pieces, rows, walks};

/// The name of a file of a run.
const SHEET: &str = "sheet.tsv";
const QUESTION: &str = "question.tsv";

/// All runs of a seed: the name of each, and the run.
pub fn runs(seed: u64) -> Vec<(String, Run)> {
    let dice = &mut Dice::new(seed);
    let kinds = [
        ("rows", vec![ask(&[rows::edges(), rows::between(dice), rows::inverses(dice)].concat())]),
        ("marks", marks::runs(dice).iter().map(|requests| ask(requests)).collect()),
        ("misfits", vec![ask(&misfits::requests(dice))]),
        ("burn", vec![ask(&gas::burning(dice))]),
        ("gas", over_good_sheets(dice)),
        ("bad-sheet", over_bad_sheets(dice)),
        ("walk", printed_walks(dice)),
        ("sheet", judged_sheets(dice)),
        ("write", written_sheets(dice)),
        ("arriving", arriving_sheets(dice)),
    ];
    let named = |(kind, runs): (&str, Vec<Run>)| {
        let numbered = runs.into_iter().enumerate();
        numbered.map(|(i, run)| (format!("{kind}-{i}"), run)).collect::<Vec<_>>()
    };
    kinds.into_iter().flat_map(named).collect()
}

/// Requests over the built-in sheet.
fn ask(requests: &[String]) -> Run {
    Run::new(&["ask"], lines(requests))
}

/// Requests over the sheet of a file.
fn ask_over(text: Vec<u8>, requests: &[String]) -> Run {
    Run::new(&["ask", "--sheet", SHEET], lines(requests)).with(SHEET, text)
}

fn lines(requests: &[String]) -> String {
    requests.iter().map(|line| format!("{line}\n")).collect()
}

/// Gas requests and walks over the built-in sheet, the accepted ones at the ends of the step rule, and random ones.
fn over_good_sheets(dice: &mut Dice) -> Vec<Run> {
    let random: Vec<Vec<u32>> = (0..20).map(|_| random(dice)).collect();
    let mut run = |(i, list): (usize, Vec<u32>)| {
        let gases = Gases::of(&list).expect("an accepted sheet");
        let requests = [gas::requests(dice, &gases), walks::requests(dice, &list, 100)].concat();
        match i {
            0 => ask(&requests),
            _ => ask_over(sheet::text(&list).into_bytes(), &requests),
        }
    };
    [accepted(), random].concat().into_iter().enumerate().map(&mut run).collect()
}

/// Every request that takes a sheet over texts that are refused, or may be.
fn over_bad_sheets(dice: &mut Dice) -> Vec<Run> {
    let bases = bases();
    let mut texts = limit_texts();
    texts.extend((0..60).map(|_| any_text(dice, &bases)));
    let requests = [rows::edges(), gas::waiting()].concat();
    texts.into_iter().map(|text| ask_over(text, &requests)).collect()
}

/// A text with bytes changed, or that of a random list with a number changed.
fn any_text(dice: &mut Dice, bases: &[Base]) -> Vec<u8> {
    if dice.below(2) == 0 {
        return random_text(dice, bases);
    }
    let mut list = random(dice);
    damage(dice, &mut list);
    sheet::text(&list).into_bytes()
}

/// Questions from standard input, each spoilt and as it is, and from a file, over the built-in sheet, another and a refused one.
fn printed_walks(dice: &mut Dice) -> Vec<Run> {
    let bases = bases();
    let (built_in, other) = (sheet::built_in(), random(dice));
    let mut runs = Vec::new();
    for walk in walks::walks(dice, &built_in, 100) {
        let question = walk.question();
        runs.push(Run::new(&["walk"], misfits::question(dice, &question)));
        runs.push(Run::new(&["walk"], question));
    }
    for walk in walks::walks(dice, &other, 50) {
        let text = dice.one_of(&[&other, &other, &built_in]);
        let text = match dice.below(8) {
            0 => any_text(dice, &bases),
            _ => sheet::text(text).into_bytes(),
        };
        let run = Run::new(&["walk", QUESTION, "--sheet", SHEET], String::new());
        runs.push(run.with(QUESTION, walk.question().into_bytes()).with(SHEET, text));
    }
    runs
}

/// Texts at both sides of each limit, and of accepted sheets.
fn known_texts() -> Vec<Vec<u8>> {
    let accepted = accepted().into_iter().map(|list| sheet::text(&list).into_bytes());
    limit_texts().into_iter().chain(accepted).collect()
}

/// Sheet files at both sides of each limit, accepted ones, one far too long, and any.
fn judged_sheets(dice: &mut Dice) -> Vec<Run> {
    let bases = bases();
    let mut texts = known_texts();
    texts.push(long_text());
    texts.extend((0..300).map(|_| any_text(dice, &bases)));
    let judged = |text| Run::new(&["sheet", SHEET], String::new()).with(SHEET, text);
    texts.into_iter().map(judged).collect()
}

/// The built-in sheet written, and those of files: at both sides of each limit, accepted ones, random ones, one whose lines end as some
/// editors end them, and any.
fn written_sheets(dice: &mut Dice) -> Vec<Run> {
    let bases = bases();
    let mut texts = known_texts();
    texts.extend((0..60).map(|_| sheet::text(&random(dice)).into_bytes()));
    texts.push(sheet::text(&random(dice)).replace('\n', "\r\n").into_bytes());
    texts.extend((0..66).map(|_| any_text(dice, &bases)));
    let over = |text| Run::new(&["write", "--sheet", SHEET], String::new()).with(SHEET, text);
    let built_in = Run::new(&["write"], String::new());
    [built_in].into_iter().chain(texts.into_iter().map(over)).collect()
}

/// Sheets on standard input. Those at both sides of each limit, accepted ones, one whose lines end as some editors end them, one far too
/// long and any are whole or cut at random places; small ones, and the shortest that is good, come byte by byte.
fn arriving_sheets(dice: &mut Dice) -> Vec<Run> {
    let bases = bases();
    let mut texts = known_texts();
    texts.push(sheet::text(&random(dice)).replace('\n', "\r\n").into_bytes());
    let whole = |text: &Vec<u8>| Run::new(&["sheet"], text.clone());
    let mut runs: Vec<Run> = texts.iter().chain([&long_text()]).map(whole).collect();
    let lengths = pieces::lengths(dice, long_text().len(), 30_000);
    runs.push(whole(&long_text()).handed(Pieces { lengths, stays_open: false }));
    texts.extend((0..150).map(|_| any_text(dice, &bases)));
    for text in texts {
        let most = dice.one_of(&[1_460, 8_192, 30_000]);
        runs.push(arriving(dice, text, most));
    }
    let shortest = sheet::text(&[0; sheet::PLACES]).into_bytes();
    runs.extend(small_texts().into_iter().chain([shortest]).map(|text| arriving(dice, text, 1)));
    runs
}

/// A sheet that arrives in pieces of up to so many bytes. Where one of its bytes decides the answer the text may end there, and the input
/// stay open.
fn arriving(dice: &mut Dice, mut text: Vec<u8>, most: usize) -> Run {
    let bad = sheet::first_bad_byte(&text).filter(|_| dice.below(2) == 0);
    text.truncate(bad.map_or(text.len(), |at| at + 1));
    let lengths = pieces::lengths(dice, text.len(), most);
    Run::new(&["sheet"], text).handed(Pieces { lengths, stays_open: bad.is_some() })
}
