//! What is asked: what must be stored, what must be among the runs of a seed, and how many they are.

use std::collections::{BTreeMap, BTreeSet};
use std::sync::OnceLock;

use second::dice::Dice;
use second::gas::{Charge, Gases};
use second::marking::{mark, Typed};
use second::program::{Run, Written};
use second::sheet::{built_in, judge, read, PLACES};
use second::stored::trial_ask;
use second::trials::runs::runs;
use second::trials::sheets::{each_list, each_text};

/// The runs of a seed, each with what it has to write, made once.
fn made() -> &'static [(Run, Written)] {
    static RUNS: OnceLock<Vec<(Run, Written)>> = OnceLock::new();
    let written = |(_, run): (String, Run)| {
        let written = run.written();
        (run, written)
    };
    RUNS.get_or_init(|| runs(1).into_iter().map(written).collect())
}

/// The numbers that a field of the lines with that word has.
fn numbers<'a>(lines: impl Iterator<Item = &'a str>, word: &str, place: usize) -> Vec<u32> {
    let fields = lines.map(|line| line.split('\t').collect::<Vec<&str>>());
    let told = fields.filter(|fields| fields[0] == word);
    let numbers: BTreeSet<u32> = told.map(|fields| fields[place].parse().unwrap()).collect();
    numbers.into_iter().collect()
}

#[test]
fn every_row_and_refusal_is_stored() {
    let [(_, requests), (_, answers)] = &trial_ask()[..] else { panic!("stdin and stdout") };
    assert!(requests.len() < 130_000 && answers.len() < 100_000);
    assert_eq!(requests.lines().count(), answers.lines().count());
    for kelvin in 200..=2000 {
        for asked in [format!("air-heat\t{kelvin}000"), format!("air-psi\t{kelvin}000")] {
            assert!(requests.lines().any(|line| line == asked), "{asked}");
        }
        assert!(requests.lines().any(|line| line == format!("air-cp\t{kelvin}")), "{kelvin}");
    }
    assert_eq!(numbers(answers.lines(), "refused", 1), [4, 5, 6, 8, 9, 11, 12, 13]);
    assert_eq!(numbers(answers.lines(), "stopped", 2), [4, 5, 7, 8, 9]);
}

/// A tie: whether its content is negative, and whether the whole number below the half is odd.
type Tie = (bool, bool);

const TIES: [Tie; 4] = [(true, true), (true, false), (false, true), (false, false)];

/// How many ties of each kind are answered to the requests with that word, over a sheet.
fn ties(word: &str, requests: &str, answers: &str, list: &[u32]) -> BTreeMap<Tie, u32> {
    let gases = Gases::of(list).unwrap();
    let mut ties = BTreeMap::new();
    for (request, answer) in requests.lines().zip(answers.lines()) {
        let fields: Vec<&str> = request.split('\t').collect();
        if fields[0] == word && answer.starts_with("ok") {
            let [air, carbon, hydrogen, mk] = [1, 2, 3, 4].map(|i| fields[i].parse().unwrap());
            let charge = Charge { air, carbon, hydrogen };
            let (twice, mass) = (2 * gases.content(&charge, mk), charge.total_mass());
            let halves = twice.div_euclid(mass);
            if twice == halves * mass && halves % 2 != 0 {
                *ties.entry((twice < 0, halves.div_euclid(2) % 2 != 0)).or_default() += 1;
            }
        }
    }
    ties
}

#[test]
fn ties_of_every_kind_are_stored() {
    let [(_, requests), (_, answers)] = &trial_ask()[..] else { panic!("stdin and stdout") };
    for word in ["specific-content", "station"] {
        let ties = ties(word, requests, answers, &built_in());
        assert!(TIES.iter().all(|tie| ties.contains_key(tie)), "{word} {ties:?}");
    }
}

/// The list that a run asks over: that of its file, if it is accepted, or the built-in one.
fn list_of(run: &Run) -> Option<Vec<u32>> {
    let Some(text) = run.files.values().next() else { return Some(built_in()) };
    let mut list = vec![0; PLACES];
    let read = read(text, &mut list).and_then(|()| judge(&list));
    read.is_ok().then_some(list)
}

#[test]
fn a_seed_asks_ties_of_every_kind_over_thirty_sheets() {
    for word in ["specific-content", "station"] {
        let mut lists = BTreeSet::new();
        for (run, written) in made().iter().filter(|(run, _)| run.words[0] == "ask") {
            if let Some(list) = list_of(run) {
                let ties = ties(word, run.text(), &written.output, &list);
                lists.extend(TIES.iter().all(|tie| ties.contains_key(tie)).then_some(list));
            }
        }
        assert!(lists.contains(&built_in()) && lists.contains(&vec![0; PLACES]), "{word}");
        assert!(lists.len() >= 30, "{word} {}", lists.len());
    }
}

#[test]
fn a_seed_asks_many_of_each() {
    let of = |form| made().iter().filter(move |(run, _)| run.words[0] == form);
    let least = [
        ("air-heat", 10_000),
        ("air-psi", 10_000),
        ("air-temperature", 105_000),
        ("burn", 900),
        ("gas-heat", 5_000),
        ("content", 5_000),
        ("specific-content", 5_000),
        ("station", 5_000),
        ("temperature", 30_000),
        ("walk", 6_000),
        ("mark", 1_000_000),
    ];
    for (word, least) in least {
        let lines = of("ask").flat_map(|(run, _)| run.text().lines());
        let asked = lines.filter(|line| line.split('\t').next() == Some(word)).count();
        assert!(asked >= least, "{word} {asked}");
    }
    assert!(of("walk").count() >= 300 && of("sheet").count() >= 300 && of("write").count() >= 150);
}

/// The kind, the number, the key and the window of a mark whose number is given by its bits.
fn mark_of_bits(line: &str) -> Option<(&str, f64, i64, i64)> {
    let fields: Vec<&str> = line.split('\t').collect();
    let ["mark", kind, typed, key, window] = fields[..] else { return None };
    let bits = u64::from_str_radix(typed.strip_prefix('x')?, 16).ok()?;
    Some((kind, f64::from_bits(bits), key.parse().ok()?, window.parse().ok()?))
}

/// An answer that misses while the float beside it counts, by its kind and exponent field and whether it is the one nearer zero.
type Edge<'a> = (&'a str, u64, bool);

fn edges(line: &str) -> Vec<Edge<'_>> {
    let Some((kind, x, key, window)) = mark_of_bits(line) else { return Vec::new() };
    let counts = |bits: u64| {
        let number = f64::from_bits(bits);
        let typed = if kind == "kelvins" { Typed::Kelvins(number) } else { Typed::Content(number) };
        mark(typed, key, window) == Ok(true)
    };
    let bits = x.to_bits();
    if x == 0.0 || !x.is_finite() || counts(bits) {
        return Vec::new();
    }
    let beside = [(bits + 1, true), (bits - 1, false)].into_iter().filter(|(b, _)| counts(*b));
    beside.map(|(_, nearer)| (kind, bits >> 52 & 0x7ff, nearer)).collect()
}

/// Every power of two that a key's float can lie above, for either kind.
#[test]
fn a_seed_marks_at_the_edge_for_every_exponent_of_a_key() {
    let mut met = BTreeMap::new();
    for (run, _) in made().iter().filter(|(run, _)| run.words[0] == "ask") {
        for edge in run.text().lines().flat_map(edges) {
            *met.entry(edge).or_insert(0) += 1;
        }
    }
    for (kind, exponents) in [("kelvins", 1013..=1052), ("content", 1006..=1046)] {
        for (exponent, nearer) in exponents.flat_map(|e| [(e, true), (e, false)]) {
            let times = met.get(&(kind, exponent, nearer)).copied().unwrap_or(0);
            assert!(times >= 10, "{kind} {exponent} {nearer} {times}");
        }
    }
}

#[test]
fn a_seed_meets_every_refusal_of_the_program() {
    let written = || made().iter().map(|(_, written)| written);
    let lines = || written().flat_map(|written| written.output.lines());
    assert_eq!(numbers(lines(), "refused", 1), [2, 3, 4, 5, 6, 7, 8, 9, 11, 12, 13]);
    assert_eq!(numbers(lines(), "stopped", 2), [4, 5, 7, 8, 9]);
    for words in ["no such request", "takes other fields", "not a number", "return", "too long"] {
        assert!(lines().any(|line| line.starts_with("error") && line.contains(words)), "{words}");
    }
    for said in [
        "the sheet is",
        "the start is",
        "step 1 is",
        "step 2 is",
        "has a carriage",
        ": a carriage",
        "A, c",
        "value, q",
    ] {
        assert!(written().any(|written| written.error.contains(said)), "{said}");
    }
}

#[test]
fn a_seed_writes_the_shortest_sheet_and_the_longest_and_meets_both_refusals() {
    let of_write = || made().iter().filter(|(run, _)| run.words[0] == "write");
    let (refused, whole): (Vec<_>, Vec<_>) =
        of_write().partition(|(_, written)| written.output.starts_with("refused"));
    let lines = refused.iter().flat_map(|(_, written)| written.output.lines());
    assert_eq!(numbers(lines, "refused", 1), [2, 3]);
    assert!(refused.iter().any(|(_, written)| written.error.contains("has a carriage")));
    assert!(refused.iter().all(|(_, written)| written.error.contains("the sheet is refused")));
    for bytes in [19_011, 40_164, 46_026] {
        assert!(whole.iter().any(|(_, written)| written.output.len() == bytes), "{bytes}");
    }
    for (run, written) in whole {
        assert!(run.files.values().all(|text| written.output.as_bytes() == text));
        assert_eq!(written.error, "");
    }
}

/// Whether a run's input is handed over in pieces whose lengths are all as the condition says.
fn handed(run: &Run, length: impl Fn(usize) -> bool) -> bool {
    run.pieces.as_ref().is_some_and(|pieces| pieces.lengths.iter().all(|n| length(*n)))
}

#[test]
fn a_seed_hands_sheets_over_in_pieces() {
    let arriving = || made().iter().filter(|(run, _)| run.words == ["sheet"]);
    let refused = |written: &Written| written.output.starts_with("refused\t2");
    assert!(arriving().filter(|(run, _)| run.pieces.is_none()).count() >= 20);
    for (output, least) in [("accepted\n", 25), ("refused\t2\t1801\n", 3), ("refused\t3", 10)] {
        let cut = arriving()
            .filter(|(run, written)| run.pieces.is_some() && written.output.starts_with(output));
        assert!(cut.clone().count() >= least, "{output} {}", cut.count());
    }
    let open = |run: &Run| run.pieces.as_ref().is_some_and(|pieces| pieces.stays_open);
    let (stay, end): (Vec<_>, Vec<_>) =
        arriving().filter(|(_, written)| refused(written)).partition(|(run, _)| open(run));
    assert!(stay.len() >= 60 && end.len() >= 60, "{} {}", stay.len(), end.len());
    let by_bytes = arriving().filter(|(run, _)| handed(run, |n| n == 1));
    assert!(by_bytes.clone().count() >= 80);
    assert!(by_bytes.into_iter().any(|(_, written)| written.output == "accepted\n"));
}

#[test]
fn a_seed_has_texts_far_longer_than_a_sheet_from_both_sides() {
    let long = |bytes: &[u8]| bytes.len() > 300_000;
    let of = |found: &dyn Fn(&Run) -> bool| made().iter().filter(|(run, _)| found(run)).count();
    assert_eq!(of(&|run| long(&run.input) && run.words == ["sheet"] && run.pieces.is_none()), 1);
    assert_eq!(of(&|run| long(&run.input) && run.words == ["sheet"] && run.pieces.is_some()), 1);
    assert_eq!(of(&|run| run.words[0] == "sheet" && run.files.values().any(|t| long(t))), 1);
}

#[test]
fn a_seed_is_always_the_same_and_no_other() {
    let inputs =
        |seed| runs(seed).into_iter().map(|(name, run)| (name, run.input, run.pieces, run.files));
    assert!(inputs(1).eq(inputs(1)));
    assert!(inputs(1).ne(inputs(2)));
}

#[test]
fn sheets_are_many() {
    let (mut texts, mut lists) = (0, 0);
    each_text(&mut Dice::new(1), &mut |_| texts += 1);
    each_list(&mut Dice::new(1), &mut |_| lists += 1);
    assert!(texts > 7_500 && lists > 4_900, "{texts} {lists}");
}
