//! The walk: outcomes, lent places, the printed walk, demand 3.

use second::dice::Dice;
use second::gas::{Charge, Gases};
use second::refusal::Refusal;
use second::sheet::built_in;
use second::table::table;
use second::trials::walks::random_step;
use second::walk::{printed, step_heat, step_looks, walk, Lent, Outcome, State};

const PATTERN: i64 = 7_000_000;

/// Lists for that many steps and two more, filled with a pattern.
struct Lists {
    temperatures: Vec<i64>,
    rests: Vec<i64>,
    looks: Vec<u32>,
}

impl Lists {
    fn new(steps: usize) -> Lists {
        Lists {
            temperatures: vec![PATTERN; steps + 2],
            rests: vec![PATTERN; steps + 2],
            looks: vec![PATTERN as u32; 11 * (steps + 2)],
        }
    }

    fn lend(&mut self) -> Lent<'_> {
        Lent {
            temperatures: &mut self.temperatures,
            rests: &mut self.rests,
            looks: &mut self.looks,
        }
    }

    fn unchanged_from(&self, step: usize) -> bool {
        self.temperatures[step..].iter().chain(&self.rests[step..]).all(|v| *v == PATTERN)
            && self.looks[11 * step..].iter().all(|v| *v == PATTERN as u32)
    }
}

fn state(air: i64, carbon: i64, hydrogen: i64, mk: i64) -> State {
    State { charge: Charge { air, carbon, hydrogen }, mk }
}

fn run(start: State, sheet: &[u32], steps: &[i64]) -> (Outcome, Lists) {
    let mut lists = Lists::new(steps.len() / 4);
    let outcome = walk(start, sheet, steps, lists.lend());
    let done = match outcome {
        Outcome::Done(n, _) | Outcome::Stopped(n, _, _) => n,
        Outcome::Refused(_) => 0,
    };
    assert!(lists.unchanged_from(done));
    (outcome, lists)
}

fn flat(gases: [u32; 3]) -> Vec<u32> {
    gases.repeat(1801)
}

fn refused(number: u32) -> Outcome {
    Outcome::Refused(Refusal::plain(number))
}

#[test]
fn printed_walk_of_document_01() {
    let (outcome, mut lists) =
        run(state(1, 0, 0, 200_000), &built_in(), &[0, 0, 0, 1_200_000_001, 0, 0, 0, 2_400_000]);
    let page = "step\tmK\trest\tlooks\n1\t200500\t1\t10\n2\t200501\t0\t10\n";
    assert_eq!(printed(&outcome, &lists.lend()), page);
    let (outcome, mut lists) = run(
        state(1, 0, 0, 200_000),
        &built_in(),
        &[0, 0, 0, 1_200_000_001, 0, 0, 0, -1, 0, 0, 0, -1_200_000_000],
    );
    let page = "step\tmK\trest\tlooks\n1\t200500\t1\t10\n2\t200499\t2399999\t10\nrefused\t8\n";
    assert_eq!(printed(&outcome, &lists.lend()), page);
    let (outcome, mut lists) = run(state(0, 0, 0, 200_000), &built_in(), &[]);
    assert_eq!(printed(&outcome, &lists.lend()), "step\tmK\trest\tlooks\nrefused\t4\n");
    let (outcome, mut lists) = run(state(1, 0, 0, 200_000), &built_in(), &[]);
    assert_eq!(printed(&outcome, &lists.lend()), "step\tmK\trest\tlooks\n");
}

#[test]
fn refusals_of_a_start_in_order() {
    let start = state(0, 0, 0, 0);
    let lent = |t: usize, r: usize, l: usize, steps: usize| {
        let (mut t, mut r, mut l) = (vec![7; t], vec![7; r], vec![7; l]);
        let lent = Lent { temperatures: &mut t, rests: &mut r, looks: &mut l };
        walk(start, &flat([0; 3]), &vec![-1; steps], lent)
    };
    assert_eq!(lent(0, 0, 0, 5), refused(13));
    assert_eq!(lent(9, 9, 99, 260), refused(13));
    assert_eq!(lent(2, 2, 21, 8), refused(10));
    assert_eq!(lent(1, 2, 22, 8), refused(10));
    assert_eq!(lent(2, 1, 22, 8), refused(10));
    assert_eq!(lent(2, 2, 22, 8), refused(4));
    assert_eq!(lent(64, 64, 704, 256), refused(4));
    assert_eq!(lent(64, 64, 703, 256), refused(10));
    assert_eq!(run(state(1, -1, 0, 300_000), &flat([0; 3]), &[]).0, refused(4));
    assert_eq!(run(state(1, 1, 0, 0), &flat([0; 3]), &[]).0, refused(5));
    assert_eq!(run(state(1, 0, 0, 0), &flat([0; 3]), &[]).0, refused(6));
    let bad = [&[200_001][..], &flat([0; 3])[1..]].concat();
    assert_eq!(run(start, &bad, &[0]).0, Outcome::Refused(Refusal { number: 3, row: Some(0) }));
    assert_eq!(run(start, &bad[1..], &[0]).0, refused(1));
}

#[test]
fn refusals_of_a_first_step_in_order() {
    let start = state(1, 0, 0, 300_000);
    let most = 1_000_000_000_000_000_000;
    let cases = [
        ([-1, 0, -1, 0], 4),
        ([i64::MAX, 0, 0, 0], 4),
        ([0, i64::MIN, 0, 0], 4),
        ([1, 0, 5_000_001, 0], 7),
        ([1, 0, 5_000_000, most], 5),
        ([0, 0, 0, most], 9),
        ([0, 0, 0, -most], 8),
        ([0, 0, 0, most + 1], 7),
        ([0, 0, 0, -most - 1], 7),
        ([0, 0, -1, 0], 7),
        ([0, 0, 5_000_001, 0], 7),
    ];
    for (step, number) in cases {
        assert_eq!(run(start, &built_in(), &step).0, Outcome::Stopped(0, number, start));
    }
    let twice = run(state(2, 0, 0, 300_000), &flat([0; 3]), &[1, 0, 0, 0, 1, 0, 0, 0]).0;
    assert!(matches!(
        twice,
        Outcome::Stopped(1, 5, State { charge: Charge { air: 2, carbon: 1, hydrogen: 0 }, .. })
    ));
    let less = run(state(9, 5, 0, 300_000), &flat([0; 3]), &[-1, 0, 0, 0]).0;
    assert_eq!(less, Outcome::Stopped(0, 4, state(9, 5, 0, 300_000)));
}

#[test]
fn worked_steps() {
    let (outcome, lists) = run(state(1000, 0, 0, 400_000), &built_in(), &[215, 414, 1_030_000, 0]);
    assert_eq!(outcome, Outcome::Done(1, state(1000, 215, 414, 1_465_691)));
    assert_eq!(lists.rests[0], 2_979_386_896);
    let jump: Vec<u32> =
        (0..1801).flat_map(|row| [0, if row > 800 { 200_000 } else { 0 }, 0]).collect();
    let (outcome, lists) = run(state(2, 0, 0, 900_000), &jump, &[1, 0, 0, 4_952_000_000_000]);
    assert_eq!(outcome, Outcome::Done(1, state(2, 1, 0, 1_000_500)));
    assert_eq!(lists.rests[0], 8_000_000_000);
    let gases = Gases::of(&jump).unwrap();
    let dearest = |s: State| gases.dearest(&s.charge);
    assert_eq!(
        (dearest(state(2, 0, 0, 0)), dearest(state(2, 1, 0, 0))),
        (6_200_000, 8_807_600_000)
    );
}

#[test]
fn greatest_burn_heat() {
    assert_eq!(step_heat(&[50_000, 50_000, 5_000_000, 0]), Ok(3_254_750_000_000_000_000));
}

#[test]
fn walks_that_stay() {
    for sheet in [built_in(), flat([200_000, 0, 0])] {
        let (outcome, lists) = run(state(9, 1, 1, 288_160), &sheet, &[3, 2, 0, 0]);
        assert_eq!((outcome, lists.rests[0]), (Outcome::Done(1, state(9, 4, 3, 288_160)), 0));
        let (outcome, lists) = run(state(9, 1, 1, 777_777), &sheet, &[0, 0, 5_000_000, 0]);
        assert_eq!((outcome, lists.rests[0]), (Outcome::Done(1, state(9, 1, 1, 777_777)), 0));
    }
}

#[test]
fn walks_at_the_ends() {
    let (outcome, lists) = run(state(1, 0, 0, 2_000_000), &built_in(), &[0; 4]);
    assert_eq!(outcome, Outcome::Done(1, state(1, 0, 0, 2_000_000)));
    assert_eq!(lists.looks[..11], [0; 11]);
    assert_eq!(
        run(state(1, 0, 0, 2_000_000), &built_in(), &[0, 0, 0, 1]).0,
        Outcome::Stopped(0, 9, state(1, 0, 0, 2_000_000))
    );
    assert_eq!(
        run(state(1, 0, 0, 200_000), &built_in(), &[0, 0, 0, -1]).0,
        Outcome::Stopped(0, 8, state(1, 0, 0, 200_000))
    );
    assert_eq!(
        run(state(1, 0, 0, 200_000), &built_in(), &[0; 256]).0,
        Outcome::Done(64, state(1, 0, 0, 200_000))
    );
    for length in [255, 257, 260] {
        assert_eq!(run(state(1, 0, 0, 200_000), &built_in(), &vec![0; length]).0, refused(13));
    }
}

#[test]
fn demand_3_over_random_walks() {
    let steep = table().heat.iter().flat_map(|h| [4 * (h - 4776) as u32, 0, 0]).collect();
    let jump = (0..1801).flat_map(|row| [0, if row > 800 { 200_000 } else { 0 }, 0]).collect();
    let mut dice = Dice::new(3);
    let mut steps_done = 0;
    for sheet in [built_in(), flat([0; 3]), flat([200_000, 0, 0]), steep, jump] {
        let gases = Gases::of(&sheet).unwrap();
        for _ in 0..100 {
            let start = state(dice.from_to(1, 100_000), 0, 0, dice.from_to(200_000, 2_000_000));
            let (mut steps, mut now) = (Vec::new(), start);
            for _ in 0..dice.one_of(&[0, 1, 2, 10, 64]) {
                steps.extend(random_step(&mut dice, &gases, &now));
                match run(start, &sheet, &steps).0 {
                    Outcome::Done(_, last) => now = last,
                    _ => break,
                }
            }
            steps_done += holds(start, &sheet, &steps);
        }
    }
    assert!(steps_done > 3000, "{steps_done}");
}

/// Checks demand 3 on one walk and returns its number of steps done.
fn holds(start: State, sheet: &[u32], steps: &[i64]) -> usize {
    let gases = Gases::of(sheet).unwrap();
    let (outcome, lists) = run(start, sheet, steps);
    let (Outcome::Done(n, last) | Outcome::Stopped(n, _, last)) = outcome else {
        panic!("the start is good")
    };
    let (mut charge, mut mk) = (start.charge, start.mk);
    let (mut ledger, mut allowed) = (gases.content(&charge, mk), 0);
    for i in 0..n {
        let step = &steps[4 * i..4 * i + 4];
        let old_content = gases.content(&charge, mk);
        charge = Charge {
            carbon: charge.carbon + step[0],
            hydrogen: charge.hydrogen + step[1],
            ..charge
        };
        ledger += step_heat(step).unwrap();
        allowed += gases.dearest(&charge);
        let target = old_content + step_heat(step).unwrap();
        assert_eq!(lists.looks[11 * i..11 * (i + 1)], halving(&gases, &charge, target));
        assert!(step_looks(&lists.looks, i).len() <= 11);
        mk = lists.temperatures[i];
        assert_eq!(target - gases.content(&charge, mk), lists.rests[i].into());
        assert!(mk == 2_000_000 || gases.content(&charge, mk + 1) > target);
    }
    assert_eq!(last, State { charge, mk });
    let shortfall = ledger - gases.content(&charge, mk);
    assert!(shortfall >= 0 && (if n == 0 { shortfall == 0 } else { shortfall < allowed }));
    n
}

/// The eleven places by the halving rule, asked again of the kept half alone.
fn halving(gases: &Gases, charge: &Charge, target: i128) -> Vec<u32> {
    fn ask(low: i64, high: i64, passes: &dyn Fn(i64) -> bool) -> Vec<u32> {
        if high - low == 1 {
            return vec![];
        }
        let middle = (low + high) / 2;
        let kept =
            if passes(middle) { ask(middle, high, passes) } else { ask(low, middle, passes) };
        [vec![middle as u32], kept].concat()
    }
    let content = |kelvin: i64| gases.content(charge, 1000 * kelvin);
    let mut looks =
        if target == content(2000) { vec![] } else { ask(200, 2000, &|k| content(k) <= target) };
    looks.resize(11, 0);
    looks
}
