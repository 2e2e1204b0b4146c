//! walk, with every place of the three lists.

use gaskeys::{Millikelvin, Walked};
use second::dice::Dice;
use second::gas::{Charge, Gases};
use second::inverse::PLACES;
use second::walk::{self, Outcome, State};
use trial::charges::{about, charge, temperature, wild, wrapped};
use trial::lent::{length, Lent};
use trial::{dice, sheets, Refused};

const MOST: i128 = 1_000_000_000_000_000_000;

/// What both tell of a walk: steps done, the refusal of a step, charge and mK; or the start's refusal.
type Told = Result<(u32, Option<u32>, Charge, i64), Refused>;

fn first(walked: Walked) -> Told {
    let state = |at: gaskeys::State| {
        let gaskeys::Charge { air, carbon, hydrogen } = at.charge;
        (Charge { air, carbon, hydrogen }, at.temperature.0)
    };
    let (steps, number, (charge, mk)) = match walked {
        Walked::Done(steps, at) => (steps, None, state(at)),
        Walked::Stopped(steps, refusal, at) => (steps, Some(refusal.number()), state(at)),
        Walked::Refused(refusal) => return Err((refusal.number(), refusal.row())),
    };
    Ok((steps, number, charge, mk))
}

fn other(outcome: Outcome) -> Told {
    match outcome {
        Outcome::Done(steps, at) => Ok((steps as u32, None, at.charge, at.mk)),
        Outcome::Stopped(steps, number, at) => Ok((steps as u32, Some(number), at.charge, at.mk)),
        Outcome::Refused(refusal) => Err((refusal.number, refusal.row)),
    }
}

/// The same walk by both, with lists of these lengths.
fn same_walk(start: State, sheet: &[u32], steps: &[i64], lengths: [usize; 3]) -> Told {
    let [t, r, l] = lengths;
    let mut one = (Lent::of(t), Lent::of(r), Lent::of(l));
    let mut two = one.clone();
    let lent =
        gaskeys::Lent { temperatures: one.0.part(), rests: one.1.part(), looks: one.2.part() };
    let at = gaskeys::State { charge: wrapped(start.charge), temperature: Millikelvin(start.mk) };
    let told = first(gaskeys::walk(at, sheet, steps, lent));
    let lent = walk::Lent { temperatures: two.0.part(), rests: two.1.part(), looks: two.2.part() };
    assert_eq!(told, other(walk::walk(start, sheet, steps, lent)), "{start:?} {steps:?}");
    assert_eq!(one, two, "{start:?} {steps:?}");
    told
}

/// A step from a state: mostly without fuel, to some temperature; now and then with a number outside.
fn step(dice: &mut Dice, gases: Option<&Gases>, now: &State) -> [i64; 4] {
    let left = 23_186 * now.charge.air.clamp(0, 100_000)
        - 32_000 * now.charge.carbon.clamp(0, 50_000)
        - 8_000 * now.charge.hydrogen.clamp(0, 50_000);
    let fuel = left > 0 && dice.below(3) == 0;
    let more = |dice: &mut Dice, each: i64| if fuel { about(dice, 0, left / each / 8) } else { 0 };
    let (carbon, hydrogen) = (more(dice, 32_000), more(dice, 8_000));
    let value = about(dice, 0, 5_000_000);
    let burnt = walk::step_heat(&[carbon, hydrogen, value, 0]);
    let known = gases.filter(|_| now.charge.limits().is_ok() && now.charge.lean().is_ok());
    let q = match (known, burnt, dice.below(30)) {
        (Some(gases), Ok(burnt), 2..) if (200_000..=2_000_000).contains(&now.mk) => {
            let new = Charge {
                air: now.charge.air,
                carbon: now.charge.carbon.saturating_add(carbon).clamp(0, 50_000),
                hydrogen: now.charge.hydrogen.saturating_add(hydrogen).clamp(0, 50_000),
            };
            let mk = dice.from_to(200_000, 2_000_000);
            let q = gases.content(&new, mk) - gases.content(&now.charge, now.mk) - burnt;
            (q + dice.one_of(&[-1, 0, 0, 1, 999_999])).clamp(-MOST, MOST) as i64
        }
        _ => dice.one_of(&[0, 1, -1, MOST as i64, -MOST as i64, MOST as i64 + 1, 1_000_000]),
    };
    [carbon, hydrogen, value, if dice.below(200) == 0 { wild(dice) } else { q }]
}

/// Where one step leads, if it is not refused.
fn after(now: State, sheet: &[u32], step: &[i64]) -> Option<State> {
    let lent = walk::Lent { temperatures: &mut [0], rests: &mut [0], looks: &mut [0; PLACES] };
    match walk::walk(now, sheet, step, lent) {
        Outcome::Done(_, next) => Some(next),
        _ => None,
    }
}

/// So many steps, each from where the ones before lead.
fn steps(dice: &mut Dice, sheet: &[u32], start: State, count: usize) -> Vec<i64> {
    let gases = Gases::of(sheet).ok();
    let mut now = start;
    let mut numbers = Vec::new();
    for _ in 0..count {
        let step = step(dice, gases.as_ref(), &now);
        numbers.extend(step);
        now = after(now, sheet, &step).unwrap_or(now);
    }
    numbers
}

/// So many steps, none of which is refused.
fn good_steps(dice: &mut Dice, sheet: &[u32], start: State, count: usize) -> Vec<i64> {
    let gases = Gases::of(sheet).expect("an accepted sheet");
    let mut now = start;
    let mut numbers = Vec::new();
    while numbers.len() < 4 * count {
        let step = step(dice, Some(&gases), &now);
        if let Some(next) = after(now, sheet, &step) {
            numbers.extend(step);
            now = next;
        }
    }
    numbers
}

#[test]
fn walks_are_alike() {
    let mut dice = dice(921);
    let good = sheets::accepted(&mut dice);
    let (mut done, mut stopped, mut refused) = (0, 0, 0);
    for _ in 0..20_000 {
        let sheet = sheets::drawn(&mut dice, &good);
        let start = State { charge: charge(&mut dice), mk: temperature(&mut dice) };
        let count = dice.one_of(&[0, 1, 1, 1, 2, 3, 5, 8]);
        let mut numbers = steps(&mut dice, &sheet, start, count);
        if dice.below(30) == 0 {
            numbers.push(wild(&mut dice));
        }
        let lengths = [count, count, PLACES * count].map(|needed| length(&mut dice, needed));
        match same_walk(start, &sheet, &numbers, lengths) {
            Ok((_, None, ..)) => done += 1,
            Ok(_) => stopped += 1,
            Err(_) => refused += 1,
        }
    }
    assert!(done > 2_000 && stopped > 1_000 && refused > 2_000, "{done} {stopped} {refused}");
}

#[test]
fn long_walks_are_alike() {
    let mut dice = dice(922);
    let good = sheets::accepted(&mut dice);
    for count in [16, 63, 64, 65, 70].into_iter().cycle().take(300) {
        let sheet = dice.one_of(&good);
        let start = State { charge: Charge { air: 900, carbon: 0, hydrogen: 0 }, mk: 300_000 };
        let numbers = good_steps(&mut dice, &sheet, start, count);
        let more = dice.below(9) as usize;
        let lengths = [count + more, count, PLACES * count + 3 * more];
        let told = same_walk(start, &sheet, &numbers, lengths);
        let whole = told.is_ok_and(|(steps, number, ..)| (steps, number) == (count as u32, None));
        assert_eq!(whole, count <= 64, "{count}");
    }
}
