//! Specific contents half way between two whole numbers, or as close to half way as the charge lets them lie.

use std::cmp::Ordering;
use std::collections::BTreeMap;

use crate::answer::fields;
use crate::dice::Dice;
use crate::gas::{Charge, Gases};
use crate::trials::gas::lean_charge;

/// How a specific content lies: whether it is negative, whether the whole number below it is odd, and
/// how it stands to the half above that number.
type Kind = (bool, bool, Ordering);

/// Temperatures, in mK, that are equally far from a half.
struct Closest {
    far: i64,
    mks: Vec<i64>,
}

/// The specific content and the station of each of the states below.
pub fn requests(dice: &mut Dice, gases: &Gases) -> Vec<String> {
    let of = |at: &[i64; 4]| ["specific-content", "station"].map(|word| fields(word, at));
    states(dice, gases).iter().flat_map(of).collect()
}

/// Charges at temperatures (A, c, h, mK), over an accepted sheet: for each kind some of those closest
/// to a half, and one mK below and above each tie.
pub fn states(dice: &mut Dice, gases: &Gases) -> Vec<[i64; 4]> {
    let mut states = Vec::new();
    for small in charges(dice) {
        let closest = closest(dice, gases, &small);
        let [air, carbon, hydrogen] = multiple(dice, &small);
        for ((.., side), Closest { mks, .. }) in closest {
            for _ in 0..3 {
                let mk = dice.one_of(&mks);
                let beside = if side.is_eq() { &[-1, 0, 1][..] } else { &[0] };
                states.extend(beside.iter().map(|off| [air, carbon, hydrogen, mk + off]));
            }
        }
    }
    states
}

/// One with ties and two of odd mass that are always asked, two with ties, and any.
fn charges(dice: &mut Dice) -> [[i64; 3]; 6] {
    let ties = [0, 16].map(|carbon| with_ties(dice, carbon));
    [[1, 0, 2], [3, 1, 4], [6, 3, 4], ties[0], ties[1], lean_charge(dice)]
}

/// A small charge that has ties: with c a multiple of 16 every content and the mass are multiples of
/// 16, and the mass is one of 32 where c / 16 and h are both odd or both even.
fn with_ties(dice: &mut Dice, carbon: i64) -> [i64; 3] {
    let least = (32_000 * carbon + 16_000) / 23_186 + 1;
    let air = least + dice.from_to(0, 2);
    let most = (23_186 * air - 32_000 * carbon) / 8000;
    let pairs = dice.from_to(0, most / 2 - 1);
    [air, carbon, 2 * pairs + if carbon == 0 { 2 } else { 1 }]
}

/// The charge, or a multiple of it: that has the same specific contents.
fn multiple(dice: &mut Dice, small: &[i64; 3]) -> [i64; 3] {
    let most =
        small.iter().zip([100_000, 50_000, 50_000]).map(|(n, limit)| limit / n.max(&1)).min();
    let times = dice.from_to(1, most.expect("there are three"));
    let times = dice.one_of(&[1, times]);
    small.map(|n| times * n)
}

/// For each kind the temperatures closest to a half, in the kelvins below 15 °C and as many above it.
fn closest(dice: &mut Dice, gases: &Gases, small: &[i64; 3]) -> BTreeMap<Kind, Closest> {
    let [air, carbon, hydrogen] = *small;
    let charge = Charge { air, carbon, hydrogen };
    let mass = charge.total_mass() as i64;
    let above = dice.from_to(289, 1912);
    let mut closest = BTreeMap::new();
    for kelvin in (200..288).chain(above..above + 88) {
        let content = |mk: i64| gases.content(&charge, mk) as i64;
        let first = content(1000 * kelvin);
        let rise = content(1000 * kelvin + 1) - first;
        for up in 0..1000 {
            let content = first + up * rise;
            let far = 2 * content.rem_euclid(mass) - mass;
            if far.abs() <= mass / 1000 {
                let odd = content.div_euclid(mass) % 2 != 0;
                let kind = (content < 0, odd, far.cmp(&0));
                keep(&mut closest, kind, far.abs(), 1000 * kelvin + up);
            }
        }
    }
    closest
}

fn keep(closest: &mut BTreeMap<Kind, Closest>, kind: Kind, far: i64, mk: i64) {
    let kept = closest.entry(kind).or_insert(Closest { far, mks: Vec::new() });
    if far < kept.far {
        *kept = Closest { far, mks: Vec::new() };
    }
    if far == kept.far {
        kept.mks.push(mk);
    }
}
