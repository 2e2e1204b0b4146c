//! Both sides of each limit that lent lists have: eleven places of looks, a step's places of a walk, the bytes of a text. A refusal
//! leaves every place, and no call writes past the places that it needs.

use gaskeys::{Heat, Millikelvin, State, Walked};
use second::gas::Charge;
use second::inverse::PLACES;
use second::sheet;
use trial::charges::wrapped;
use trial::lent::Lent;

const AIR: Charge = Charge { air: 1, carbon: 0, hydrogen: 0 };

/// The places of one search that ends at 200,500 mK.
const FOUND: [u32; PLACES] = [1100, 650, 425, 312, 256, 228, 214, 207, 203, 201, 0];

/// A lent list with so many such searches laid into it.
fn looks(length: usize, searches: usize) -> Lent<u32> {
    let mut lent = Lent::of(length);
    let places = FOUND.into_iter().cycle().take(PLACES * searches);
    lent.part().iter_mut().zip(places).for_each(|(place, look)| *place = look);
    lent
}

#[test]
fn an_inverse_takes_eleven_places() {
    let sheet = gaskeys::built_in_sheet();
    for length in [0, 10, 11, 12, 40] {
        let (mut psi, mut heat) = (Lent::of(length), Lent::of(length));
        let of_psi =
            gaskeys::psi_inverse(95_302_001, psi.part()).map(|(t, rest)| (t.0, rest as i64));
        let target = Heat(478_800_000_001);
        let of_heat = gaskeys::temperature(wrapped(AIR), target, &sheet, heat.part());
        let of_heat = of_heat.map(|(t, rest)| (t.0, rest.0));
        for (answer, lent) in [(of_psi, psi), (of_heat, heat)] {
            let short = length < PLACES;
            let right = if short { Err(10) } else { Ok((200_500, 1)) };
            assert_eq!(answer.map_err(|refusal| refusal.number()), right, "{length}");
            assert_eq!(lent, looks(length, if short { 0 } else { 1 }), "{length}");
        }
    }
}

#[test]
fn a_refused_target_leaves_every_place() {
    let sheet = gaskeys::built_in_sheet();
    for (psi, heat, number) in
        [(95_263_999, 477_599_999_999, 8), (133_151_001, 5_378_900_000_001, 9)]
    {
        let mut lent = Lent::of(PLACES);
        assert_eq!(gaskeys::psi_inverse(psi, lent.part()).unwrap_err().number(), number);
        let of_heat = gaskeys::temperature(wrapped(AIR), Heat(heat), &sheet, lent.part());
        assert_eq!(of_heat.unwrap_err().number(), number);
        assert_eq!(lent, Lent::of(PLACES), "{number}");
    }
}

/// A walk of so many zeros with lists of these lengths: the steps done or the refusal, and the
/// places after it.
fn still(numbers: usize, lengths: [usize; 3]) -> (Result<u32, u32>, [Lent<i64>; 2], Lent<u32>) {
    let sheet = gaskeys::built_in_sheet();
    let start = State { charge: wrapped(AIR), temperature: Millikelvin(200_500) };
    let steps = vec![0; numbers];
    let [t, r, l] = lengths;
    let (mut temperatures, mut rests, mut looks) = (Lent::of(t), Lent::of(r), Lent::of(l));
    let lent = gaskeys::Lent {
        temperatures: temperatures.part(),
        rests: rests.part(),
        looks: looks.part(),
    };
    let done = match gaskeys::walk(start, &sheet, &steps, lent) {
        Walked::Done(steps, _) => Ok(steps),
        Walked::Stopped(_, refusal, _) | Walked::Refused(refusal) => Err(refusal.number()),
    };
    (done, [temperatures, rests], looks)
}

#[test]
fn a_walk_takes_its_places() {
    for (numbers, lengths, right) in [
        (256, [64, 64, 704], Ok(64)),
        (256, [63, 64, 704], Err(10)),
        (256, [64, 63, 704], Err(10)),
        (256, [64, 64, 703], Err(10)),
        (256, [66, 67, 720], Ok(64)),
        (255, [64, 64, 704], Err(13)),
        (257, [65, 65, 715], Err(13)),
        (260, [65, 65, 715], Err(13)),
        (0, [0, 0, 0], Ok(0)),
        (0, [1, 1, 11], Ok(0)),
    ] {
        let (done, of_steps, of_looks) = still(numbers, lengths);
        assert_eq!(done, right, "{numbers} {lengths:?}");
        let steps = done.unwrap_or(0) as usize;
        let (mut temperatures, mut rests) = (Lent::of(lengths[0]), Lent::of(lengths[1]));
        temperatures.part()[..steps].fill(200_500);
        rests.part()[..steps].fill(0);
        let after = ([temperatures, rests], looks(lengths[2], steps));
        assert_eq!((of_steps, of_looks), after, "{numbers} {lengths:?}");
    }
}

#[test]
fn a_text_takes_its_bytes() {
    let flat = |gas: u32| vec![gas; gaskeys::SHEET_PLACES];
    for (list, bytes) in
        [(flat(0), 19_011), (gaskeys::built_in_sheet(), 40_164), (flat(200_000), 46_026)]
    {
        for length in [0, bytes - 1, bytes, bytes + 1, 50_000] {
            let (mut lent, mut after) = (Lent::buffer(length), Lent::buffer(length));
            let right = if length < bytes { Err(14) } else { Ok(bytes) };
            if right.is_ok() {
                after.part()[..bytes].copy_from_slice(sheet::text(&list).as_bytes());
            }
            let answer = gaskeys::write_sheet(&list, lent.part());
            assert_eq!(answer.map_err(|refusal| refusal.number()), right, "{length}");
            assert_eq!(lent, after, "{length}");
        }
    }
}
