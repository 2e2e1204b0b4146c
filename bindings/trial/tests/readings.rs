//! air_heat, air_psi, air_cp, burn, gas_heat, content, specific_content and the built-in sheet.

use gaskeys::{raw, Millikelvin, State};
use second::gas::{self, Charge, Gases, Products};
use second::sheet::{self, PLACES};
use second::trials::halves;
use second::{air, refusal};
use trial::charges::{about, charge, temperature, wild, wrapped};
use trial::lent::Lent;
use trial::{dice, first, other, sheets, Refused};

/// A reading as both sides have it.
fn read(answer: Result<i64, refusal::Refusal>) -> Result<u64, Refused> {
    other(answer).map(|reading| reading as u64)
}

fn same_readings(mk: i64) {
    assert_eq!(first(gaskeys::air_heat(Millikelvin(mk))), read(air::heat(mk)), "{mk}");
    assert_eq!(first(gaskeys::air_psi(Millikelvin(mk))), read(air::psi(mk)), "{mk}");
}

#[test]
fn air_is_read_alike() {
    let mut dice = dice(941);
    for kelvin in 199..=2_001 {
        for mk in [-1, 0, 1, 499, 500, 999] {
            same_readings(1_000 * kelvin + mk);
        }
        assert_eq!(first(gaskeys::air_cp(kelvin)), read(air::cp(kelvin)), "{kelvin}");
    }
    for _ in 0..200_000 {
        same_readings(temperature(&mut dice));
        let kelvin = wild(&mut dice);
        assert_eq!(first(gaskeys::air_cp(kelvin)), read(air::cp(kelvin)), "{kelvin}");
    }
}

fn same_products(charge: Charge) {
    let answer = first(gaskeys::burn(wrapped(charge)));
    let answer = answer.map(|p| [p.co2, p.h2o, p.o2, p.n2, p.ar].map(i128::from));
    let masses = |p: Products| [p.co2, p.h2o, p.o2, p.n2, p.ar];
    assert_eq!(answer, other(gas::burn(&charge)).map(masses), "{charge:?}");
}

#[test]
fn charges_burn_alike() {
    let mut dice = dice(942);
    for air in [0, 1, 100_000, 100_001] {
        for carbon in [-1, 0, 50_000, 50_001] {
            for hydrogen in [-1, 0, 50_000, 50_001] {
                same_products(Charge { air, carbon, hydrogen });
            }
        }
    }
    for hydrogen in [11_593, 11_594] {
        same_products(Charge { air: 4_000, carbon: 0, hydrogen });
    }
    for _ in 0..200_000 {
        same_products(charge(&mut dice));
    }
}

#[test]
fn heats_are_alike() {
    let mut dice = dice(943);
    let good = sheets::accepted(&mut dice);
    let (mut told, mut refused) = (0, 0);
    for _ in 0..30_000 {
        let sheet = sheets::drawn(&mut dice, &good);
        let charge = charge(&mut dice);
        let mk = match dice.below(4) {
            0 => about(&mut dice, 288_100, 288_220),
            _ => temperature(&mut dice),
        };
        let at = State { charge: wrapped(charge), temperature: Millikelvin(mk) };
        let heat = first(gaskeys::gas_heat(at, &sheet)).map(|heat| heat.0.into());
        let content = first(gaskeys::content(at, &sheet)).map(|heat| heat.0.into());
        let specific = first(gaskeys::specific_content(at, &sheet)).map(i128::from);
        assert_eq!(heat, other(gas::gas_heat(&charge, mk, &sheet)), "{charge:?} {mk}");
        assert_eq!(content, other(gas::content(&charge, mk, &sheet)), "{charge:?} {mk}");
        let expected = other(gas::specific_content(&charge, mk, &sheet));
        assert_eq!(specific, expected, "{charge:?} {mk}");
        told += heat.is_ok() as u32;
        refused += heat.is_err() as u32;
    }
    assert!(told > 10_000 && refused > 1_000, "{told} {refused}");
}

/// A charge at a temperature, for both sides.
fn state(air: i64, carbon: i64, hydrogen: i64, mk: i64) -> (Charge, State) {
    let charge = Charge { air, carbon, hydrogen };
    (charge, State { charge: wrapped(charge), temperature: Millikelvin(mk) })
}

/// Ties of A 1, h 2, over a sheet of zeros and the built-in one: mK, and the specific contents one mK
/// below, there and one mK above.
const ZEROS: [(i64, [i64; 3]); 4] = [
    (202_494, [-2_010_960, -2_010_938, -2_010_915]),
    (272_394, [-370_335, -370_312, -370_290]),
    (292_082, [92_165, 92_188, 92_210]),
    (411_666, [2_914_038, 2_914_062, 2_914_087]),
];
const BUILT_IN: [(i64, [i64; 3]); 5] = [
    (221_122, [-1_871_141, -1_871_112, -1_871_084]),
    (227_870, [-1_682_106, -1_682_078, -1_682_049]),
    (293_146, [138_189, 138_218, 138_246]),
    (317_222, [810_734, 810_762, 810_791]),
    (403_698, [3_239_780, 3_239_808, 3_239_835]),
];

#[test]
fn ties_go_to_the_even_number() {
    let sheets = [(vec![0; PLACES], &ZEROS[..]), (gaskeys::built_in_sheet(), &BUILT_IN)];
    for (sheet, ties) in sheets {
        for (mk, about) in ties {
            for (mk, expected) in (mk - 1..).zip(about) {
                let (_, at) = state(1, 0, 2, mk);
                assert_eq!(first(gaskeys::specific_content(at, &sheet)), Ok(*expected), "{mk}");
                let content = first(gaskeys::station(at, &sheet)).map(|figures| figures.content);
                assert_eq!(content, Ok(*expected as f64), "{mk}");
            }
        }
    }
}

#[test]
fn specific_contents_about_a_half_are_alike() {
    let mut dice = dice(944);
    let mut ties = [0; 2];
    for sheet in sheets::accepted(&mut dice) {
        let gases = Gases::of(&sheet).expect("an accepted sheet");
        for [air, carbon, hydrogen, mk] in halves::states(&mut dice, &gases) {
            let (charge, at) = state(air, carbon, hydrogen, mk);
            let specific = first(gaskeys::specific_content(at, &sheet)).map(i128::from);
            let expected = other(gas::specific_content(&charge, mk, &sheet));
            assert_eq!(specific, expected, "{charge:?} {mk}");
            let (content, mass) = (gases.content(&charge, mk), charge.total_mass());
            ties[(content < 0) as usize] += ((2 * content).rem_euclid(2 * mass) == mass) as u32;
        }
    }
    assert!(ties.iter().all(|many| *many > 100), "{ties:?}");
}

#[test]
fn the_built_in_sheet_is_the_one_that_is_made() {
    assert_eq!(gaskeys::built_in_sheet(), sheet::built_in());
    for length in [PLACES, 0, 1, PLACES - 1, PLACES + 1, 2 * PLACES] {
        let (mut one, mut two) = (Lent::of(length), Lent::of(length));
        let expected = if length == PLACES {
            two.part().copy_from_slice(&sheet::built_in());
            Ok(())
        } else {
            Err((1, None))
        };
        assert_eq!(first(gaskeys::fill_built_in_sheet(one.part())), expected, "{length}");
        assert_eq!(one, two, "{length}");
    }
}

#[test]
fn a_refusal_has_0_in_every_other_field() {
    let (sheet, mut short) = (gaskeys::built_in_sheet(), [0; 9]);
    // SAFETY: numbers, and Rust slices with their lengths.
    let (burnt, heat, reading, written) = unsafe {
        (
            raw::gaskeys_burn(0, 1, 4),
            raw::gaskeys_gas_heat(1, 0, 0, 199_999, sheet.as_ptr(), sheet.len()),
            raw::gaskeys_air_heat(199_999),
            raw::gaskeys_write_sheet(sheet.as_ptr(), sheet.len(), short.as_mut_ptr(), short.len()),
        )
    };
    assert_eq!((burnt.refusal, burnt.row, burnt.placed), (4, 0, 0));
    assert_eq!([burnt.co2, burnt.h2o, burnt.o2, burnt.n2, burnt.ar], [0; 5]);
    assert_eq!((heat.refusal, heat.row, heat.placed, heat.heat), (6, 0, 0, 0));
    assert_eq!((reading.refusal, reading.row, reading.placed, reading.reading), (6, 0, 0, 0));
    assert_eq!((written.refusal, written.row, written.placed, written.bytes), (14, 0, 0, 0));
}

#[test]
fn the_archive_has_the_wrappers_version() {
    // SAFETY: nothing is passed.
    assert_eq!(unsafe { raw::gaskeys_version_2() }, raw::VERSION);
}
