//! Station figures, differences, marks.

use second::dice::Dice;
use second::gas::Charge;
use second::marking::{difference, mark, station, Station, Typed};
use second::refusal::Refusal;
use second::sheet::built_in;

use Typed::{Blank, Content, Kelvins};

fn counts(typed: Typed, key: i64, window: i64) -> bool {
    mark(typed, key, window).unwrap()
}

fn refused(typed: Typed, key: i64, window: i64) -> u32 {
    mark(typed, key, window).unwrap_err().number
}

#[test]
fn marks_that_a_float_product_would_miss() {
    assert_eq!(0.1f64.to_bits(), 0x3fb999999999999a);
    assert!(
        !counts(Kelvins(0.1), 100, 0)
            && !counts(Kelvins(0.1), 99, 1)
            && counts(Kelvins(0.1), 101, 1)
    );
    assert!(
        !counts(Kelvins(0.3), 300, 0)
            && !counts(Kelvins(0.3), 301, 1)
            && counts(Kelvins(0.3), 299, 1)
    );
    let x = Kelvins(288.16);
    assert!(!counts(x, 288_160, 0) && !counts(x, 288_159, 1) && counts(x, 288_161, 1));
    let x = Content(0.00001);
    assert!(!counts(x, 1, 0) && !counts(x, 0, 1) && counts(x, 2, 1));
    let x = Content(-21.11);
    assert!(!counts(x, -2_111_000, 0) && !counts(x, -2_111_001, 1) && counts(x, -2_110_999, 1));
    assert!(counts(Kelvins(200.5), 200_500, 0) && counts(Content(0.03125), 3125, 0));
}

#[test]
fn marks_far_out() {
    let next = |x: f64| f64::from_bits(x.to_bits() + 1);
    let far = 1_000_000_000_000;
    assert!(
        counts(Content(10_000_001.0), far, 100_000)
            && !counts(Content(next(10_000_001.0)), far, 100_000)
    );
    let x = 1_000_000_100.0;
    assert!(counts(Kelvins(x), far, 100_000) && !counts(Kelvins(next(x)), far, 100_000));
    for x in [9_007_199_254_740_992.0, f64::MAX, -f64::MAX] {
        assert!(!counts(Kelvins(x), far, 100_000) && !counts(Content(x), -far, 100_000));
    }
}

#[test]
fn marks_close_to_zero() {
    for tiny in [f64::from_bits(1), f64::MIN_POSITIVE] {
        for (sign, x) in [(1, tiny), (-1, -tiny)] {
            assert!(!counts(Kelvins(x), 0, 0) && counts(Kelvins(x), 0, 1));
            assert!(!counts(Content(x), -sign, 1) && counts(Content(x), sign, 1));
        }
    }
    assert!(counts(Kelvins(0.0), 0, 0) && counts(Content(-0.0), 0, 0));
}

#[test]
fn twelve_comes_before_eleven() {
    let far = 1_000_000_000_000;
    assert_eq!(refused(Kelvins(f64::NAN), 0, 100_001), 12);
    assert_eq!(
        (refused(Blank, 0, -1), refused(Blank, far + 1, 0), refused(Blank, -far - 1, 0)),
        (12, 12, 12)
    );
    assert_eq!((refused(Blank, far, 0), refused(Blank, -far, 100_000)), (11, 11));
    for bits in
        [0x7ff0 << 48, 0xfff0 << 48, 0x7ff8 << 48, 0xfff8 << 48, (0x7ff0 << 48) + 1, u64::MAX]
    {
        assert_eq!(refused(Content(f64::from_bits(bits)), 0, 0), 11);
    }
}

/// scale·x against key ± window with every number written out in binary, lowest digit first,
/// 2^-1074 being the unit.
fn counts_in_binary(scale: u64, x: f64, key: i64, window: i64) -> bool {
    let unsigned = |whole: u64, up: usize| -> Vec<bool> {
        let digits = (0..64).map(|i| whole >> i & 1 == 1);
        let mut number: Vec<bool> = vec![false; up].into_iter().chain(digits).collect();
        number.resize(2400, false);
        number
    };
    let add = |a: &[bool], b: &[bool]| {
        let mut carry = false;
        let mut digit = |(a, b): (&bool, &bool)| {
            let sum = *a as u8 + *b as u8 + carry as u8;
            carry = sum > 1;
            sum % 2 == 1
        };
        a.iter().zip(b).map(&mut digit).collect::<Vec<bool>>()
    };
    let bits = x.to_bits();
    let (biased, fraction) = ((bits >> 52 & 0x7ff) as usize, bits & ((1 << 52) - 1));
    let significand = if biased == 0 { fraction } else { fraction + (1 << 52) };
    let mut size = unsigned(0, 0);
    for i in (0..20).filter(|i| scale >> i & 1 == 1) {
        size = add(&size, &unsigned(significand, biased.max(1) - 1 + i));
    }
    // |±size − key| ≤ window, for a key of the other sign mirrored: −window ≤ size − key ≤ window.
    let key = if bits >> 63 == 1 { -key } else { key };
    let whole = |n: i64| unsigned(n.unsigned_abs(), 1074);
    let greater = |a: &[bool], b: &[bool]| a.iter().rev().gt(b.iter().rev());
    let (low, high) = (key - window, key + window);
    let above_low = low <= 0 || !greater(&whole(low), &size);
    let below_high = high >= 0 && !greater(&size, &whole(high));
    above_low && below_high
}

#[test]
fn marks_are_exact() {
    let mut dice = Dice::new(5);
    let mut counted = 0;
    for i in 0..20_000 {
        let key = dice.from_to(-1_000_000_000_000, 1_000_000_000_000) >> dice.below(42);
        let window = dice.from_to(0, 100_000) >> dice.below(18);
        let scale = dice.one_of(&[1000u64, 100_000]);
        let edge = dice.one_of(&[key - window, key + window]) as f64 / scale as f64;
        let beside = edge.to_bits().wrapping_add_signed(dice.from_to(-2, 2));
        let x = f64::from_bits(if i % 5 == 0 { dice.bits() } else { beside });
        if x.is_finite() {
            let typed = if scale == 1000 { Kelvins(x) } else { Content(x) };
            assert_eq!(
                counts(typed, key, window),
                counts_in_binary(scale, x, key, window),
                "{x} {key} {window}"
            );
            counted += counts(typed, key, window) as u32;
        }
    }
    assert!(counted > 5000, "{counted}");
}

#[test]
fn station_figures() {
    let charge = Charge { air: 1000, carbon: 215, hydrogen: 414 };
    let figure = station(&charge, 1_465_691, &built_in()).unwrap();
    assert_eq!((figure.mk, figure.total_mass), (1_465_691.0, 102_999_677.0));
    let zero = station(&charge, 288_160, &built_in()).unwrap();
    assert_eq!(zero.specific_content.to_bits(), 0);
    assert_eq!(difference(figure.mk, zero.mk), 1_177_531.0);
    assert_eq!(difference(zero.mk, zero.mk).to_bits(), 0);
    assert_eq!(station(&charge, 0, &built_in()), Err::<Station, _>(Refusal::plain(6)));
}
