//! Burning, gas heat, contents, temperature from heat.

use second::dice::Dice;
use second::gas::{
    burn, content, gas_heat, specific_content, temperature, Charge, Gases, Products,
};
use second::inverse::Found;
use second::refusal::Refusal;
use second::sheet::built_in;
use second::table::table;
use second::trials::gas::lean_charge;
use second::trials::{halves, sheets};

fn charge(air: i64, carbon: i64, hydrogen: i64) -> Charge {
    Charge { air, carbon, hydrogen }
}

fn flat(gases: [u32; 3]) -> Vec<u32> {
    gases.repeat(1801)
}

/// Sheets that are accepted and as unlike one another as can be.
fn accepted_sheets() -> Vec<Vec<u32>> {
    let steep = table().heat.iter().flat_map(|h| [4 * (h - 4776) as u32, 0, 0]).collect();
    let jump = |kelvin: usize| {
        let step = |row: usize| if row + 200 > kelvin { 200_000 } else { 0 };
        (0..1801).flat_map(|row| [0, step(row), 200_000]).collect()
    };
    vec![built_in(), flat([0; 3]), flat([200_000, 0, 0]), steep, jump(200), jump(1000)]
}

#[test]
fn p4_to_p7() {
    let products = Products { co2: 44_011, h2o: 36_032, o2: 5_558, n2: 226_389, ar: 4_053 };
    assert_eq!(burn(&charge(3, 1, 4)), Ok(products));
    assert_eq!(charge(3, 1, 4).total_mass(), 316_043);
    assert_eq!(burn(&charge(2, 1, 4)), Err(Refusal::plain(5)));
    assert_eq!(burn(&charge(4000, 0, 11_593)).map(|p| p.o2), Ok(0));
    assert_eq!(burn(&charge(4000, 0, 11_594)), Err(Refusal::plain(5)));
}

#[test]
fn p8_to_p10_with_the_looks_of_p8() {
    for sheet in accepted_sheets() {
        let ask = |target| {
            let mut looks = [7; 12];
            let found = temperature(&charge(1, 0, 0), target, &sheet, &mut looks).unwrap();
            assert_eq!(looks, [1100, 650, 425, 312, 256, 228, 214, 207, 203, 201, 0, 7]);
            (found.mk, found.rest)
        };
        assert_eq!(ask(478_800_000_000), (200_500, 0));
        assert_eq!(ask(478_802_399_999), (200_500, 2_399_999));
        assert_eq!(ask(478_802_400_000), (200_501, 0));
    }
}

#[test]
fn four_comes_before_five() {
    for bad in
        [(0, 50_000, 0), (1, 50_001, 0), (1, 0, 50_001), (1, -1, 0), (1, 0, -1), (100_001, 0, 0)]
    {
        assert_eq!(burn(&charge(bad.0, bad.1, bad.2)), Err(Refusal::plain(4)));
    }
    assert_eq!(burn(&charge(1, 50_000, 0)), Err(Refusal::plain(5)));
    assert_eq!(burn(&charge(i64::MIN, i64::MAX, i64::MAX)), Err(Refusal::plain(4)));
}

#[test]
fn mass_and_elements_balance() {
    for (a, c, h) in [(1, 0, 0), (3, 1, 4), (100_000, 50_000, 50_000), (86_259, 50_000, 50_000)] {
        let p = burn(&charge(a, c, h)).unwrap();
        let [a, c, h] = [a, c, h].map(i128::from);
        assert_eq!(p.co2 + p.h2o + p.o2 + p.n2 + p.ar, 100_000 * a + 12_011 * c + 1_008 * h);
        assert_eq!(
            charge(a as i64, c as i64, h as i64).total_mass(),
            p.co2 + p.h2o + p.o2 + p.n2 + p.ar
        );
        assert_eq!((p.co2 - 12_011 * c) + (p.h2o - 1_008 * h) + p.o2, 23_186 * a);
    }
}

#[test]
fn order_of_a_call_with_a_sheet() {
    let mut bad = flat([0; 3]);
    bad[0] = 200_001;
    let of_row_0 = Refusal { number: 3, row: Some(0) };
    assert_eq!(gas_heat(&charge(0, 0, 0), 199_999, &bad), Err(of_row_0));
    assert_eq!(gas_heat(&charge(0, 0, 0), 199_999, &bad[1..]), Err(Refusal::plain(1)));
    assert_eq!(gas_heat(&charge(0, 0, 0), 199_999, &flat([0; 3])), Err(Refusal::plain(4)));
    assert_eq!(gas_heat(&charge(1, 1, 0), 199_999, &flat([0; 3])), Err(Refusal::plain(5)));
    assert_eq!(gas_heat(&charge(1, 0, 0), 199_999, &flat([0; 3])), Err(Refusal::plain(6)));
    let ask = |a, c, target, places: usize| {
        let mut looks = vec![7; places];
        let refused = temperature(&charge(a, c, 0), target, &flat([0; 3]), &mut looks).unwrap_err();
        assert_eq!(looks, vec![7; places]);
        refused.number
    };
    assert_eq!((ask(0, 0, 0, 10), ask(0, 0, 0, 11), ask(1, 1, 0, 11)), (10, 4, 5));
    assert_eq!((ask(1, 0, i64::MAX, 11), ask(1, 0, i64::MIN, 11)), (9, 8));
}

#[test]
fn greatest_and_least_gas_heats() {
    let all = charge(100_000, 50_000, 50_000);
    let least = charge(86_259, 50_000, 50_000);
    assert_eq!(
        gas_heat(&all, 2_000_000, &flat([0, 200_000, 200_000])),
        Ok(1_068_080_000_000_000_000)
    );
    assert_eq!(gas_heat(&least, 200_000, &flat([200_000, 0, 0])), Ok(-358_802_701_600_000_000));
    assert_eq!(gas_heat(&charge(1, 0, 2), 200_000, &flat([200_000, 0, 0])), Ok(-2_722_400_000_000));
}

#[test]
fn contents_and_specific_contents() {
    let air = charge(1, 0, 0);
    assert_eq!(content(&air, 300_000, &flat([0; 3])), Ok(28_316_000_000));
    assert_eq!(specific_content(&air, 300_000, &built_in()), Ok(283_160));
    assert_eq!(content(&charge(1, 0, 1), 200_000, &flat([0; 3])), Ok(-211_084_000_000));
    assert_eq!(specific_content(&charge(1, 0, 1), 200_000, &flat([0; 3])), Ok(-2_089_775));
    assert_eq!(specific_content(&charge(1, 0, 1), 288_159, &flat([0; 3])), Ok(-24));
    assert_eq!(content(&charge(3, 1, 4), 288_160, &built_in()), Ok(0));
    let jump: Vec<u32> =
        (0..1801).flat_map(|row| [0, if row > 0 { 200_000 } else { 0 }, 0]).collect();
    assert_eq!(specific_content(&charge(32_000, 23_186, 0), 200_000, &jump), Ok(-60_613_277));
}

/// Ties of A 1, h 2: mK, how many halves of the mass the content is, and the specific contents one mK below, there and one mK above.
fn ties(sheet: &[u32], ties: &[(i64, i128, [i128; 3])]) {
    let two = charge(1, 0, 2);
    assert_eq!(two.total_mass(), 102_016);
    for (mk, halves, about) in ties {
        assert_eq!(content(&two, *mk, sheet), Ok(halves * 51_008), "{mk}");
        let specific = [mk - 1, *mk, mk + 1].map(|mk| specific_content(&two, mk, sheet).unwrap());
        assert_eq!((specific, specific[1] % 2), (*about, 0), "{mk}");
    }
}

#[test]
fn ties_go_to_the_even_number() {
    ties(
        &flat([0; 3]),
        &[
            (202_494, -4_021_875, [-2_010_960, -2_010_938, -2_010_915]),
            (272_394, -740_625, [-370_335, -370_312, -370_290]),
            (292_082, 184_375, [92_165, 92_188, 92_210]),
            (411_666, 5_828_125, [2_914_038, 2_914_062, 2_914_087]),
        ],
    );
    ties(
        &built_in(),
        &[
            (221_122, -3_742_225, [-1_871_141, -1_871_112, -1_871_084]),
            (227_870, -3_364_155, [-1_682_106, -1_682_078, -1_682_049]),
            (293_146, 276_435, [138_189, 138_218, 138_246]),
            (317_222, 1_621_525, [810_734, 810_762, 810_791]),
            (403_698, 6_479_615, [3_239_780, 3_239_808, 3_239_835]),
        ],
    );
}

/// Twice the content is one more or one less than an odd multiple of an odd mass: no even number is near enough.
#[test]
fn half_a_unit_beside_a_tie_goes_to_the_odd_number() {
    let beside = [
        (charge(3, 1, 4), 248_116, -2_089_019, 1, -1_044_509),
        (charge(4, 1, 2), 243_292, -2_206_709, -1, -1_103_355),
        (charge(3, 1, 4), 404_894, 6_173_499, -1, 3_086_749),
        (charge(3, 1, 4), 660_124, 20_242_717, 1, 10_121_359),
        (charge(6, 3, 4), 658_537, 19_165_957, 1, 9_582_979),
    ];
    for (gas, mk, halves, over, odd) in beside {
        let twice = 2 * content(&gas, mk, &built_in()).unwrap();
        assert_eq!(twice, halves * gas.total_mass() + over, "{mk}");
        assert_eq!(specific_content(&gas, mk, &built_in()), Ok(odd), "{mk}");
    }
}

/// The definition: 2 |content − q mass| is at most the mass, and if it is the mass, q is even.
#[test]
fn specific_contents_are_the_nearest_whole_numbers() {
    let mut dice = Dice::new(2);
    let random: Vec<Vec<u32>> = (0..6).map(|_| sheets::random(&mut dice)).collect();
    let mut ties = [0; 2];
    for sheet in accepted_sheets().iter().chain(&random) {
        let gases = Gases::of(sheet).unwrap();
        let mut states = halves::states(&mut dice, &gases);
        for _ in 0..3000 {
            let [air, carbon, hydrogen] = lean_charge(&mut dice);
            states.push([air, carbon, hydrogen, dice.from_to(200_000, 2_000_000)]);
        }
        for [air, carbon, hydrogen, mk] in states {
            let gas = charge(air, carbon, hydrogen);
            let (content, mass) = (gases.content(&gas, mk), gas.total_mass());
            let q = gases.specific_content(&gas, mk);
            let twice = 2 * (content - q * mass).abs();
            assert!(twice < mass || twice == mass && q % 2 == 0, "{gas:?} {mk} {q}");
            ties[(content < 0) as usize] += (twice == mass) as u32;
        }
    }
    assert!(ties.iter().all(|many| *many > 100), "{ties:?}");
}

#[test]
fn greatest_and_least_contents() {
    let all = charge(100_000, 50_000, 50_000);
    let steam = |row: usize| if row > 0 { 200_000 } else { 0 };
    let early: Vec<u32> = (0..1801).flat_map(|row| [0, steam(row), steam(row)]).collect();
    assert_eq!(content(&all, 200_000, &early), Ok(-551_298_400_000_000_000));
    let steam = |row: usize| if row > 89 { 200_000 } else { 0 };
    let late: Vec<u32> = (0..1801).flat_map(|row| [0, steam(row), steam(row)]).collect();
    assert_eq!(content(&all, 2_000_000, &late), Ok(999_211_600_000_000_000));
    assert_eq!(specific_content(&charge(32_000, 23_186, 0), 2_000_000, &late), Ok(101_818_612));
}

#[test]
fn temperature_at_the_ends() {
    let air = charge(1, 0, 0);
    let ask = |target| temperature(&air, target, &built_in(), &mut [0; 11]);
    let (coldest, hottest) = (477_600_000_000, 5_378_900_000_000);
    assert_eq!(ask(coldest).map(|f| (f.mk, f.rest, f.looks.len())), Ok((200_000, 0, 10)));
    assert_eq!(ask(coldest - 1), Err(Refusal::plain(8)));
    assert_eq!(ask(hottest), Ok(Found { mk: 2_000_000, rest: 0, looks: vec![] }));
    assert_eq!(ask(hottest + 1), Err(Refusal::plain(9)));
    let looks = vec![1100, 1550, 1775, 1887, 1943, 1971, 1985, 1992, 1996, 1998, 1999];
    assert_eq!(ask(hottest - 1), Ok(Found { mk: 1_999_999, rest: 2_999_999, looks }));
    let middle = 100_000_000 * table().heat[900];
    let looks = vec![1100, 1550, 1325, 1212, 1156, 1128, 1114, 1107, 1103, 1101];
    assert_eq!(ask(middle), Ok(Found { mk: 1_100_000, rest: 0, looks }));
}

#[test]
fn gas_heat_rises_and_the_temperature_is_the_greatest_of_all() {
    for (sheet, gas) in accepted_sheets()
        .iter()
        .zip([charge(3, 1, 4), charge(100_000, 50_000, 50_000)].iter().cycle())
    {
        let gases = Gases::of(sheet).unwrap();
        let heats: Vec<i128> = (200_000..=2_000_000).map(|mk| gases.heat(gas, mk)).collect();
        assert!(heats.windows(2).all(|mk| mk[0] < mk[1]));
        let dearest = heats.windows(2).map(|mk| mk[1] - mk[0]).max().unwrap();
        assert_eq!(gases.dearest(gas), dearest);
        for i in (0..heats.len() - 1).step_by(14_983) {
            let target = heats[i] + (heats[i + 1] - heats[i]) / 2;
            let found = temperature(gas, target as i64, sheet, &mut [0; 11]).unwrap();
            assert_eq!((found.mk, found.rest), (200_000 + i as i64, target - heats[i]));
            assert!(found.rest < dearest);
        }
    }
}

#[test]
fn dearest_thousandth_of_all() {
    let gas = |row: usize| if row < 1130 { 0 } else { 200_000 };
    let jump: Vec<u32> = (0..1801).flat_map(|row| [0, gas(row), gas(row)]).collect();
    let gases = Gases::of(&jump).unwrap();
    assert_eq!(gases.dearest(&charge(100_000, 50_000, 50_000)), 530_500_000_000_000);
}
