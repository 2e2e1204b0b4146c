//! The air table: mending, readings, Cp, the ψ inverse.

use second::air;
use second::inverse::Found;
use second::refusal::Refusal;
use second::table::{table, Mended};

fn temperature(target: i64) -> Result<Found, Refusal> {
    air::temperature(target, &mut [0; 11])
}

#[test]
fn ten_rows_are_mended() {
    let change =
        |kelvin, column, scanned, now| Mended { kelvin, column, scanned: Some(scanned), now };
    let expected = [
        change(521, "psi", -109887, 109887),
        change(859, "H15", 14292, 14302),
        change(1132, "H15", 21735, 21733),
        change(1166, "H15", 22670, 22680),
        change(1256, "H15", 25207, 25209),
        change(1297, "H15", 26360, 26370),
        change(1338, "H15", 27540, 27536),
        change(1394, "H15", 28136, 29136),
        change(1712, "H", 45259, 45257),
        change(1721, "psi", 120331, 130331),
    ];
    assert_eq!(table().mended, expected);
}

#[test]
fn the_mended_table_keeps_the_rules() {
    assert_eq!(table().heat.len(), 1801);
    assert!(table().heat.windows(2).all(|row| row[0] < row[1]));
    assert!(table().psi.windows(2).all(|row| row[0] < row[1]));
}

#[test]
fn suspects_that_break_no_rule_stand() {
    let at = |column: &[i64], kelvin: usize| column[kelvin - 200];
    let psi = [(711, 114855), (715, 114936), (1295, 125134), (1296, 125138)];
    assert!(psi.iter().all(|(kelvin, figure)| at(&table().psi, *kelvin) == *figure));
    let cp = [(1099, 2668), (1147, 2287), (1327, 2946), (1504, 2883)];
    assert!(cp.iter().all(|(kelvin, figure)| at(&table().cp, *kelvin) == *figure));
    assert_eq!(at(&table().heat, 1329), 34164);
}

#[test]
fn p1_to_p3() {
    assert_eq!(air::heat(200_000), Ok(4_776_000));
    assert_eq!(air::heat(200_500), Ok(4_788_000));
    assert_eq!(air::psi(200_500), Ok(95_302_000));
}

#[test]
fn readings_at_the_ends() {
    assert_eq!(air::heat(2_000_000), Ok(53_789_000));
    assert_eq!(air::heat(1_999_999), Ok(53_788_970));
    assert_eq!(air::heat(288_160), Ok(6_886_840));
    assert_eq!(air::psi(200_000), Ok(95_264_000));
    assert_eq!(air::psi(2_000_000), Ok(133_151_000));
    for mk in [199_999, 2_000_001, -1, i64::MIN, i64::MAX] {
        assert_eq!(air::heat(mk), Err(Refusal::plain(6)));
        assert_eq!(air::psi(mk), Err(Refusal::plain(6)));
    }
    assert_eq!((air::cp(200), air::cp(2000)), (Ok(2393), Ok(2986)));
    for kelvin in [199, 2001, 200_000, i64::MIN, i64::MAX] {
        assert_eq!(air::cp(kelvin), Err(Refusal::plain(6)));
    }
}

#[test]
fn psi_inverse_at_the_ends() {
    let looks = vec![1100, 650, 425, 312, 256, 228, 214, 207, 203, 201];
    assert_eq!(temperature(95_264_000), Ok(Found { mk: 200_000, rest: 0, looks: looks.clone() }));
    assert_eq!(temperature(95_302_000), Ok(Found { mk: 200_500, rest: 0, looks }));
    assert_eq!(temperature(133_151_000), Ok(Found { mk: 2_000_000, rest: 0, looks: vec![] }));
    for target in [95_263_999, -1, i64::MIN] {
        assert_eq!(temperature(target), Err(Refusal::plain(8)));
    }
    for target in [133_151_001, i64::MAX] {
        assert_eq!(temperature(target), Err(Refusal::plain(9)));
    }
}

#[test]
fn psi_inverse_is_the_greatest_temperature_of_all() {
    let readings: Vec<i64> = (200_000..=2_000_000).map(|mk| air::psi(mk).unwrap()).collect();
    assert!(readings.windows(2).all(|mk| mk[0] < mk[1]));
    for target in (95_264_000..=133_151_000).step_by(9_973) {
        let scanned = readings.iter().rposition(|psi| *psi <= target).unwrap() as i64 + 200_000;
        let found = temperature(target).unwrap();
        assert_eq!(
            (found.mk, found.rest),
            (scanned, (target - readings[(scanned - 200_000) as usize]).into())
        );
        assert!([10, 11].contains(&found.looks.len()) || target == 133_151_000);
    }
}

#[test]
fn looks_go_to_the_first_eleven_places() {
    let mut long = [7; 14];
    air::temperature(95_302_000, &mut long).unwrap();
    assert_eq!(long, [1100, 650, 425, 312, 256, 228, 214, 207, 203, 201, 0, 7, 7, 7]);
    air::temperature(133_151_000, &mut long).unwrap();
    assert_eq!(long, [0, 0, 0, 0, 0, 0, 0, 0, 0, 0, 0, 7, 7, 7]);
    let mut short = [7; 10];
    assert_eq!(air::temperature(0, &mut short), Err(Refusal::plain(10)));
    assert_eq!(short, [7; 10]);
}

#[test]
fn ten_or_eleven_looks() {
    let looks = |k: i64| temperature(air::psi(1000 * k).unwrap()).unwrap().looks.len();
    let ten = (200..2000).filter(|k| looks(*k) == 10).count();
    let eleven = (200..2000).filter(|k| looks(*k) == 11).count();
    assert_eq!((ten, eleven), (248, 1552));
}
