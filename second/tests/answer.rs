//! The answer lines of `keys ask`.

use second::answer::answer;
use second::refusal::Refusal;
use second::sheet::built_in;

/// The answer over the built-in sheet, tabs shown as spaces on both sides.
fn ask(line: &str) -> String {
    answer(&line.replace(' ', "\t"), Ok(&built_in())).replace('\t', " ")
}

#[test]
fn every_request_has_its_answer() {
    let cases = [
        ("air-heat 200500", "ok 4788000"),
        ("air-psi 200500", "ok 95302000"),
        ("air-cp 2000", "ok 2986"),
        ("air-cp 2001", "refused 6"),
        ("air-temperature 95302000", "ok 200500 0 10 1100 650 425 312 256 228 214 207 203 201"),
        ("air-temperature 133151000", "ok 2000000 0 0"),
        ("burn 3 1 4", "ok 44011 36032 5558 226389 4053"),
        ("burn 2 1 4", "refused 5"),
        ("gas-heat 1 0 0 200500", "ok 478800000000"),
        ("content 1 0 0 300000", "ok 28316000000"),
        ("specific-content 1 0 0 300000", "ok 283160"),
        (
            "temperature 1 0 0 478802399999",
            "ok 200500 2399999 10 1100 650 425 312 256 228 214 207 203 201",
        ),
        ("station 3 1 4 288160", "ok 288160 0 316043"),
        ("walk 1 0 0 300000", "ok 0 1 0 0 300000"),
        ("walk 1 0 0 2000000 0 0 0 0 0 0 0 1", "stopped 1 9 1 0 0 2000000 2000000 0 0"),
        ("walk 1 0 0 300000 1", "refused 13"),
        ("mark kelvins 200.5 200500 0", "counts"),
        ("mark kelvins 0.1 100 0", "misses"),
        ("mark kelvins x3fb999999999999a 101 1", "counts"),
        ("mark content -21.11 -2110999 1", "counts"),
        ("mark content 300 30000000 0", "counts"),
        ("mark blank 0 0", "refused 11"),
        ("mark blank 0 -1", "refused 12"),
    ];
    for (line, reply) in cases {
        assert_eq!(ask(line), reply, "{line}");
    }
}

#[test]
fn a_line_that_is_no_request_is_an_error() {
    let misfits = [
        "air-heat",
        "air-heat 1 2",
        "air-heat x",
        "air-heat 007",
        "air-heat +1",
        "air-heat 9223372036854775808",
        "walk 1 0 0",
        "mark",
        "mark warmly 1 0 0",
        "mark kelvins",
        "mark kelvins 1 2",
        "mark blank 0",
    ];
    let no_numbers = [
        "mark kelvins 1e5 0 0",
        "mark kelvins .5 0 0",
        "mark kelvins 5. 0 0",
        "mark kelvins 1234567890123456 0 0",
        "mark kelvins x12",
    ];
    for line in ["", "heat 1", "Burn 1 0 0", " burn 1 0 0"] {
        assert_eq!(ask(line), "error no such request", "{line}");
    }
    for line in misfits {
        assert_eq!(ask(line), "error the request takes other fields", "{line}");
    }
    for line in no_numbers {
        assert_eq!(ask(line), "error not a number", "{line}");
    }
    assert_eq!(ask("heat\r"), "error the line has a carriage return");
    assert_eq!(ask(&"\r".repeat(65_537)), "error the line is too long");
    assert_eq!(ask(&"\r".repeat(65_536)), "error the line has a carriage return");
}

#[test]
fn a_refused_sheet_refuses_what_needs_a_sheet() {
    let text_refused = Err(Refusal { number: 2, row: Some(17) });
    assert_eq!(answer("gas-heat\t0\t0\t0\t0", text_refused), "refused\t2\t17");
    assert_eq!(answer("walk\t0\t0\t0\t0\t1", text_refused), "refused\t2\t17");
    assert_eq!(answer("burn\t0\t0\t0", text_refused), "refused\t4");
    let mut list = built_in();
    list[30] = 0;
    assert_eq!(answer("station\t0\t0\t0\t0", Ok(&list)), "refused\t3\t10");
    assert_eq!(answer("temperature\t0\t0\t0\t0", Ok(&list[1..])), "refused\t1");
}
