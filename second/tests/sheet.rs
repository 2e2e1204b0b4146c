//! The gas sheet: its text, the first bad row, the step rule, the built-in sheet, the text written back.

use second::dice::Dice;
use second::refusal::Refusal;
use second::sheet::{built_in, first_bad_byte, first_bad_row, judge, read, text, write, PLACES};
use second::table::table;
use second::trials::sheets::{accepted, bases, limit_texts, random, random_text};

fn at_row<T>(number: u32, row: u32) -> Result<T, Refusal> {
    Err(Refusal { number, row: Some(row) })
}

fn flat(gases: [u32; 3]) -> Vec<u32> {
    gases.repeat(1801)
}

#[test]
fn built_in_sheet() {
    let sheet = built_in();
    assert_eq!(sheet[..6], [4326, 3236, 8776, 4347, 3253, 8820]);
    assert_eq!(judge(&sheet), Ok(()));
    assert_eq!(text(&sheet).len(), 40_164);
    assert_eq!((text(&flat([0; 3])).len(), text(&flat([200_000; 3])).len()), (19_011, 46_026));
}

#[test]
fn good_texts_are_read() {
    let steep: Vec<u32> = (0..PLACES as u32).map(|i| (i * 7919) % 200_001).collect();
    for sheet in [built_in(), flat([0; 3]), flat([200_000; 3]), steep] {
        let mut list = vec![1; PLACES];
        assert_eq!(read(text(&sheet).as_bytes(), &mut list), Ok(()));
        assert_eq!(list, sheet);
    }
}

#[test]
fn first_bad_rows() {
    let good = text(&built_in());
    let last = good.trim_end().rfind('\n').unwrap() + 1;
    let after_row_0 = |more: &str| format!("200\t1\t2\t3\n{more}");
    let cases = [
        (String::new(), 0),
        ("200\t1\t2\t3".into(), 0),
        ("200\t2000".into(), 0),
        (after_row_0(""), 1),
        (good[..last].into(), 1800),
        (good[..good.len() - 1].into(), 1800),
        (format!("{good}\n"), 1801),
        (format!("{good}x"), 1801),
        ("201\t1\t2\t3\n".into(), 0),
        ("2000\t1\t2\t3\n".into(), 0),
        ("2001".into(), 0),
        ("200\t200001\t2\t3\n".into(), 0),
        ("200\t20000".into(), 0),
        ("200\t1999999".into(), 0),
        ("200\t2000000".into(), 0),
        ("200\t00".into(), 0),
        ("200\t01".into(), 0),
        ("200\t\t".into(), 0),
        ("200\t1\t2\n".into(), 0),
        ("200\t1\t2\t3\t".into(), 0),
        ("200\t1\t2\t3\r\n".into(), 0),
        (after_row_0("\n"), 1),
        (after_row_0("202"), 1),
        ("\u{feff}200\t1\t2\t3\n".into(), 0),
        (after_row_0("\0"), 1),
        (after_row_0("201\té"), 1),
        (after_row_0("201\t-1"), 1),
        (after_row_0("201\t+1"), 1),
        (after_row_0("201\t 1"), 1),
    ];
    for (text, row) in cases {
        let mut list = vec![7; PLACES];
        assert_eq!(read(text.as_bytes(), &mut list), at_row(2, row), "{text:?}");
        assert_eq!(list, vec![7; PLACES]);
    }
}

#[test]
fn list_length_comes_before_the_text() {
    for length in [0, PLACES - 1, PLACES + 1] {
        assert_eq!(read(b"bad", &mut vec![0; length]).unwrap_err().number, 1);
        assert_eq!(judge(&vec![200_001; length]).unwrap_err().number, 1);
    }
}

/// Whether a good sheet can follow, byte by byte and from the words alone: some sheet text of a
/// few candidates per field begins so. Kept apart from the reader to hold the two together.
fn can_follow(bytes: &[u8]) -> bool {
    let text = String::from_utf8_lossy(bytes);
    let lines: Vec<&str> = text.split('\n').collect();
    let (begun, whole) = lines.split_last().unwrap();
    let number = |t: &str| t.parse::<u32>().is_ok_and(|n| n <= 200_000 && n.to_string() == t);
    let kelvin = |row: usize| (200 + row).to_string();
    let whole_good = whole.iter().enumerate().all(|(row, line)| {
        let f: Vec<&str> = line.split('\t').collect();
        f.len() == 4 && f[0] == kelvin(row) && f[1..].iter().all(|t| number(t))
    });
    let f: Vec<&str> = begun.split('\t').collect();
    let begun_good = match f.len() {
        1 => kelvin(whole.len()).starts_with(f[0]),
        2..=4 => {
            let (last, before) = f[1..].split_last().unwrap();
            f[0] == kelvin(whole.len())
                && before.iter().all(|t| number(t))
                && (last.is_empty() || number(last))
        }
        _ => false,
    };
    whole_good
        && (if whole.len() < 1801 { begun_good } else { whole.len() == 1801 && begun.is_empty() })
}

#[test]
fn first_bad_row_is_the_row_of_the_first_byte_that_spoils() {
    let bases = [text(&built_in()), text(&flat([0; 3])), text(&flat([200_000; 3]))];
    let mut dice = Dice::new(1);
    for case in 0..600 {
        let mut bytes = bases[case % 3].clone().into_bytes();
        let at = dice.below(bytes.len() as u64 + 1) as usize;
        match dice.below(4) {
            0 => bytes.truncate(at),
            1 => bytes.insert(at, b"0129\t\n\r-x\xff"[dice.below(10) as usize]),
            2 if at < bytes.len() => drop(bytes.remove(at)),
            _ if at < bytes.len() => bytes[at] = b"0129\t\n\r-x\xff"[dice.below(10) as usize],
            _ => {}
        }
        let lengths: Vec<usize> = (1..=bytes.len()).collect();
        let spoilt = lengths.partition_point(|length| can_follow(&bytes[..*length]));
        let row_of = |at: usize| bytes[..at].iter().filter(|b| **b == b'\n').count();
        let expected = match (spoilt < bytes.len(), row_of(bytes.len())) {
            (true, _) => Some(row_of(spoilt)),
            (false, 1801) => None,
            (false, row) => Some(row),
        };
        assert_eq!(first_bad_row(&bytes), expected);
        assert_eq!(first_bad_byte(&bytes), (spoilt < bytes.len()).then_some(spoilt));
    }
}

#[test]
fn step_rule_on_both_sides() {
    for (row, rise) in [(1, 96), (3, 92), (133, 100), (1130, 124)] {
        let stepped = |rise: u32| {
            let mut list = flat([0; 3]);
            (row..1801).for_each(|r| list[3 * r] = rise);
            list
        };
        assert_eq!(judge(&stepped(rise)), Ok(()));
        assert_eq!(judge(&stepped(rise + 1)), at_row(3, row as u32));
    }
}

#[test]
fn bad_rows_of_lists() {
    let changed = |place: usize, value: u32| {
        let mut list = flat([0; 3]);
        list[place] = value;
        judge(&list)
    };
    assert_eq!(changed(0, 200_001), at_row(3, 0));
    assert_eq!(changed(3 * 5 + 1, 200_001), at_row(3, 5));
    assert_eq!(changed(3 * 5 + 1, 200_000), at_row(3, 6));
    assert_eq!(changed(3 * 5 + 1, u32::MAX), at_row(3, 5));
    let mut list = flat([0, 0, 1]);
    list[5402] = 0;
    assert_eq!(judge(&list), at_row(3, 1800));
    assert_eq!(judge(&flat([200_000; 3])), Ok(()));
}

#[test]
fn oxygen_may_rise_four_times_as_air_does() {
    let steep: Vec<u32> =
        table().heat.iter().flat_map(|h| [4 * (h - 4776) as u32, 0, 200_000]).collect();
    assert_eq!(steep[5400], 196_052);
    assert_eq!(judge(&steep), Ok(()));
    for row in 1..1801 {
        let mut over = steep.clone();
        over[3 * row] += 1;
        assert_eq!(judge(&over), at_row(3, row as u32));
    }
}

/// A byte that no text has.
const BLANK: u8 = b'#';

/// A list written into a blank buffer of that length, and the buffer; a refusal leaves it blank.
fn written(list: &[u32], length: usize) -> (Result<usize, Refusal>, Vec<u8>) {
    let mut buffer = vec![BLANK; length];
    let answer = write(list, &mut buffer);
    assert!(answer.is_ok() || buffer == vec![BLANK; length]);
    (answer, buffer)
}

#[test]
fn a_text_is_written_where_it_fits() {
    let mut dice = Dice::new(2);
    let known = [(built_in(), 40_164), (flat([0; 3]), 19_011), (flat([200_000; 3]), 46_026)];
    let others = (0..20).map(|_| random(&mut dice)).chain(accepted());
    let counted = others.map(|list| {
        let n = text(&list).len();
        (list, n)
    });
    for (list, n) in known.into_iter().chain(counted) {
        for length in [0, 1, n - 1] {
            assert_eq!(written(&list, length).0, Err(Refusal::plain(14)), "{length}");
        }
        for length in [n, n + 1, 50_000] {
            let (answer, buffer) = written(&list, length);
            assert_eq!(answer, Ok(n));
            assert!(buffer[..n] == *text(&list).as_bytes());
            assert!(buffer[n..].iter().all(|byte| *byte == BLANK));
        }
    }
}

#[test]
fn the_bytes_of_a_text() {
    let mut list = flat([0, 10, 99_999]);
    list[5402] = 100_000;
    let (answer, buffer) = written(&list, 30_000);
    let rows = (200..2000).map(|kelvin| format!("{kelvin}\t0\t10\t99999\n"));
    let right: String = rows.chain(["2000\t0\t10\t100000\n".to_string()]).collect();
    assert_eq!(answer, Ok(right.len()));
    assert!(buffer.starts_with(right.as_bytes()));
}

#[test]
fn a_writer_refuses_1_then_3_then_14() {
    for length in [0, PLACES - 1, PLACES + 1] {
        for room in [0, 50_000] {
            assert_eq!(written(&vec![200_001; length], room).0, Err(Refusal::plain(1)));
        }
    }
    let (mut over, mut falls) = (flat([0; 3]), flat([7; 3]));
    over[0] = 200_001;
    falls[3 * 300 + 2] = 6;
    for room in [0, 19_010, 19_011, 50_000] {
        assert_eq!(written(&over, room).0, at_row(3, 0));
        assert_eq!(written(&falls, room).0, at_row(3, 300));
    }
    assert_eq!(written(&flat([7; 3]), 0).0, Err(Refusal::plain(14)));
}

#[test]
fn reading_what_was_written_gives_the_list() {
    let mut dice = Dice::new(3);
    for sheet in accepted().into_iter().chain((0..50).map(|_| random(&mut dice))) {
        let (answer, buffer) = written(&sheet, 46_026);
        let mut list = vec![1; PLACES];
        assert_eq!(read(&buffer[..answer.unwrap()], &mut list), Ok(()));
        assert!(list == sheet);
    }
}

/// A text that is read and keeps the step rule comes back; one that only breaks the rule is refused at its row.
#[test]
fn writing_what_was_read_gives_the_bytes() {
    let (mut dice, bases) = (Dice::new(4), bases());
    let (mut back, mut refused) = (0, 0);
    let any = (0..600).map(|_| random_text(&mut dice, &bases));
    for bytes in limit_texts().into_iter().chain(any) {
        let mut list = vec![1; PLACES];
        if read(&bytes, &mut list).is_err() {
            continue;
        }
        let (answer, buffer) = written(&list, bytes.len());
        match judge(&list) {
            Ok(()) => {
                assert_eq!(answer, Ok(bytes.len()));
                assert!(buffer == bytes);
                back += 1;
            }
            Err(refusal) => {
                assert_eq!((answer, refusal.number), (Err(refusal), 3));
                refused += 1;
            }
        }
    }
    assert!(back > 10 && refused > 10, "{back} {refused}");
}
