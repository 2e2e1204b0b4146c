//! A sheet that arrives in pieces: held against the whole text that has come so far, and the readings of the request by hand.

use second::dice::Dice;
use second::pieces::{Progress, Reading};
use second::refusal::Refusal;
use second::sheet::{built_in, first_bad_byte, first_bad_row, read, text, PLACES};
use second::trials::pieces::{cut, lengths};
use second::trials::sheets::{bases, limit_texts, random_text, small_texts};

fn at_row<T>(row: usize) -> Result<T, Refusal> {
    Err(Refusal { number: 2, row: Some(row as u32) })
}

fn feeds(text: &[u8]) -> usize {
    text.iter().filter(|byte| **byte == b'\n').count()
}

/// What a list of sevens holds once a text has come: the rows that are whole before the first bad byte.
fn filled(text: &[u8]) -> Vec<u32> {
    let good = &text[..first_bad_byte(text).unwrap_or(text.len())];
    let whole = String::from_utf8(good.to_vec()).unwrap();
    let rows = whole.split_inclusive('\n').filter(|line| line.ends_with('\n'));
    let gases = rows.flat_map(|line| line.trim_end().split('\t').skip(1));
    let numbers: Vec<u32> = gases.map(|gas| gas.parse().unwrap()).collect();
    let sevens = vec![7; PLACES - numbers.len()];
    [numbers, sevens].concat()
}

/// Reads a text in these pieces, each call held against the text so far, and the end against the text in one.
fn same_as_in_one(text: &[u8], pieces: &[&[u8]]) {
    let (mut reading, mut list, mut come) = (Reading::open(), vec![7; PLACES], Vec::new());
    for piece in pieces {
        come.extend_from_slice(piece);
        let bad = first_bad_byte(&come).map(|at| at_row(feeds(&come[..at])));
        assert_eq!(reading.piece(piece, &mut list), bad.unwrap_or(Ok(Progress::More)));
        assert!(list == filled(&come));
    }
    let mut in_one = vec![7; PLACES];
    let answer = read(text, &mut in_one);
    assert_eq!(reading.close(&list), answer);
    assert!(answer.is_err() || list == in_one);
    assert!(list == filled(text));
}

#[test]
fn any_cutting_is_read_as_one_piece() {
    let (mut dice, bases) = (Dice::new(5), bases());
    let any = (0..60).map(|_| random_text(&mut dice, &bases)).collect::<Vec<_>>();
    for bytes in limit_texts().into_iter().chain(small_texts()).chain(any) {
        let lengths = lengths(&mut dice, bytes.len(), 30_000);
        same_as_in_one(&bytes, &cut(&bytes, &lengths));
    }
}

#[test]
fn every_single_cut_of_a_short_stretch() {
    for bytes in small_texts() {
        (0..=bytes.len()).for_each(|at| same_as_in_one(&bytes, &[&bytes[..at], &bytes[at..]]));
        same_as_in_one(&bytes, &bytes.chunks(1).collect::<Vec<_>>());
    }
}

#[test]
fn byte_by_byte() {
    let sheet = text(&built_in());
    let (mut reading, mut list) = (Reading::open(), vec![7; PLACES]);
    for byte in sheet.as_bytes().chunks(1) {
        assert_eq!(reading.piece(b"", &mut list), Ok(Progress::More));
        assert_eq!(reading.piece(byte, &mut list), Ok(Progress::More));
    }
    assert_eq!(reading.close(&list), Ok(()));
    assert!(list == built_in());
}

/// A list of another length is refused first at each call, and the reading goes on.
fn wrong_lengths(reading: &mut Reading) {
    let before = reading.clone();
    for length in [0, PLACES - 1, PLACES + 1] {
        let mut list = vec![7; length];
        assert_eq!(reading.piece(b"201", &mut list), Err(Refusal::plain(1)));
        assert_eq!(reading.close(&list), Err(Refusal::plain(1)));
        assert!(list == vec![7; length]);
    }
    assert_eq!(*reading, before);
}

#[test]
fn a_bad_row_after_good_ones() {
    let (mut reading, mut list) = (Reading::open(), vec![7; PLACES]);
    wrong_lengths(&mut reading);
    assert_eq!(reading.piece(b"", &mut list), Ok(Progress::More));
    assert_eq!(reading.piece(b"200\t1\t2\t3", &mut list), Ok(Progress::More));
    assert!(list == vec![7; PLACES]);
    wrong_lengths(&mut reading);
    assert_eq!(reading.piece(b"\n201\t4\t5\t6\n202\t8\t9\t\n", &mut list), at_row(2));
    assert_eq!(list[..7], [1, 2, 3, 4, 5, 6, 7]);
    wrong_lengths(&mut reading);
    let after = list.clone();
    for _ in 0..2 {
        assert_eq!(reading.piece(b"202\t8\t9\t10\n", &mut list), at_row(2));
        assert_eq!(reading.close(&list), at_row(2));
    }
    assert!(list == after);
}

#[test]
fn a_sheet_and_what_may_come_after_it() {
    let sheet = text(&built_in());
    let (mut reading, mut list) = (Reading::open(), vec![7; PLACES]);
    assert_eq!(reading.piece(sheet.as_bytes(), &mut list), Ok(Progress::More));
    assert_eq!(reading.piece(b"", &mut list), Ok(Progress::More));
    let mut other = reading.clone();
    assert_eq!(other.piece(b"\n", &mut list), at_row(1801));
    assert_eq!(other.close(&list), at_row(1801));
    wrong_lengths(&mut reading);
    assert_eq!(reading.close(&list), Ok(()));
    wrong_lengths(&mut reading);
    assert_eq!(reading.piece(b"x", &mut list), Ok(Progress::Accepted));
    assert_eq!(reading.close(&list), Ok(()));
    assert!(list == built_in());
}

#[test]
fn a_close_straight_after_opening() {
    let (mut reading, mut list) = (Reading::open(), vec![7; PLACES]);
    assert_eq!(reading.close(&list), at_row(0));
    assert_eq!(reading.piece(b"200\t1\t2\t3\n", &mut list), at_row(0));
    assert_eq!(first_bad_row(b""), Some(0));
    assert!(list == vec![7; PLACES]);
}
