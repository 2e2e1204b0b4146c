//! Where a reading of a sheet stands, number by number, as the calls for C tell it and take it: what they leave for a text that
//! arrives, and what numbers mean that no call leaves. All cases are worked out by hand from include/gaskeys.h.

use gaskeys::raw::{self, PieceTold, SheetReading};
use gaskeys::SHEET_PLACES;
use trial::lent::Lent;

/// Stage, row, field, seen, value, first, second.
type Standing = [u32; 7];
/// Refusal, row, placed, more.
type Told = [u32; 4];

const MORE: Told = [0, 0, 0, 1];
const ACCEPTED: Told = [0, 0, 0, 0];
const CLOSED: Standing = [2, 0, 0, 0, 0, 0, 0];
const MOST: u32 = u32::MAX;

fn refused(row: u32) -> (Told, Standing) {
    ([2, row, 1, 0], [1, row, 0, 0, 0, 0, 0])
}

fn reading(standing: Standing) -> SheetReading {
    let [stage, row, field, seen, value, first, second] = standing;
    SheetReading { stage, row, field, seen, value, first, second }
}

fn standing(reading: SheetReading) -> Standing {
    let SheetReading { stage, row, field, seen, value, first, second } = reading;
    [stage, row, field, seen, value, first, second]
}

fn told(answer: PieceTold) -> (Told, Standing) {
    let PieceTold { refusal, row, placed, more, reading } = answer;
    ([refusal, row, placed, more], standing(reading))
}

fn piece(from: Standing, bytes: &[u8], list: &mut [u32]) -> (Told, Standing) {
    let (piece, length) = (bytes.as_ptr(), bytes.len());
    // SAFETY: both are Rust slices with their lengths, and apart.
    told(unsafe {
        raw::gaskeys_read_piece(reading(from), piece, length, list.as_mut_ptr(), list.len())
    })
}

fn close(from: Standing, list: &[u32]) -> (Told, Standing) {
    // SAFETY: a Rust slice with its length.
    told(unsafe { raw::gaskeys_close_reading(reading(from), list.as_ptr(), list.len()) })
}

/// A piece that is read from a place: the answer, and the only row of the list that is written, if one is.
fn reads(from: Standing, bytes: &[u8], answer: (Told, Standing), row: Option<(usize, [u32; 3])>) {
    let (mut list, mut right) = (Lent::of(SHEET_PLACES), Lent::of(SHEET_PLACES));
    if let Some((row, gases)) = row {
        right.part()[3 * row..3 * row + 3].copy_from_slice(&gases);
    }
    assert_eq!(piece(from, bytes, list.part()), answer, "{from:?} {bytes:?}");
    assert!(list == right, "{from:?} {bytes:?}");
}

fn closes(from: Standing, answer: (Told, Standing)) {
    assert_eq!(close(from, &[7; SHEET_PLACES]), answer, "{from:?}");
}

#[test]
fn a_fresh_reading_is_all_zeros() {
    // SAFETY: the call takes nothing.
    assert_eq!(standing(unsafe { raw::gaskeys_open_reading() }), [0; 7]);
}

#[test]
fn a_text_leaves_its_place() {
    let cases: [(&[u8], Standing); 14] = [
        (b"", [0; 7]),
        (b"2", [0, 0, 0, 1, 2, 0, 0]),
        (b"200", [0, 0, 0, 1, 200, 0, 0]),
        (b"200\t", [0, 0, 1, 0, 0, 0, 0]),
        (b"200\t0", [0, 0, 1, 1, 0, 0, 0]),
        (b"200\t12", [0, 0, 1, 1, 12, 0, 0]),
        (b"200\t12\t", [0, 0, 2, 0, 0, 12, 0]),
        (b"200\t12\t345", [0, 0, 2, 1, 345, 12, 0]),
        (b"200\t12\t345\t", [0, 0, 3, 0, 0, 12, 345]),
        (b"200\t12\t345\t200000", [0, 0, 3, 1, 200_000, 12, 345]),
        (b"200\t12\t345\t67\n", [0, 1, 0, 0, 0, 0, 0]),
        (b"200\t12\t345\t67\n201", [0, 1, 0, 1, 201, 0, 0]),
        (b"200\t12\t345\t67\n201\t8\t9\t", [0, 1, 3, 0, 0, 8, 9]),
        (b"200\t12\t345\t67\n201\t8\t9\t10\n", [0, 2, 0, 0, 0, 0, 0]),
    ];
    for (text, right) in cases {
        for at in 0..=text.len() {
            let mut list = vec![7; SHEET_PLACES];
            let (_, before) = piece([0; 7], &text[..at], &mut list);
            assert_eq!(piece(before, &text[at..], &mut list), (MORE, right), "{text:?} {at}");
        }
        closes(right, refused(right[1]));
    }
}

#[test]
fn a_whole_text_leaves_the_end() {
    let text: String = (200..=2000).map(|kelvin| format!("{kelvin}\t1\t2\t3\n")).collect();
    let whole = [0, 1801, 0, 0, 0, 0, 0];
    let mut list = vec![7; SHEET_PLACES];
    assert_eq!(piece([0; 7], text.as_bytes(), &mut list), (MORE, whole));
    assert_eq!(close(whole, &list), (ACCEPTED, CLOSED));
    assert_eq!(piece(whole, b"\n", &mut list), refused(1801));
    assert!(list == [1, 2, 3].repeat(1801));
}

#[test]
fn a_list_of_another_length_leaves_the_reading() {
    for from in [[0; 7], [0, 5, 2, 1, 345, 12, 0], [0, 1801, 0, 0, 0, 0, 0], CLOSED, refused(9).1] {
        for length in [0, 1, SHEET_PLACES - 1, SHEET_PLACES + 1] {
            let mut list = Lent::of(length);
            for bytes in [&b""[..], b"x", b"\n"] {
                assert_eq!(piece(from, bytes, list.part()), ([1, 0, 0, 0], from));
            }
            assert_eq!(close(from, list.part()), ([1, 0, 0, 0], from));
            assert!(list == Lent::of(length));
        }
    }
}

#[test]
fn an_ended_reading_repeats_its_answer() {
    let ended = [
        (CLOSED, (ACCEPTED, CLOSED)),
        ([2, 44, 1, 1, 1, 1, 1], (ACCEPTED, CLOSED)),
        ([1, 0, 0, 0, 0, 0, 0], refused(0)),
        ([1, 1801, 0, 0, 0, 0, 0], refused(1801)),
        ([1, 5, 3, 1, 1, 1, 1], refused(5)),
        ([3, 12, 9, 9, 9, 9, 9], refused(12)),
        ([MOST; 7], refused(MOST)),
    ];
    for (from, answer) in ended {
        for bytes in [&b""[..], b"2", b"\n", b"200\t1\t2\t3\n"] {
            reads(from, bytes, answer, None);
        }
        closes(from, answer);
    }
}

#[test]
fn odd_numbers_are_told_back_plain() {
    let cases = [
        ([7, 9, 3, 2, 5, 6, 8], [1, 9, 0, 0, 0, 0, 0]),
        ([2, 9, 3, 2, 5, 6, 8], CLOSED),
        ([0, 5, 77, 9, 3, 1, 2], [0, 5, 3, 1, 3, 1, 2]),
    ];
    for (from, plain) in cases {
        assert_eq!(piece(from, b"2", &mut []), ([1, 0, 0, 0], plain));
        assert_eq!(close(from, &[]), ([1, 0, 0, 0], plain));
    }
    reads([0, 5, 77, 9, 3, 1, 2], b"", (MORE, [0, 5, 3, 1, 3, 1, 2]), None);
}

#[test]
fn any_place_is_gone_on_from() {
    // a number and its field's end
    reads([0, 5, 1, 1, 77, 0, 0], b"\t", (MORE, [0, 5, 2, 0, 0, 77, 0]), None);
    reads([0, 5, 2, 1, 9, 7, 0], b"\t", (MORE, [0, 5, 3, 0, 0, 7, 9]), None);
    reads([0, 5, 1, 1, MOST, 0, 0], b"\t", (MORE, [0, 5, 2, 0, 0, MOST, 0]), None);
    reads([0, 5, 0, 0, 205, 0, 0], b"\t", (MORE, [0, 5, 1, 0, 0, 0, 0]), None);
    // the end of a row
    let next = (MORE, [0, 6, 0, 0, 0, 0, 0]);
    reads([0, 5, 3, 1, 123, 7, 8], b"\n", next, Some((5, [7, 8, 123])));
    reads([0, 5, 3, 1, MOST, MOST, 300_000], b"\n", next, Some((5, [MOST, 300_000, MOST])));
    reads([0, 5, 0, 1, 205, 66, 77], b"\t1\t2\t3\n", next, Some((5, [1, 2, 3])));
    let last = (MORE, [0, 1801, 0, 0, 0, 0, 0]);
    reads([0, 1800, 3, 1, 3, 1, 2], b"\n", last, Some((1800, [1, 2, 3])));
    // a field over 3 is 3, a `seen` over 1 is 1
    reads([0, 5, 77, 2, 1, 7, 8], b"\n", next, Some((5, [7, 8, 1])));
    reads([0, 5, MOST, MOST, 1, 7, 8], b"\n", next, Some((5, [7, 8, 1])));
    reads([0, 5, 4, 1, 1, 7, 8], b"\t", refused(5), None);
    reads([0, 5, 1, 7, 0, 0, 0], b"0", refused(5), None);
    // the wrong end, and none where there is no digit
    reads([0, 5, 3, 1, 1, 7, 8], b"\t", refused(5), None);
    reads([0, 5, 2, 1, 1, 7, 8], b"\n", refused(5), None);
    reads([0, 5, 3, 0, 123, 7, 8], b"\n", refused(5), None);
    reads([0, 5, 0, 1, 206, 0, 0], b"\t", refused(5), None);
}

#[test]
fn any_number_is_gone_on_with() {
    let at = |field: u32, seen: u32, value: u32| [0, 5, field, seen, value, 0, 0];
    let more = |field: u32, value: u32| (MORE, at(field, 1, value));
    // the kelvin, 205 here
    reads(at(0, 0, 0), b"2", more(0, 2), None);
    reads(at(0, 1, 0), b"2", more(0, 2), None);
    reads(at(0, 0, 0), b"0", refused(5), None);
    reads(at(0, 1, 20), b"5", more(0, 205), None);
    reads(at(0, 0, 20), b"5", more(0, 205), None);
    reads(at(0, 1, 20), b"6", refused(5), None);
    reads(at(0, 1, 205), b"0", refused(5), None);
    reads(at(0, 1, MOST), b"0", refused(5), None);
    // ten of it and 1 are 205 and 2^32
    reads(at(0, 1, 429_496_750), b"1", refused(5), None);
    reads([0, 1800, 0, 1, 200, 0, 0], b"0", (MORE, [0, 1800, 0, 1, 2000, 0, 0]), None);
    reads([0, 0, 0, 1, 200, 0, 0], b"0", refused(0), None);
    // a gas
    for field in [1, 2, 3] {
        reads(at(field, 0, 0), b"0", more(field, 0), None);
        reads(at(field, 1, 0), b"0", refused(5), None);
        reads(at(field, 1, 0), b"7", refused(5), None);
        reads(at(field, 0, 123), b"4", more(field, 1234), None);
        reads(at(field, 1, 20_000), b"0", more(field, 200_000), None);
        reads(at(field, 1, 20_000), b"1", refused(5), None);
        reads(at(field, 0, 20_001), b"0", refused(5), None);
        reads(at(field, 1, 200_000), b"0", refused(5), None);
        reads(at(field, 1, MOST), b"9", refused(5), None);
        // ten of it and 6 are 2^32
        reads(at(field, 1, 429_496_729), b"6", refused(5), None);
    }
}

#[test]
fn rows_from_1801_on_take_no_byte() {
    for row in [1801, 1802, 5403, 1_431_655_766, MOST] {
        for from in [[0, row, 0, 0, 0, 0, 0], [0, row, 3, 1, 5, 6, 7]] {
            for bytes in [&b"\n"[..], b"2", b"\t", b"\r"] {
                reads(from, bytes, refused(row), None);
            }
            reads(from, b"", (MORE, from), None);
            closes(from, if row == 1801 { (ACCEPTED, CLOSED) } else { refused(row) });
        }
    }
}
