//! A sheet that arrives in pieces, call by call: the answer, every place of the list, and where the reading stands.

use gaskeys::{Progress, SheetReading};
use second::dice::Dice;
use second::pieces::{self, Reading};
use second::sheet::{self, PLACES};
use second::trials::pieces::{cut, lengths};
use second::trials::sheets::{each_text, small_texts};
use trial::lent::Lent;
use trial::{dice, first, other, Refused};

/// Lengths of lists that every call refuses.
const WRONG: [usize; 3] = [0, PLACES - 1, PLACES + 1];

/// A reading on both sides, each with a list of its own.
struct Both {
    one: SheetReading,
    two: Reading,
    lists: [Lent<u32>; 2],
}

impl Both {
    fn open() -> Both {
        let lists = [Lent::of(PLACES), Lent::of(PLACES)];
        Both { one: SheetReading::open(), two: Reading::open(), lists }
    }

    /// A piece read by both, and whether more is expected.
    fn piece(&mut self, bytes: &[u8]) -> Result<bool, Refused> {
        let [one, two] = &mut self.lists;
        let answer = first(self.one.piece(bytes, one.part())).map(|told| told == Progress::More);
        let right = other(self.two.piece(bytes, two.part()));
        assert_eq!(answer, right.map(|told| told == pieces::Progress::More), "{bytes:?}");
        self.same_lists();
        answer
    }

    fn close(&mut self) -> Result<(), Refused> {
        let [one, two] = &mut self.lists;
        let answer = first(self.one.close(one.part()));
        assert_eq!(answer, other(self.two.close(two.part())));
        self.same_lists();
        answer
    }

    fn same_lists(&self) {
        let [one, two] = &self.lists;
        assert!(one == two, "the lists differ");
    }

    /// A list of another length, lent to both calls: refused with 1, and neither the list nor the reading is changed.
    fn lend_wrong(&mut self, bytes: &[u8], length: usize) {
        let (before, mut lent) = (self.one, Lent::of(length));
        assert_eq!(first(self.one.piece(bytes, lent.part())), Err((1, None)));
        assert_eq!(first(self.one.close(lent.part())), Err((1, None)));
        assert!(lent == Lent::of(length), "{length}");
        assert_eq!(self.one, before);
    }

    /// Closes the reading of a text: the answer is that of the text in one piece, with its numbers, and is repeated whatever is called then.
    fn end(&mut self, text: &[u8]) -> Result<(), Refused> {
        let mut in_one = Lent::of(PLACES);
        let right = first(gaskeys::read_sheet(text, in_one.part()));
        for _ in 0..2 {
            assert_eq!(self.close(), right);
            for bytes in [&b""[..], b"200\t1\t2\t3\n", b"x"] {
                assert_eq!(self.piece(bytes), right.map(|()| false));
            }
            WRONG.iter().for_each(|length| self.lend_wrong(b"x", *length));
        }
        assert!(right.is_err() || self.lists[0] == in_one);
        right
    }
}

/// Reads a text in these pieces by both; between them come lists of another length and pieces that hold nothing.
fn same_reading(dice: &mut Dice, text: &[u8], pieces: &[&[u8]]) -> Result<(), Refused> {
    let mut both = Both::open();
    for piece in pieces {
        match dice.below(4) {
            0 => both.lend_wrong(piece, dice.one_of(&WRONG)),
            1 => drop(both.piece(b"")),
            _ => {}
        }
        // the answer is held against the other side's
        let _ = both.piece(piece);
    }
    both.end(text)
}

#[test]
fn any_cutting_is_read_alike() {
    let (mut dice, mut good, mut bad) = (dice(1001), 0, 0);
    each_text(&mut self::dice(1002), &mut |text| {
        let most = dice.one_of(&[1_460, 8_192, 30_000]);
        let lengths = lengths(&mut dice, text.len(), most);
        let answer = same_reading(&mut dice, text, &cut(text, &lengths));
        *(if answer.is_ok() { &mut good } else { &mut bad }) += 1;
    });
    assert!(good > 500 && bad > 6_000, "{good} {bad}");
}

/// A good text, and where some of its rows begin.
fn built_in() -> (Vec<u8>, impl Fn(usize) -> usize) {
    let text = sheet::text(&sheet::built_in()).into_bytes();
    let ends: Vec<usize> = (1..=text.len()).filter(|end| text[end - 1] == b'\n').collect();
    (text, move |row: usize| if row == 0 { 0 } else { ends[row - 1] })
}

#[test]
fn every_single_cut_of_a_stretch_is_read_alike() {
    let (mut dice, (good, row)) = (dice(1003), built_in());
    let mut bad = good.clone();
    bad[row(1799) + 9] = b' ';
    for from in [0, 799, 1799] {
        for at in row(from)..=row(from + 2) {
            for (text, answer) in [(&good, Ok(())), (&bad, Err((2, Some(1799))))] {
                let pieces = [&text[..at], &text[at..]];
                assert_eq!(same_reading(&mut dice, text, &pieces), answer, "{at}");
            }
        }
    }
    for text in small_texts() {
        for at in 0..=text.len() {
            let _ = same_reading(&mut dice, &text, &[&text[..at], &text[at..]]);
        }
    }
}

#[test]
fn pieces_of_one_byte_are_read_alike() {
    let (mut dice, (good, row)) = (dice(1004), built_in());
    let mut bad = good.clone();
    bad[row(1234) + 3] = b'\r';
    let longer = [&good[..], b"\n"].concat();
    let known = [(good, None), (bad, Some(1234)), (longer, Some(1801))];
    for (text, row) in known {
        let answer = same_reading(&mut dice, &text, &text.chunks(1).collect::<Vec<_>>());
        assert_eq!(answer, row.map_or(Ok(()), |row| Err((2, Some(row)))));
    }
    for text in small_texts() {
        let _ = same_reading(&mut dice, &text, &text.chunks(1).collect::<Vec<_>>());
    }
}

#[test]
fn a_reading_is_a_value() {
    let mut list = vec![0; PLACES];
    let mut reading = SheetReading::default();
    assert_eq!(reading, SheetReading::open());
    reading.piece(b"200\t1\t2\t3\n20", &mut list).unwrap();
    let mut copy = reading;
    assert_eq!(first(copy.piece(b"2", &mut list)), Err((2, Some(1))));
    assert_eq!(reading.piece(b"1\t4\t5\t6\n", &mut list), Ok(Progress::More));
    assert_eq!(list[..7], [1, 2, 3, 4, 5, 6, 0]);
}
