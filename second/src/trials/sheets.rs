//! Sheets: base lists and texts, accepted ones, texts good and damaged, and lists at both sides of the step rule.

use crate::dice::Dice;
use crate::sheet::{self, GREATEST, PLACES, ROWS};
use crate::table::table;

/// Bytes that a text may be spoilt, or not spoilt, with.
const BYTES: &[u8] = b"0129\t\n\r-+ x.\x00\x7f\xff";

/// An edit of a list: from a place on, so many places, three apart, become the value.
type Edit = [usize; 3];

/// Accepted lists at the ends of what the step rule lets pass: a base list and edits of it.
const ACCEPTED: [(usize, &[Edit]); 10] = [
    (0, &[]),
    (1, &[]),
    (2, &[]),
    // O2 alone at its most, CO2 and H2O alone at theirs.
    (1, &[[0, 1801, 200_000]]),
    (2, &[[0, 1801, 0]]),
    // O2 rising by exactly four times air.
    (3, &[]),
    // The same, with jumps of CO2 and H2O to the limit: 1,000 to 1,001 K, 288 to 289 K.
    (3, &[[2404, 1000, 200_000], [2405, 1000, 200_000]]),
    (3, &[[268, 1712, 200_000], [269, 1712, 100_000]]),
    // Jumps at the ends: 200 to 201 K, 1,999 to 2,000 K.
    (1, &[[4, 1800, 200_000]]),
    (1, &[[5401, 1, 200_000], [5402, 1, 200_000]]),
];

/// Both sides of each limit that a sheet file can meet: 0 to 200,000, O2 rises by four times air (24 hundredths from 200 to 201 K),
/// no gas falls. The first of each two is accepted.
const LIMITS: [(usize, &[Edit]); 6] = [
    (1, &[[2, 1801, 200_000]]),
    (1, &[[2, 1801, 200_001]]),
    (1, &[[3, 1800, 96]]),
    (1, &[[3, 1800, 97]]),
    (2, &[[5402, 1, 200_000]]),
    (2, &[[5402, 1, 199_999]]),
];

/// A base: its list, its text, and where the rows of the text begin (and, last, where it ends).
pub struct Base {
    list: Vec<u32>,
    text: Vec<u8>,
    rows: Vec<usize>,
}

impl Base {
    fn new(list: Vec<u32>) -> Base {
        let text = sheet::text(&list).into_bytes();
        let ends = (1..=text.len()).filter(|end| text[end - 1] == b'\n');
        let rows = [0].into_iter().chain(ends).collect();
        Base { list, text, rows }
    }

    /// The text with bytes dropped and put in at a place.
    fn edit(&self, at: usize, dropped: usize, bytes: &[u8]) -> Vec<u8> {
        [&self.text[..at], bytes, &self.text[at + dropped..]].concat()
    }

    fn cut(&self, at: usize) -> Vec<u8> {
        self.text[..at].to_vec()
    }

    /// The list of that length, with zeros behind it if it is longer, and then edited.
    fn list(&self, length: usize, edits: &[Edit]) -> Vec<u32> {
        let mut list = self.list.clone();
        list.resize(length, 0);
        for [place, count, value] in edits {
            (0..*count).for_each(|i| list[place + 3 * i] = *value as u32);
        }
        list
    }
}

/// The built-in sheet, all zero, all at the limit, and O2 rising by exactly four times air from 0 at 200 K with the others zero.
pub fn bases() -> [Base; 4] {
    let air = &table().heat;
    let steepest = air.iter().flat_map(|heat| [4 * (heat - air[0]) as u32, 0, 0]).collect();
    [sheet::built_in(), vec![0; PLACES], vec![GREATEST; PLACES], steepest].map(Base::new)
}

fn edited(lists: &[(usize, &[Edit])]) -> Vec<Vec<u32>> {
    let bases = bases();
    lists.iter().map(|(base, edits)| bases[*base].list(PLACES, edits)).collect()
}

/// The accepted lists at the ends of the step rule, the built-in sheet first.
pub fn accepted() -> Vec<Vec<u32>> {
    edited(&ACCEPTED)
}

/// A random accepted list: gases that rise by small steps, now and then with a jump.
pub fn random(dice: &mut Dice) -> Vec<u32> {
    let air = &table().heat;
    let mut row = [0, 1, 2].map(|_| dice.below(3_000) as i64);
    let mut list = Vec::new();
    for at in 0..ROWS {
        let steepest = if at == 0 { 0 } else { 4 * (air[at] - air[at - 1]) };
        row[0] += dice.from_to(0, steepest);
        for gas in &mut row[1..] {
            let jump = dice.below(600) == 0;
            *gas += dice.from_to(0, if jump { 50_000 } else { 60 });
        }
        row = row.map(|gas| gas.min(GREATEST as i64));
        list.extend(row.map(|gas| gas as u32));
    }
    list
}

/// One place becomes another number: refused with its row or the next, if at all.
pub fn damage(dice: &mut Dice, list: &mut [u32]) {
    let place = dice.below(list.len() as u64) as usize;
    let edges = [0, GREATEST, GREATEST + 1, u32::MAX, list[place].saturating_sub(1)];
    let near = list[place].saturating_add(dice.below(130) as u32);
    list[place] = dice.one_of(&[&edges[..], &[near]].concat());
}

/// Texts at both sides of each limit of a sheet file: its numbers, its step rule, its 1,801 rows, and far more bytes than a sheet has.
pub fn limit_texts() -> Vec<Vec<u8>> {
    let lists = edited(&LIMITS);
    let mut texts: Vec<Vec<u8>> = lists.iter().map(|list| sheet::text(list).into_bytes()).collect();
    let zeros = &bases()[1];
    let (last, end) = (zeros.rows[ROWS - 1], zeros.text.len());
    texts.extend([Vec::new(), zeros.cut(last), zeros.cut(end - 1), zeros.cut(end)]);
    texts.extend([zeros.edit(end, 0, b"\n"), zeros.edit(end, 0, &[b'0'; 60_000])]);
    texts
}

/// Lists at both sides of the same limits, and of the length of a list.
fn limit_lists() -> Vec<Vec<u32>> {
    let zeros = [PLACES - 1, PLACES, PLACES + 1].map(|length| vec![0; length]);
    [edited(&LIMITS), zeros.to_vec()].concat()
}

/// Looks at each text: small ones, and base texts damaged at every kind of place and at random.
pub fn each_text(dice: &mut Dice, look: &mut dyn FnMut(&[u8])) {
    let bases = bases();
    small_texts().iter().for_each(|text| look(text));
    limit_texts().iter().for_each(|text| look(text));
    numbers(&bases[1], look);
    cuts(dice, &bases[..3], look);
    changed_bytes(&bases[..3], look);
    whole_rows(dice, &bases[..3], look);
    (0..3000).for_each(|_| look(&random_text(dice, &bases)));
}

/// Looks at each list: both sides of the step rule in every row, of the limits, and random edits.
pub fn each_list(dice: &mut Dice, look: &mut dyn FnMut(&[u32])) {
    let bases = bases();
    limit_lists().iter().for_each(|list| look(list));
    step_rule(&bases, look);
    limit_and_falls(&bases, look);
    (0..1000).for_each(|_| look(&random_list(dice, &bases)));
}

/// A good sheet with much behind it: several hundred KB.
pub fn long_text() -> Vec<u8> {
    bases()[0].text.repeat(9)
}

/// Texts of a few bytes, each as it stands and after a good row.
pub fn small_texts() -> Vec<Vec<u8>> {
    let texts = [
        "",
        "2",
        "20",
        "200",
        "2000",
        "2001",
        "201",
        "0200",
        "200\t",
        "200\t\t",
        "200 1\t2\t3\n",
        "200\t2000",
        "200\t20000",
        "200\t200000",
        "200\t200001",
        "200\t1999999",
        "200\t2000000",
        "200\t00",
        "200\t01",
        "200\t0\t",
        "200\t-1",
        "200\t+1",
        "200\t 1",
        "200\t1.0",
        "200\t1\n",
        "200\t1\t2\n",
        "200\t1\t2\t\n",
        "200\t1\t2\t3",
        "200\t1\t2\t3\n",
        "200\t1\t2\t3\t",
        "200\t1\t2\t3\t4\n",
        "200\t1\t2\t3\r\n",
        "200\t1\t2\t3\n\n",
        "200\t1\t2\t3\n\r",
        "200\t1\t2\t3\n202",
        "200\t1\t2\t3\n200\t1\t2\t3\n",
        "200\t1\t2\t3\n201\t1\t2\t3\n",
        "\u{feff}200\t1\t2\t3\n",
        "\0",
        "\u{e9}",
        "\n",
        "\t",
        "\r\n",
        " 200\t1\t2\t3\n",
    ];
    let alone = texts.iter().map(|t| t.as_bytes().to_vec());
    let after_a_row = texts.iter().map(|t| {
        let second = t.replacen("200", "201", 1);
        format!("200\t0\t199999\t200000\n{second}").into_bytes()
    });
    alone.chain(after_a_row).collect()
}

/// Numbers about the limit in each column of some rows; the text of zeros has a byte for each.
fn numbers(zeros: &Base, look: &mut dyn FnMut(&[u8])) {
    let numbers: [&[u8]; 20] = [
        b"",
        b"0",
        b"1",
        b"9",
        b"10",
        b"00",
        b"01",
        b"000000",
        b"99999",
        b"100000",
        b"199999",
        b"200000",
        b"200001",
        b"200010",
        b"210000",
        b"300000",
        b"999999",
        b"1000000",
        b"2000000",
        b"4294967296",
    ];
    for row in [0, 1, 799, 800, 1799, 1800] {
        for column in 1..=3 {
            let at = zeros.rows[row + 1] - 2 * (4 - column);
            numbers.iter().for_each(|number| look(&zeros.edit(at, 1, number)));
        }
    }
}

/// Cut at every byte of the first, the last and the first four-digit rows, and at random.
fn cuts(dice: &mut Dice, bases: &[Base], look: &mut dyn FnMut(&[u8])) {
    for base in bases {
        for row in [0, 799, 1799] {
            (base.rows[row]..=base.rows[row + 2]).for_each(|at| look(&base.cut(at)));
        }
        let length = base.text.len() as u64;
        (0..150).for_each(|_| look(&base.cut(dice.below(length) as usize)));
    }
}

/// Every byte of some rows dropped, and each of the bytes above put in its place and before it.
fn changed_bytes(bases: &[Base], look: &mut dyn FnMut(&[u8])) {
    for (base, rows) in bases.iter().zip([vec![0, 800, 1800], vec![1], vec![799]]) {
        for row in rows {
            for at in base.rows[row]..base.rows[row + 1] {
                look(&base.edit(at, 1, b""));
                for byte in BYTES.chunks(1) {
                    look(&base.edit(at, 1, byte));
                    look(&base.edit(at, 0, byte));
                }
            }
        }
        let end = base.text.len();
        BYTES.chunks(1).for_each(|byte| look(&base.edit(end, 0, byte)));
    }
}

/// Rows dropped, doubled, and changed for the next one.
fn whole_rows(dice: &mut Dice, bases: &[Base], look: &mut dyn FnMut(&[u8])) {
    for base in bases {
        let random: Vec<usize> = (0..15).map(|_| dice.below(1800) as usize).collect();
        for row in [&[0, 798, 799, 1799], &random[..]].concat() {
            let (from, to, next) = (base.rows[row], base.rows[row + 1], base.rows[row + 2]);
            let changed = [&base.text[to..next], &base.text[from..to]].concat();
            look(&base.edit(from, to - from, b""));
            look(&base.edit(from, 0, &base.text[from..to]));
            look(&base.edit(from, next - from, &changed));
        }
    }
}

/// Up to three bytes dropped and up to three put in, anywhere.
pub fn random_text(dice: &mut Dice, bases: &[Base]) -> Vec<u8> {
    let base = &bases[dice.below(bases.len() as u64) as usize];
    let at = dice.below(base.text.len() as u64 + 1) as usize;
    let dropped = (dice.below(4) as usize).min(base.text.len() - at);
    let bytes = dice.one_of(&[b"0123456789", BYTES]);
    let put: Vec<u8> = (0..dice.below(4)).map(|_| dice.one_of(bytes)).collect();
    base.edit(at, dropped, &put)
}

/// For each row: O2 rises into it by four times the rise of air, and by one more. Then O2 that
/// always rises as steeply as it may, one more in a row, and one less.
fn step_rule(bases: &[Base], look: &mut dyn FnMut(&[u32])) {
    let air = |row: usize| table().heat[row] as usize;
    for row in 1..ROWS {
        let rise = 4 * (air(row) - air(row - 1));
        for rise in [rise, rise + 1] {
            look(&bases[1].list(PLACES, &[[3 * row, ROWS - row, rise]]));
        }
    }
    look(&bases[3].list);
    for row in (0..ROWS).step_by(23) {
        let o2 = 4 * (air(row) - air(0));
        for o2 in [o2 + 1, o2.saturating_sub(1)] {
            look(&bases[3].list(PLACES, &[[3 * row, 1, o2]]));
        }
    }
}

/// Lengths; a value at, over and far over the limit; a gas that falls by one, or that jumps.
fn limit_and_falls(bases: &[Base], look: &mut dyn FnMut(&[u32])) {
    let most = GREATEST as usize;
    for length in [0, 1, PLACES - 3, PLACES - 1, PLACES, PLACES + 1, PLACES + 3, 6000] {
        bases.iter().for_each(|base| look(&base.list(length, &[])));
    }
    look(&bases[2].list(PLACES - 1, &[[0, 1, most + 1]]));
    for row in [0, 1, 5, 900, 1799, 1800] {
        for place in 3 * row..3 * row + 3 {
            for value in [most, most + 1, u32::MAX as usize] {
                look(&bases[1].list(PLACES, &[[place, 1, value]]));
                look(&bases[1].list(PLACES, &[[place, ROWS - row, value]]));
            }
            look(&bases[2].list(PLACES, &[[place, 1, most - 1]]));
            look(&bases[2].list(PLACES, &[[place, ROWS - row, most - 1]]));
            look(&bases[0].list(PLACES, &[[place, 1, 0]]));
        }
    }
}

/// One or two places, or columns from a place on, of a base list set anew.
fn random_list(dice: &mut Dice, bases: &[Base]) -> Vec<u32> {
    let mut edit = |_| {
        let place = dice.below(PLACES as u64) as usize;
        let most = (PLACES - 1 - place) / 3 + 1;
        let count = dice.one_of(&[1, most]).min(1 + dice.below(most as u64) as usize);
        let large = dice.below(200_003) as usize;
        [place, count, dice.one_of(&[0, 200_000, 200_001, large, large >> 6])]
    };
    let edits: Vec<Edit> = (0..2).map(&mut edit).collect();
    let many = 1 + dice.below(2) as usize;
    bases[dice.below(4) as usize].list(PLACES, &edits[..many])
}
