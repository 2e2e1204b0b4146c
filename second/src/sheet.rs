//! Document 01, "The gas sheet": its text, its list, and when a list is accepted. Document 02, request 1: the text written back.

use crate::refusal::{refuse_at, refuse_if, Refusal};
use crate::table::{figure, table, FIRST};

pub const ROWS: usize = 1801;
/// Three numbers a row.
pub const PLACES: usize = 5403;
pub const GREATEST: u32 = 200_000;

/// The three gases of one row, in hundredths of C.H.U./lb.
pub type Gases = [u32; 3];

/// The line of a row: kelvin, O2, CO2, H2O, parted by tabs, ended by a line feed.
pub fn line(row: usize, gases: Gases) -> String {
    let [o2, co2, h2o] = gases;
    format!("{}\t{o2}\t{co2}\t{h2o}\n", FIRST as usize + row)
}

/// The text of a sheet list.
pub fn text(list: &[u32]) -> String {
    list.chunks(3).enumerate().map(|(row, g)| line(row, [g[0], g[1], g[2]])).collect()
}

/// Reads a sheet's text into a lent list: 1 for the list's length, 2 with the first bad row.
pub fn read(bytes: &[u8], list: &mut [u32]) -> Result<(), Refusal> {
    refuse_if(list.len() != PLACES, 1)?;
    refuse_at(first_bad_row(bytes), 2)?;
    for (row, line) in lines(bytes).enumerate() {
        let gases = good_line(row, line).expect("no row is bad");
        list[3 * row..3 * row + 3].copy_from_slice(&gases);
    }
    Ok(())
}

/// The row that holds the first byte after which no good sheet can follow or, if there is no such
/// byte, the row at which the text ends too soon; None for a good sheet.
pub fn first_bad_row(bytes: &[u8]) -> Option<usize> {
    let bad = lines(bytes).enumerate().position(|(row, begun)| !good_line_can_follow(row, begun));
    let whole = bytes.iter().filter(|b| **b == b'\n').count();
    bad.or((whole < ROWS).then_some(whole))
}

/// The first byte after which no good sheet can follow, by its place, if there is one.
pub fn first_bad_byte(bytes: &[u8]) -> Option<usize> {
    let (row, bad) =
        lines(bytes).enumerate().find(|(row, begun)| !good_line_can_follow(*row, begun))?;
    let before: usize = lines(bytes).take(row).map(|line| line.len()).sum();
    let spoils = |at: &usize| !good_line_can_follow(row, &bad[..=*at]);
    (0..bad.len()).find(spoils).map(|at| before + at)
}

/// Whether some good line of the row begins with these bytes. The end of the row's line with three
/// zeros is put behind them: if any end makes a good line, one of those does, since a number
/// begun is a number, and a number not begun can be 0.
pub(crate) fn good_line_can_follow(row: usize, begun: &[u8]) -> bool {
    let zeros = line(row, [0, 0, 0]).into_bytes();
    let mut wholes = (0..=zeros.len()).rev().map(|from| [begun, &zeros[from..]].concat());
    wholes.any(|whole| good_line(row, &whole).is_some())
}

/// The gases of a good line of the row: the line that these gases have, none over the limit.
pub(crate) fn good_line(row: usize, bytes: &[u8]) -> Option<Gases> {
    let fields = std::str::from_utf8(bytes).ok()?.trim_end().split('\t').skip(1);
    let numbers = fields.map(|field| field.parse().ok()).collect::<Option<Vec<u32>>>()?;
    let gases: Gases = numbers.try_into().ok()?;
    let good = row < ROWS && gases.iter().all(|gas| *gas <= GREATEST);
    (good && line(row, gases).as_bytes() == bytes).then_some(gases)
}

/// The bytes cut behind each line feed; the last piece may have none.
pub(crate) fn lines(bytes: &[u8]) -> impl Iterator<Item = &[u8]> {
    bytes.split_inclusive(|b| *b == b'\n')
}

/// Judges a sheet list that is given as input: 1 for its length, 3 with the first bad row.
pub fn judge(list: &[u32]) -> Result<(), Refusal> {
    refuse_if(list.len() != PLACES, 1)?;
    refuse_at((0..ROWS).find(|row| bad_row(list, *row)), 3)
}

/// A row is bad if it holds a value over the limit or breaks the step rule against the row before:
/// no gas falls, and O2 rises by at most four times the rise of air.
fn bad_row(list: &[u32], row: usize) -> bool {
    let gas = |row: usize, which: usize| list[3 * row + which] as i64;
    let air = |row: usize| table().heat[row];
    let over = (0..3).any(|which| gas(row, which) > GREATEST as i64);
    let breaks_step = row > 0 && {
        let falls = (0..3).any(|which| gas(row, which) < gas(row - 1, which));
        falls || gas(row, 0) - gas(row - 1, 0) > 4 * (air(row) - air(row - 1))
    };
    over || breaks_step
}

/// Writes the text of a sheet list into a lent buffer, later bytes unchanged, and gives its length: 1 and 3 as the judge gives them,
/// then 14 for a buffer shorter than the text.
pub fn write(list: &[u32], buffer: &mut [u8]) -> Result<usize, Refusal> {
    judge(list)?;
    let text = text(list);
    refuse_if(buffer.len() < text.len(), 14)?;
    buffer[..text.len()].copy_from_slice(text.as_bytes());
    Ok(text.len())
}

/// The sheet that comes with the product, from Table 5 of the same report: H of air plus the
/// difference from air, read by a straight line between the two nearest nodes, rounded down.
pub fn built_in() -> Vec<u32> {
    let nodes = differences(include_str!("../../data/table5-scan.tsv"));
    let mut list = Vec::new();
    for (row, air) in table().heat.iter().enumerate() {
        let kelvin = FIRST + row as i64;
        let after = nodes.iter().position(|(node, _)| *node > kelvin).unwrap_or(nodes.len() - 1);
        let ((a, low), (b, high)) = (&nodes[after - 1], &nodes[after]);
        for which in 0..3 {
            let rise = (high[which] - low[which]) * (kelvin - a);
            list.push((air + low[which] + rise.div_euclid(b - a)) as u32);
        }
    }
    list
}

/// The nodes of Table 5: kelvin and the three differences in hundredths.
fn differences(text: &str) -> Vec<(i64, [i64; 3])> {
    let node = |line: &str| {
        let field: Vec<&str> = line.split('\t').collect();
        let tenths = |at: usize| figure(field[at], 1).expect("a difference has one decimal");
        let kelvin = field[0].parse().expect("a node begins with its kelvin");
        (kelvin, [1, 2, 3].map(|at| 10 * tenths(at)))
    };
    text.lines().skip(1).map(node).collect()
}
