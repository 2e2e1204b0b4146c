//! Document 01, "The air table": the scanned figures of Table 1 and their mending.
//!
//! Heats are in hundredths of C.H.U./lb, Cp and ψ in ten-thousandths.

use std::sync::OnceLock;

pub const FIRST: i64 = 200;
pub const LAST: i64 = 2000;
/// The ends of the range in mK.
pub const COLDEST: i64 = 1000 * FIRST;
pub const HOTTEST: i64 = 1000 * LAST;
/// H − H15, exactly, in every row.
const BETWEEN_HEATS: i64 = 6887;

/// Table 1 as mended: place 0 is 200 K.
pub struct Table {
    pub heat: Vec<i64>,
    pub cp: Vec<i64>,
    pub psi: Vec<i64>,
    pub mended: Vec<Mended>,
}

/// A figure that was changed: what the scan has and what stands now.
#[derive(Debug, PartialEq, Eq)]
pub struct Mended {
    pub kelvin: i64,
    pub column: &'static str,
    pub scanned: Option<i64>,
    pub now: i64,
}

/// One scanned row; a figure that is no number, or a row that is missing, is None.
#[derive(Clone, Copy, Default)]
struct Scanned {
    heat: Option<i64>,
    cp: Option<i64>,
    psi: Option<i64>,
    heat15: Option<i64>,
}

/// The mended table, made once.
pub fn table() -> &'static Table {
    static TABLE: OnceLock<Table> = OnceLock::new();
    TABLE.get_or_init(|| mend(&scan(include_str!("../../data/table1-scan.tsv"))))
}

/// A printed figure with that many decimals as a whole number: "-21.11" with 2 is −2111.
pub fn figure(text: &str, decimals: usize) -> Option<i64> {
    let (sign, size) = match text.strip_prefix('-') {
        Some(size) => (-1, size),
        None => (1, text.strip_prefix('+').unwrap_or(text)),
    };
    let (whole, part) = size.split_once('.')?;
    let digits = format!("{whole}{part}");
    if part.len() != decimals || !digits.bytes().all(|b| b.is_ascii_digit()) {
        return None;
    }
    Some(sign * digits.parse::<i64>().ok()?)
}

fn scan(text: &str) -> Vec<Scanned> {
    let mut rows = vec![Scanned::default(); (LAST - FIRST + 1) as usize];
    for line in text.lines().skip(1) {
        let field: Vec<&str> = line.split('\t').collect();
        let kelvin: i64 = field[0].parse().expect("a row begins with its kelvin");
        rows[(kelvin - FIRST) as usize] = Scanned {
            heat: figure(field[1], 2),
            cp: figure(field[2], 4),
            psi: figure(field[3], 4),
            heat15: figure(field[4], 2),
        };
    }
    rows
}

fn mend(rows: &[Scanned]) -> Table {
    let heat = mend_heat(rows);
    let psi = straight_lines(&growing(rows.iter().map(|row| row.psi)));
    let cp = rows.iter().map(|row| row.cp.expect("Cp is given as printed")).collect();
    let mut mended = Vec::new();
    for (i, row) in rows.iter().enumerate() {
        let figures = [
            ("H", row.heat, heat[i]),
            ("psi", row.psi, psi[i]),
            ("H15", row.heat15, heat[i] - BETWEEN_HEATS),
        ];
        for (column, scanned, now) in figures {
            if scanned != Some(now) {
                mended.push(Mended { kelvin: FIRST + i as i64, column, scanned, now });
            }
        }
    }
    Table { heat, cp, psi, mended }
}

/// H, each row that breaks a rule mended from its two heat columns, else by a straight line.
fn mend_heat(rows: &[Scanned]) -> Vec<i64> {
    let sound = growing(rows.iter().map(|row| {
        let from_other = row.heat15.map(|heat15| heat15 + BETWEEN_HEATS);
        row.heat.filter(|_| row.heat == from_other)
    }));
    let mut heat = sound.clone();
    for (i, row) in rows.iter().enumerate() {
        if sound[i].is_none() {
            let from_other = row.heat15.map(|heat15| heat15 + BETWEEN_HEATS);
            heat[i] = nearer_the_line(&sound, i, &[row.heat, from_other]);
        }
    }
    straight_lines(&heat)
}

/// The figures that are larger than the last one kept; the others, and missing ones, are None.
fn growing(figures: impl Iterator<Item = Option<i64>>) -> Vec<Option<i64>> {
    let mut last = i64::MIN;
    figures
        .map(|figure| {
            let kept = figure.filter(|f| *f > last);
            last = kept.unwrap_or(last);
            kept
        })
        .collect()
}

/// Of the candidates for row i that keep the growth, the one nearer the straight line between
/// the nearest sound rows on each side (the first if they are equally near).
fn nearer_the_line(sound: &[Option<i64>], i: usize, candidates: &[Option<i64>]) -> Option<i64> {
    let ((a, low), (b, high)) = neighbours(sound, i);
    let (up, width) = ((i - a) as i64, (b - a) as i64);
    let off_the_line = |figure: &i64| ((figure - low) * width - (high - low) * up).abs();
    let keeps_growth = |figure: &i64| low < *figure && *figure < high;
    candidates.iter().flatten().copied().filter(keeps_growth).min_by_key(off_the_line)
}

/// Fills each None by the straight line between the nearest figures on each side, rounded down.
fn straight_lines(figures: &[Option<i64>]) -> Vec<i64> {
    let read = |(i, figure): (usize, &Option<i64>)| {
        figure.unwrap_or_else(|| {
            let ((a, low), (b, high)) = neighbours(figures, i);
            low + ((high - low) * (i - a) as i64).div_euclid((b - a) as i64)
        })
    };
    figures.iter().enumerate().map(read).collect()
}

/// The nearest figures before and after row i, each with its row.
fn neighbours(figures: &[Option<i64>], i: usize) -> ((usize, i64), (usize, i64)) {
    let at = |j: usize| figures[j].map(|figure| (j, figure));
    let before = (0..i).rev().find_map(at).expect("a sound row before");
    let after = (i + 1..figures.len()).find_map(at).expect("a sound row after");
    (before, after)
}
