//! Document 02, request 3: a sheet that arrives in pieces.

use crate::refusal::{refuse_if, Refusal};
use crate::sheet::{good_line, good_line_can_follow, lines, PLACES, ROWS};

/// A reading: how many rows are whole, the bytes of the row at hand, and the answer once there is one.
#[derive(Clone, Debug, Default, PartialEq, Eq)]
pub struct Reading {
    rows: usize,
    begun: Vec<u8>,
    answer: Option<Result<(), Refusal>>,
}

/// What a piece came to that was not refused.
#[derive(Clone, Copy, Debug, PartialEq, Eq)]
pub enum Progress {
    More,
    Accepted,
}

impl Reading {
    pub fn open() -> Reading {
        Reading::default()
    }

    /// Reads the next piece into a lent list, the rows that it completes alone: 1 for the list's length, 2 with the first bad row.
    pub fn piece(&mut self, bytes: &[u8], list: &mut [u32]) -> Result<Progress, Refusal> {
        refuse_if(list.len() != PLACES, 1)?;
        if self.answer.is_none() {
            self.go_on(bytes, list);
        }
        match self.answer {
            None => Ok(Progress::More),
            Some(answer) => answer.map(|()| Progress::Accepted),
        }
    }

    /// Ends the text: 1 for the list's length, 2 with the row at which it ends too soon.
    pub fn close(&mut self, list: &[u32]) -> Result<(), Refusal> {
        refuse_if(list.len() != PLACES, 1)?;
        let whole = self.rows == ROWS && self.begun.is_empty();
        *self.answer.get_or_insert(if whole { Ok(()) } else { at_row(self.rows) })
    }

    /// Goes on line by line, the first of which may have begun with a piece before.
    fn go_on(&mut self, bytes: &[u8], list: &mut [u32]) {
        let text = [&self.begun, bytes].concat();
        self.begun.clear();
        for line in lines(&text) {
            match good_line(self.rows, line) {
                Some(gases) => {
                    list[3 * self.rows..3 * self.rows + 3].copy_from_slice(&gases);
                    self.rows += 1;
                }
                None if good_line_can_follow(self.rows, line) => self.begun = line.to_vec(),
                None => {
                    self.answer = Some(at_row(self.rows));
                    return;
                }
            }
        }
    }
}

fn at_row(row: usize) -> Result<(), Refusal> {
    Err(Refusal { number: 2, row: Some(row as u32) })
}
