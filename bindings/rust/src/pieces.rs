use crate::raw;
use crate::Refusal;

/// Where the reading of a sheet stands whose text arrives in pieces.
///
/// However the text is cut, the numbers and the answer, or the refusal and its row, are those that
/// [`read_sheet`](crate::read_sheet) gives for it in one. The same list is lent to each call, and
/// left alone between them. A refusal 1 (the list has another length) changes nothing, and the
/// reading goes on with the next call; once the sheet is refused with 2 or accepted, each further
/// call changes nothing and repeats the answer.
///
/// ```
/// use gaskeys::{Progress, SheetReading};
///
/// let text: String = (200..=2000).map(|kelvin| format!("{kelvin}\t10\t20\t30\n")).collect();
/// let mut list = vec![0; gaskeys::SHEET_PLACES];
/// let mut reading = SheetReading::open();
/// for piece in text.as_bytes().chunks(1460) {
///     assert_eq!(reading.piece(piece, &mut list)?, Progress::More);
/// }
/// reading.close(&list)?;
/// assert_eq!(list[5400..], [10, 20, 30]);
/// assert_eq!(reading.piece(b"more", &mut list)?, Progress::Accepted);
/// # Ok::<(), gaskeys::Refusal>(())
/// ```
#[derive(Clone, Copy, Debug, PartialEq, Eq)]
pub struct SheetReading(raw::SheetReading);

/// What a piece came to that was not refused.
#[derive(Clone, Copy, Debug, PartialEq, Eq, Hash)]
pub enum Progress {
    /// More is expected, or the close.
    More,
    /// The sheet was accepted: the reading is closed.
    Accepted,
}

impl SheetReading {
    /// The reading before any byte has come.
    pub fn open() -> SheetReading {
        // SAFETY: the call takes nothing.
        SheetReading(unsafe { raw::gaskeys_open_reading() })
    }

    /// Reads the next piece, which may hold nothing.
    ///
    /// Written are the rows whose line feed is in the piece, with refusal 2 those before the bad
    /// one, and no other place. Refusals: 1, then 2 with the piece that has the first byte after
    /// which no good sheet can follow.
    ///
    /// ```
    /// let mut list = vec![7; gaskeys::SHEET_PLACES];
    /// let mut reading = gaskeys::SheetReading::open();
    /// reading.piece(b"200\t1\t2", &mut list)?;
    /// assert_eq!(list[..3], [7, 7, 7]);
    /// assert_eq!(reading.piece(b"", &mut []).unwrap_err().number(), 1);
    ///
    /// let refusal = reading.piece(b"\t3\n201\t4\t5\t6\n203\t", &mut list).unwrap_err();
    /// assert_eq!((refusal.number(), refusal.row()), (2, Some(2)));
    /// assert_eq!(list[..9], [1, 2, 3, 4, 5, 6, 7, 7, 7]);
    /// assert_eq!(reading.close(&list), Err(refusal));
    /// # Ok::<(), gaskeys::Refusal>(())
    /// ```
    pub fn piece(&mut self, bytes: &[u8], list: &mut [u32]) -> Result<Progress, Refusal> {
        // SAFETY: both are Rust slices, so they are live, aligned, not null and apart; their lengths go with them.
        let told = unsafe {
            let (piece, length) = (bytes.as_ptr(), bytes.len());
            raw::gaskeys_read_piece(self.0, piece, length, list.as_mut_ptr(), list.len())
        };
        self.go_on(told)
    }

    /// Says that the text has ended. Refusals: 1, then 2 with the row at which it ends too soon.
    ///
    /// ```
    /// let list = vec![7; gaskeys::SHEET_PLACES];
    /// let mut reading = gaskeys::SheetReading::open();
    /// assert_eq!(reading.close(&list[1..]).unwrap_err().number(), 1);
    /// assert_eq!(reading.close(&list).unwrap_err().row(), Some(0));
    /// ```
    pub fn close(&mut self, list: &[u32]) -> Result<(), Refusal> {
        // SAFETY: a Rust slice with its length; it is only read.
        let told = unsafe { raw::gaskeys_close_reading(self.0, list.as_ptr(), list.len()) };
        self.go_on(told).map(|_| ())
    }

    /// Keeps the reading that was told, and gives what came of the call.
    fn go_on(&mut self, told: raw::PieceTold) -> Result<Progress, Refusal> {
        self.0 = told.reading;
        Refusal::told(told.refusal, told.row, told.placed)?;
        Ok(if told.more == 1 { Progress::More } else { Progress::Accepted })
    }
}

impl Default for SheetReading {
    fn default() -> SheetReading {
        SheetReading::open()
    }
}
