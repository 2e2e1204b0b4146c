use crate::raw;
use crate::Refusal;

/// The places of a sheet list: O2, CO2 and H2O of 200 K first, then of each kelvin to 2,000.
pub const SHEET_PLACES: usize = 5403;

/// The most bytes that the text of a sheet has; the fewest are 19,011.
pub const SHEET_TEXT_MOST: usize = 46_026;

/// Reads the text of a sheet into a list of [`SHEET_PLACES`] numbers.
///
/// The form of the text is judged and not the step rule. A refusal (1, 2) leaves the list as it was.
///
/// ```
/// let text: String = (200..=2000).map(|kelvin| format!("{kelvin}\t10\t20\t30\n")).collect();
/// let mut list = vec![0; gaskeys::SHEET_PLACES];
/// gaskeys::read_sheet(text.as_bytes(), &mut list)?;
/// assert_eq!(list[5400..], [10, 20, 30]);
///
/// let refusal = gaskeys::read_sheet(b"200\t1\t2\t3\n202", &mut list).unwrap_err();
/// assert_eq!((refusal.number(), refusal.row()), (2, Some(1)));
/// assert_eq!(list[..3], [10, 20, 30]);
/// # Ok::<(), gaskeys::Refusal>(())
/// ```
pub fn read_sheet(text: &[u8], list: &mut [u32]) -> Result<(), Refusal> {
    // SAFETY: both are Rust slices, so they are live, aligned, not null and apart; their lengths go with them.
    let told = unsafe {
        raw::gaskeys_read_sheet(text.as_ptr(), text.len(), list.as_mut_ptr(), list.len())
    };
    Refusal::told(told.refusal, told.row, told.placed)
}

/// Judges a sheet list as every call that takes one does first: its length, the limit of 200,000
/// and the step rule. Refusals: 1, 3.
///
/// ```
/// let mut list = vec![100; gaskeys::SHEET_PLACES];
/// gaskeys::judge_sheet(&list)?;
/// list[3 * 1800 + 2] = 99;
/// assert_eq!(gaskeys::judge_sheet(&list).unwrap_err().row(), Some(1800));
/// # Ok::<(), gaskeys::Refusal>(())
/// ```
pub fn judge_sheet(list: &[u32]) -> Result<(), Refusal> {
    // SAFETY: a Rust slice with its length; it is only read.
    let told = unsafe { raw::gaskeys_judge_sheet(list.as_ptr(), list.len()) };
    Refusal::told(told.refusal, told.row, told.placed)
}

/// The sheet that comes with the product, which every call that takes a sheet accepts.
///
/// ```
/// let sheet = gaskeys::built_in_sheet();
/// gaskeys::judge_sheet(&sheet)?;
/// assert_eq!(sheet[..3], [4326, 3236, 8776]);
/// # Ok::<(), gaskeys::Refusal>(())
/// ```
pub fn built_in_sheet() -> Vec<u32> {
    let mut list = vec![0; SHEET_PLACES];
    fill_built_in_sheet(&mut list).expect("the list has a sheet's length");
    list
}

/// Puts the built-in sheet into a lent list. A refusal (1: another length) leaves it as it was.
pub fn fill_built_in_sheet(list: &mut [u32]) -> Result<(), Refusal> {
    // SAFETY: a Rust slice with its length.
    let told = unsafe { raw::gaskeys_built_in_sheet(list.as_mut_ptr(), list.len()) };
    Refusal::told(told.refusal, told.row, told.placed)
}

/// Writes the text of a sheet list into a buffer, as [`read_sheet`] takes it, and gives its number of
/// bytes. A buffer of [`SHEET_TEXT_MOST`] bytes is never too short.
///
/// The list is judged first. Later bytes stay, and a refusal (1, 3, 14) changes none.
///
/// ```
/// let text: String = (200..=2000).map(|kelvin| format!("{kelvin}\t10\t20\t30\n")).collect();
/// let mut list = vec![0; gaskeys::SHEET_PLACES];
/// gaskeys::read_sheet(text.as_bytes(), &mut list)?;
/// list[5402] = 31;
/// let mut buffer = vec![b'#'; gaskeys::SHEET_TEXT_MOST];
/// let bytes = gaskeys::write_sheet(&list, &mut buffer)?;
/// assert_eq!(bytes, text.len());
/// assert!(buffer.starts_with(b"200\t10\t20\t30\n201\t10\t20\t30\n"));
/// assert!(buffer[..=bytes].ends_with(b"\n2000\t10\t20\t31\n#"));
///
/// let mut short = vec![b'#'; bytes - 1];
/// let refusal = gaskeys::write_sheet(&list, &mut short).unwrap_err();
/// assert_eq!(refusal.to_string(), "refusal 14: the buffer is shorter than the text");
/// assert!(short.iter().all(|byte| *byte == b'#'));
/// # Ok::<(), gaskeys::Refusal>(())
/// ```
pub fn write_sheet(list: &[u32], text: &mut [u8]) -> Result<usize, Refusal> {
    // SAFETY: both are Rust slices, so they are live, aligned, not null and apart; their lengths go with them.
    let told = unsafe {
        raw::gaskeys_write_sheet(list.as_ptr(), list.len(), text.as_mut_ptr(), text.len())
    };
    Refusal::told(told.refusal, told.row, told.placed)?;
    Ok(told.bytes)
}
