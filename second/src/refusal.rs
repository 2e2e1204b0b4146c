//! Document 01, "Refusal numbers", and those that the requests of document 02 add.

/// A refusal: its number and, for 2 and 3, the first bad row.
#[derive(Clone, Copy, Debug, PartialEq, Eq)]
pub struct Refusal {
    pub number: u32,
    pub row: Option<u32>,
}

impl Refusal {
    /// A refusal that is a number alone.
    pub fn plain(number: u32) -> Refusal {
        Refusal { number, row: None }
    }
}

/// Refuses with the number alone if the condition holds.
pub fn refuse_if(condition: bool, number: u32) -> Result<(), Refusal> {
    if condition {
        return Err(Refusal::plain(number));
    }
    Ok(())
}

/// Refuses with the number and the first bad row if there is one.
pub fn refuse_at(bad: Option<usize>, number: u32) -> Result<(), Refusal> {
    match bad {
        Some(row) => Err(Refusal { number, row: Some(row as u32) }),
        None => Ok(()),
    }
}
