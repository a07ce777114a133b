//! The numbers given back when we say no.

/// A row of the table of refusals.
#[derive(Clone, Copy, Debug, PartialEq, Eq)]
pub enum Refusal {
    ListsDiffer = 1,
    Level = 2,
    Time = 3,
    Length = 4,
    Sheet = 5,
    Message = 6,
    QueueFull = 7,
    NoRoom = 8,
    Shape = 9,
    Checksum = 10,
    Status = 11,
    Record = 12,
}

impl Refusal {
    /// The paper's number for this row.
    pub fn number(self) -> u8 {
        self as u8
    }
}

/// The number of a result: 0 for none.
pub fn number_of(result: Result<(), Refusal>) -> u8 {
    match result {
        Ok(()) => 0,
        Err(refusal) => refusal.number(),
    }
}
