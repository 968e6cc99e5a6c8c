//! The codes that the box gives. A refusal is a code other than 0.

#[derive(Clone, Copy, Debug, PartialEq, Eq, PartialOrd, Ord)]
pub enum Refusal {
    NoBlockWaits = 1,
    Spoilt = 2,
    TableLength = 3,
    OutOfRange = 4,
    NumberIsOpen = 5,
    UnknownBlock = 6,
    NoFreePlace = 7,
    ShareNotFree = 8,
    LaneFull = 9,
    LaneNotEmpty = 10,
    ClockSpent = 11,
    RecordOverBudget = 13,
    ListFull = 14,
}

pub const DONE: u32 = 0;

impl Refusal {
    pub fn code(self) -> u32 {
        self as u32
    }
}

/// The code of a call's answer: 0 if it is done.
pub fn code_of<T>(answer: &Result<T, Refusal>) -> u32 {
    match answer {
        Ok(_) => DONE,
        Err(refusal) => refusal.code(),
    }
}
