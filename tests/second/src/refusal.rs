//! The refusals, by number (paper: The refusals).

use std::fmt;

/// Why something is refused. The discriminant is the paper's number.
#[derive(Clone, Copy, Debug, PartialEq, Eq)]
#[repr(u8)]
pub enum Reason {
    TooLong = 1,
    CutOff = 2,
    Magic = 3,
    Version = 4,
    Text = 5,
    Mode = 6,
    Value = 7,
    Address = 8,
    ContactIndex = 9,
    BankOffset = 10,
    BankEntry = 11,
    TrailingBytes = 12,
    CallsignLength = 20,
    ForeignCharacter = 21,
    EndsInSpace = 22,
    AddressNumber = 23,
    TextBuffer = 24,
    OutputBuffer = 25,
    StatedLength = 30,
    HistoryForm = 31,
    NoSuchEdit = 32,
    NoSuchPlace = 33,
    CountFull = 34,
    InUse = 35,
    RoomFull = 36,
    HistoryFull = 37,
    HistoryEmpty = 38,
    EntryDoesNotFit = 39,
}

/// A refusal: its number and the place it points at.
#[derive(Clone, Copy, Debug, PartialEq, Eq)]
pub struct Refusal {
    pub number: u8,
    pub place: usize,
}

impl Refusal {
    pub fn at(reason: Reason, place: usize) -> Self {
        Refusal {
            number: reason as u8,
            place,
        }
    }
}

/// A refusal without a place of its own points at 0.
impl From<Reason> for Refusal {
    fn from(reason: Reason) -> Self {
        Refusal::at(reason, 0)
    }
}

impl fmt::Display for Refusal {
    fn fmt(&self, f: &mut fmt::Formatter<'_>) -> fmt::Result {
        write!(f, "refused {} at {}", self.number, self.place)
    }
}

impl std::error::Error for Refusal {}

/// Refuses unless the condition holds.
pub(crate) fn ensure(condition: bool, reason: Reason, place: usize) -> Result<(), Refusal> {
    if condition {
        Ok(())
    } else {
        Err(Refusal::at(reason, place))
    }
}
