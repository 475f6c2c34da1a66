//! Why a call was refused.
use std::{error::Error, fmt};

/// A refusal: its number, its place and, by `text`, a line in plain English.
#[derive(Clone, Copy, Debug, PartialEq, Eq)]
pub struct Refused {
    /// 1 to 12: the file, a record or an edit's result; 20 to 25: a callsign or a buffer; 30 to 39: an edit or undo.
    pub number: u8,
    /// For 1 to 12 the offset of the bad field's first byte: in the file; from a writer, in the record; where an edit's result is refused,
    /// in that result. For 21 the character's position. Else 0.
    pub place: usize,
}

impl Refused {
    /// What the number means, in the words of bindings/c/include/codeplug.h.
    pub fn text(&self) -> &'static str {
        match self.number {
            1 => "the file is longer than 1,048,576 bytes",
            2 => "the file ends inside a field",
            3 => "the file does not begin as a codeplug",
            4 => "the file's version is not 1",
            5 => "a text holds a byte that no text may hold, or is too long",
            6 => "there is no such mode",
            7 => "a value, a reserved bit or a pad byte is outside its rule",
            8 => "an M17 address is neither a callsign's nor broadcast",
            9 => "a channel names a contact that is not there or has another mode",
            10 => "a bank does not start where its offset says",
            11 => "a bank names a channel that is not there",
            12 => "there are bytes after the last bank",
            20 => "a callsign has no character, or more than nine",
            21 => "a callsign holds a character that may not stand there",
            22 => "a callsign ends in a space",
            23 => "a number is neither a callsign's nor broadcast",
            24 => "a callsign's buffer is shorter than nine bytes",
            25 => "an output buffer is too short",
            30 => "a stated length is more than its buffer",
            31 => "the history is not whole entries",
            32 => "there is no such edit, or its record has the wrong length",
            33 => "there is no such place",
            34 => "there are 65,535 already",
            35 => "the contact is called by a channel, or the channel is in a bank",
            36 => "the result does not fit the codeplug's buffer",
            37 => "the edit's entry alone does not fit the history's buffer",
            38 => "there is nothing to undo",
            39 => "the last entry does not fit the codeplug or its room",
            0 => "not refused",
            _ => "there is no such refusal",
        }
    }
}

impl fmt::Display for Refused {
    fn fmt(&self, f: &mut fmt::Formatter) -> fmt::Result {
        write!(f, "refused {} at {}: {}", self.number, self.place, self.text())
    }
}

impl Error for Refused {}

/// The value, unless an answer's number says that it was refused.
pub(crate) fn accepted<T>(number: u8, place: usize, value: T) -> Result<T, Refused> {
    if number == 0 {
        Ok(value)
    } else {
        Err(Refused { number, place })
    }
}
