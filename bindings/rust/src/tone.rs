//! Tones, by their index in the table of 50.
use crate::c;

/// A tone of an FM channel. A disabled one is kept by the file, and is not in use.
#[derive(Clone, Copy, Debug, PartialEq, Eq)]
pub enum Tone {
    Enabled(u8),
    Disabled(u8),
}

impl Tone {
    /// The tone of a frequency in tenths of a hertz, enabled; none where no tone has it.
    pub fn of_frequency(tenths: u16) -> Option<Tone> {
        tone_index(tenths).map(Tone::Enabled)
    }

    /// Its index, enabled or not.
    pub fn index(self) -> u8 {
        match self {
            Tone::Enabled(index) | Tone::Disabled(index) => index,
        }
    }

    pub fn is_enabled(self) -> bool {
        matches!(self, Tone::Enabled(_))
    }

    pub(crate) fn from_c(index: u8, on: bool) -> Tone {
        if on {
            Tone::Enabled(index)
        } else {
            Tone::Disabled(index)
        }
    }
}

/// The frequency of tone 0 to 49, in tenths of a hertz; none past the table.
pub fn tone_frequency(index: u8) -> Option<u16> {
    match unsafe { c::codeplug_tone_frequency(index) } {
        0 => None,
        tenths => Some(tenths),
    }
}

/// The tone of a frequency in tenths of a hertz; none where no tone has it.
pub fn tone_index(tenths: u16) -> Option<u8> {
    match unsafe { c::codeplug_tone_index(tenths) } {
        255 => None,
        index => Some(index),
    }
}
