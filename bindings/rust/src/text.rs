//! Text fields of 32 bytes, padded with zeros.
use crate::refused::accepted;
use crate::{c, Refused, TEXT_SIZE};

/// The text of a field that the library has accepted: bytes 0x20 to 0x7E, then zeros.
pub(crate) fn text_of(field: &[u8]) -> String {
    field.iter().take_while(|b| **b != 0).map(|b| char::from(*b)).collect()
}

/// A text as its field, as the edits of banks and of the header carry it. Refusal: 5.
pub fn write_text(text: &str) -> Result<[u8; TEXT_SIZE], Refused> {
    let mut out = [0; TEXT_SIZE];
    let a = unsafe { c::codeplug_write_text(out.as_mut_ptr(), out.len(), text.as_ptr(), text.len()) };
    accepted(a.number, a.place, out)
}
