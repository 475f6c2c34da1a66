//! The empty codeplug.
use crate::{c, HEADER_SIZE};

/// The empty codeplug's file: no author, description, contact, channel or bank, timestamp 0.
pub fn write_empty() -> [u8; HEADER_SIZE] {
    let mut out = [0; HEADER_SIZE];
    let a = unsafe { c::codeplug_write_empty(out.as_mut_ptr(), out.len()) };
    assert_eq!(a.number, 0, "the buffer is long enough");
    out
}
