//! Slices from C's pointers and lengths.

use std::slice;

/// # Safety
/// `at` names `length` readable bytes; it may be null where that is 0.
pub unsafe fn bytes<'a>(at: *const u8, length: usize) -> &'a [u8] {
    if at.is_null() {
        return &[];
    }
    unsafe { slice::from_raw_parts(at, length) }
}

/// # Safety
/// `at` names `length` writable bytes that nothing else names; it may be null where that is 0.
pub unsafe fn buffer<'a>(at: *mut u8, length: usize) -> &'a mut [u8] {
    if at.is_null() {
        return &mut [];
    }
    unsafe { slice::from_raw_parts_mut(at, length) }
}

/// Puts a text and its padding over a field of 32 bytes.
pub fn put_text(field: &mut [u8], text: &[u8]) {
    field.fill(0);
    field[..text.len()].copy_from_slice(text);
}
