//! Legacy files.

use codeplug::c::ValidateAnswer;
use obcf_second::legacy;

use crate::edition::edition_of;
use crate::readers::validated;
use crate::slices::{buffer, bytes};

#[no_mangle]
pub unsafe extern "C" fn second_validate_legacy(file: *const u8, length: usize, edition: u32) -> ValidateAnswer {
    validated(legacy::validate_legacy(unsafe { bytes(file, length) }, edition_of(edition)))
}

#[no_mangle]
pub unsafe extern "C" fn second_migrate(file: *mut u8, length: usize, edition: u32) -> ValidateAnswer {
    validated(legacy::migrate(unsafe { buffer(file, length) }, edition_of(edition)))
}
