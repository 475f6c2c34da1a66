//! The library's version.
use crate::c;

/// The version of the library that is linked: major, minor and patch.
pub fn version() -> (u8, u8, u8) {
    let [_, major, minor, patch] = unsafe { c::codeplug_version() }.to_be_bytes();
    (major, minor, patch)
}
