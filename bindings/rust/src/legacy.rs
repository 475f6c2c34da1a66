//! Legacy files, from before version 2; the crate's page says what they are.
use crate::{c, read, Counts, Edition, Refused};

/// Whether a file is accepted by the legacy reading, and its counts. Refusals: the file's, 1 to 12, by that reading. The crate's page says
/// how to find out which files are to be migrated.
pub fn validate_legacy(file: &[u8], edition: Edition) -> Result<Counts, Refused> {
    read::counts(unsafe { c::codeplug_validate_legacy(file.as_ptr(), file.len(), edition.number()) })
}

/// Migrates a legacy file in place: traits of channels and settings of DMR contacts change, so that every field reads by the new reading as
/// it did by the legacy one; every other byte stays. Answers as [`validate_legacy`] does, and a refused file is not touched. Migrating
/// twice is refused, 7, or changes nothing. A history of the legacy file is thrown away.
pub fn migrate(file: &mut [u8], edition: Edition) -> Result<Counts, Refused> {
    read::counts(unsafe { c::codeplug_migrate(file.as_mut_ptr(), file.len(), edition.number()) })
}
