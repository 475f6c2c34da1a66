//! The two readings of a codeplug: the new one, by which all else is done, and the legacy one, of files from before version 2 of the library.
//! They differ in traits and settings alone. And what is said where another reading, or the newer edition of M17 addresses, would help.
use crate::explain::refused_file;
use crate::fail::Fail;
use codeplug::{decode_address, encode_callsign, validate, validate_legacy, Counts, Edition, Refused};
use std::ffi::OsStr;

#[derive(Clone, Copy)]
pub enum Reading {
    New,
    Legacy,
}

impl Reading {
    pub fn validate(self, file: &[u8], edition: Edition) -> Result<Counts, Refused> {
        match self {
            Reading::New => validate(file, edition),
            Reading::Legacy => validate_legacy(file, edition),
        }
    }

    /// A file that this reading refuses, by an edition, in words: the record and the field, and what helps.
    pub fn refused(self, name: &OsStr, file: &[u8], edition: Edition, refused: Refused) -> Fail {
        Fail::Refused { about: shown(name), refused, words: refused_file(file, refused) + self.help(file, edition, refused) }
    }

    /// What helps where the newer edition or the other reading accepts the file, or gets further.
    fn help(self, file: &[u8], edition: Edition, refused: Refused) -> &'static str {
        // The editions differ in refusal 8 of hash addresses alone (document 02, [10]), so what is refused is one.
        if self.validate(file, Edition::Newer) != Err(refused) {
            return HASH;
        }
        match self {
            Reading::New => match validate_legacy(file, edition) {
                Ok(_) => LEGACY,
                // The readings differ in traits and settings alone, so the first refusal is of such a byte.
                Err(later) if refused.place < later.place => DAMAGED,
                Err(_) => "",
            },
            // The newer edition accepts what the older accepts.
            Reading::Legacy if validate(file, Edition::Newer).is_ok() => NEW,
            Reading::Legacy => "",
        }
    }
}

/// What helps where an edition refuses an address that the newer one has.
pub fn address_help(number: u64, edition: Edition) -> &'static str {
    match (decode_address(number, edition), decode_address(number, Edition::Newer)) {
        (Err(_), Ok(_)) => HASH,
        _ => "",
    }
}

/// What helps where an edition refuses a callsign that the newer one accepts, or gets further with.
pub fn callsign_help(text: &str, refused: Refused) -> &'static str {
    if encode_callsign(text, Edition::Newer) == Err(refused) {
        ""
    } else {
        HASH_SIGN
    }
}

const HASH: &str = ". It is a hash address, which needs --edition newer";
const HASH_SIGN: &str = ". A hash sign at the beginning needs --edition newer";
/// Of a history that the newer edition takes back, and another does not.
pub const HASH_BEFORE: &str = "the codeplug before that has a hash address, which needs --edition newer";
const LEGACY: &str = ". It is a legacy codeplug, from before version 2 of the library: 'codeplug migrate FILE' migrates it";
const DAMAGED: &str = ". If it is a legacy codeplug, 'codeplug check --legacy FILE' says what is wrong with it";
const NEW: &str = ". It is in the new order already: there is nothing to migrate";

/// A file as it was named.
pub fn shown(name: &OsStr) -> String {
    if name == "-" {
        "standard input".into()
    } else {
        name.to_string_lossy().into_owned()
    }
}
