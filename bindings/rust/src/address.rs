//! M17 addresses.
use crate::refused::accepted;
use crate::{c, text, Edition, Refused, CALLSIGN_SIZE};

/// Whom an M17 contact calls.
#[derive(Clone, Copy, Debug, PartialEq, Eq)]
pub enum Address {
    /// A callsign's number, 1 to 262,143,999,999,999; by the newer edition a hash address's too, to 268,697,599,999,999.
    Callsign(u64),
    Broadcast,
}

impl Address {
    /// The address of a callsign. Refusals: 20, 21, 22.
    pub fn of_callsign(text: &str, edition: Edition) -> Result<Address, Refused> {
        encode_callsign(text, edition).map(Address::Callsign)
    }

    /// Its callsign; none for broadcast. Refusal: 23.
    pub fn callsign(self, edition: Edition) -> Result<Option<String>, Refused> {
        match self {
            Address::Callsign(number) => decode_address(number, edition),
            Address::Broadcast => Ok(None),
        }
    }
}

/// A callsign's number. Refusals: 20, 21, 22. A hash sign counts as a character; by the newer edition it is refused, 21, where it does not
/// stand first, by the older one wherever it stands.
pub fn encode_callsign(text: &str, edition: Edition) -> Result<u64, Refused> {
    let a = unsafe { c::codeplug_encode_callsign(text.as_ptr(), text.len(), edition.number()) };
    accepted(a.number, a.place, a.address)
}

/// A number's callsign; none where it is broadcast. Refusal: 23.
pub fn decode_address(number: u64, edition: Edition) -> Result<Option<String>, Refused> {
    let mut callsign = [0; CALLSIGN_SIZE];
    let a = unsafe { c::codeplug_decode_address(number, callsign.as_mut_ptr(), callsign.len(), edition.number()) };
    accepted(a.number, a.place, (a.broadcast == 0).then(|| text::text_of(&callsign)))
}
