//! Contacts.
use crate::c::{self, ContactValues};
use crate::refused::accepted;
use crate::{text, Address, Edition, Refused, CONTACT_SIZE};

#[derive(Clone, Debug, PartialEq, Eq)]
pub struct Contact {
    pub name: String,
    pub info: ContactInfo,
}

/// What a contact has by its mode.
#[derive(Clone, Copy, Debug, PartialEq, Eq)]
pub enum ContactInfo {
    /// `id`: any. `contact_type`: 0 group, 1 private, 2 all call.
    Dmr {
        id: u32,
        contact_type: u8,
        rx_tone: bool,
    },
    M17(Address),
}

impl Contact {
    pub(crate) fn from_c(name: &[u8], values: ContactValues) -> Contact {
        let info = match values.mode {
            1 => ContactInfo::Dmr { id: values.id, contact_type: values.contact_type, rx_tone: values.rx_tone != 0 },
            _ if values.broadcast != 0 => ContactInfo::M17(Address::Broadcast),
            _ => ContactInfo::M17(Address::Callsign(values.address)),
        };
        Contact { name: text::text_of(name), info }
    }
}

fn values_of(info: ContactInfo) -> ContactValues {
    match info {
        ContactInfo::Dmr { id, contact_type, rx_tone } => {
            ContactValues { mode: 1, id, contact_type, rx_tone: rx_tone.into(), ..Default::default() }
        }
        ContactInfo::M17(Address::Callsign(address)) => ContactValues { mode: 2, address, ..Default::default() },
        ContactInfo::M17(Address::Broadcast) => ContactValues { mode: 2, broadcast: 1, ..Default::default() },
    }
}

/// A contact's record. Refusals: 5 at 0, 8 at 33 or 7 at 37.
pub fn write_contact(contact: &Contact, edition: Edition) -> Result<[u8; CONTACT_SIZE], Refused> {
    let mut out = [0; CONTACT_SIZE];
    let name = contact.name.as_bytes();
    let (values, edition) = (values_of(contact.info), edition.number());
    let a = unsafe { c::codeplug_write_contact(out.as_mut_ptr(), out.len(), name.as_ptr(), name.len(), values, edition) };
    accepted(a.number, a.place, out)
}
